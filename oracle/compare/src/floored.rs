//! The floored calls: the text against the other implementation, and each against its own plain call and its own one call.

use std::collections::BTreeMap;

use oracle::call::{Call, Calls, Case, Outcome};
use oracle::cases::{self, Chain};
use oracle::floored::{self, Law};
use oracle::line::{case_line, outcome_line};
use oracle::text::Text;

use crate::Tally;

/// The floored calls, and what they are held against.
#[derive(Default)]
pub struct Floored {
    per_call: BTreeMap<Call, u64>,
    per_code: BTreeMap<u64, u64>,
    /// Columns in which a floor stood in.
    used: u64,
    per_law: BTreeMap<Law, u64>,
    chains: Chains,
}

/// Accepted chains with columns that used the floor, those of them with such columns in several batches, accepted ones with none, and chains that end with
/// a refused batch.
#[derive(Default)]
struct Chains {
    used: u64,
    in_several: u64,
    none_used: u64,
    refused: u64,
    batches: u64,
}

impl Floored {
    pub fn calls(&self) -> u64 {
        self.per_call.values().sum()
    }

    pub fn chains(&self) -> u64 {
        self.chains.refused + self.chains.used + self.chains.none_used
    }

    pub fn print(&self) {
        for (call, count) in &self.per_call {
            println!("  {:<24}{count:>7}", call.form().name);
        }
        for (code, count) in &self.per_code {
            println!("  floored, code {code:<10}{count:>7}");
        }
        println!("  columns in which a floor stood in: {}", self.used);
        for (law, count) in &self.per_law {
            println!("  {}: {count}", said(*law));
        }
        let Chains { refused, used, none_used, in_several, batches } = &self.chains;
        println!(
            "  chains of floored batches, as one call and with its count: {used} with columns used, {in_several} of them in several batches, \
             {none_used} with none used, {refused} refused, with {batches} batches"
        );
    }
}

fn said(law: Law) -> &'static str {
    match law {
        Law::FailingFloor => "a floor that fails, as the plain call with none used",
        Law::PlainAccepts => "the plain call accepts, the same with none used",
        Law::PlainRefusesSizes => "the plain call refuses the sizes, the same with none used",
        Law::NoneUsed => "none used, the same as the plain call",
        Law::Refused => "refused, with none used",
        Law::PassingFloor => "a floor that passes, with nothing but the sizes refused",
        Law::FirstUsed => "a column that the plain call refuses, with the floor in place of its diagonal",
    }
}

impl Tally<'_> {
    /// The floored calls beside a plain one, which the text and the other implementation have answered.
    pub fn hold_floors(&mut self, plain: &Case, text: &Outcome, other: &Outcome) {
        for case in floored::beside(plain) {
            self.hold_floored_beside(&case, [text, other]);
        }
    }

    /// A floored call, with the plain one beside it.
    pub fn hold_floored(&mut self, case: &Case) {
        let plain = floored::plain(case);
        let [text, other] = [&Text, self.other].map(|calls: &dyn Calls| plain.outcome(calls));
        self.hold_floored_beside(case, [&text, &other]);
    }

    fn hold_floored_beside(&mut self, case: &Case, plain: [&Outcome; 2]) {
        let [text, other] = [&Text, self.other].map(|calls: &dyn Calls| case.outcome(calls));
        *self.floored.per_call.entry(case.call).or_default() += 1;
        *self.floored.per_code.entry(text.answer / 4096).or_default() += 1;
        self.floored.used += text.value.unwrap_or(0);
        self.hold_alike(case, &text, &other);
        for (law, _) in floored::laws(case, plain[0], &text) {
            *self.floored.per_law.entry(law).or_default() += 1;
        }
        for ((found, plain), name) in [text, other].iter().zip(plain).zip(["text", "other"]) {
            for (law, holds) in floored::laws(case, plain, found) {
                if !holds {
                    let [plain, found] = [plain, found].map(|outcome| outcome_line(case, outcome));
                    let said = format!("{}\n{}, by the {name}\nplain {plain}\nfound {found}", case_line(case), said(law));
                    self.differ(case.size(), said);
                }
            }
        }
    }

    /// A chain of plain batches, with floors.
    pub fn hold_floored_chains(&mut self, chain: &Chain) {
        for floor in cases::floors_for(chain) {
            self.hold_floored_chain(chain, floor);
        }
    }

    /// Demand 3 with one floor for all batches: each batch by the text and by the other implementation, and the batches of each up to every cut against its
    /// own one call on the rows up to there. Above order 130 up to the last cut alone.
    pub fn hold_floored_chain(&mut self, chain: &Chain, floor: f64) {
        let [text, other] = [&Text, self.other].map(|calls: &dyn Calls| floored::floored_batches(calls, chain, floor));
        let used = text.iter().filter(|(_, left)| left.value != Some(0)).count();
        let chains = &mut self.floored.chains;
        chains.batches += text.len() as u64;
        match text.last() {
            Some((_, left)) if left.answer != 0 => chains.refused += 1,
            _ if used == 0 => chains.none_used += 1,
            _ => chains.used += 1,
        }
        chains.in_several += u64::from(used > 1);
        for ((batch, left), (_, by_other)) in text.iter().zip(&other) {
            self.hold_alike(batch, left, by_other);
        }
        for (calls, batches, name) in [(&Text as &dyn Calls, text, "text"), (self.other, other, "other")] {
            let first = if chain.n <= 130 { 1 } else { batches.len() };
            for upto in first..=batches.len() {
                let batches = &batches[..upto];
                let Some(((last, _), found)) = batches.last().zip(floored::together(batches)) else { continue };
                let whole = floored::one_call(chain, last.n, floor);
                let left = whole.outcome(calls);
                if left != found {
                    let cuts = &chain.cuts[..upto];
                    let [left, found] = [left, found].map(|outcome| outcome_line(&whole, &outcome));
                    let said =
                        format!("{}\nin batches that end at {cuts:?}, by the {name}\nwhole {left}\nfound {found}", case_line(&whole));
                    self.differ(whole.size(), said);
                }
            }
        }
    }
}
