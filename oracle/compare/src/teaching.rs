//! The teaching call: the text against the other implementation, the port against the steps row by row too, and each against its own factor.

use std::collections::BTreeMap;

use oracle::call::{Call, Calls, Case, Outcome};
use oracle::paper::Paper;
use oracle::teaching::{self, Law};
use oracle::text::Text;

use crate::Tally;

/// The teaching calls, and what they are held against.
#[derive(Default)]
pub struct Taught {
    per_code: BTreeMap<u64, u64>,
    per_law: BTreeMap<Law, u64>,
    /// Refused calls beside which the factor changes rows below the refused one.
    parted: u64,
}

impl Taught {
    pub fn calls(&self) -> u64 {
        self.per_code.values().sum()
    }

    pub fn print(&self) {
        println!("  {:<24}{:>7}", Call::CholeskyTeaching.form().name, self.calls());
        for (code, count) in &self.per_code {
            println!("  teaching, code {code:<9}{count:>7}");
        }
        for (law, count) in &self.per_law {
            println!("  {}: {count}", said(*law));
        }
        println!("  rows below a refused one that the factor changes and the teaching call does not: in {} calls", self.parted);
    }
}

fn said(law: Law) -> &'static str {
    match law {
        Law::AboveMost => "an order above 64, refused by 1 whatever the factor does",
        Law::RefusesSizes => "the factor refuses the sizes, the same",
        Law::Accepts => "the factor accepts, the same",
        Law::RefusesRow => "the factor refuses a row, the same answer and its rows up to there, all else as given",
    }
}

impl Tally<'_> {
    /// The teaching call beside a factor, which the text and the other implementation have answered.
    pub fn hold_taught_beside(&mut self, factor: &Case, text: &Outcome, other: &Outcome) {
        let Some(case) = teaching::beside(factor) else { return };
        let found = [&Text, self.other].map(|calls: &dyn Calls| case.outcome(calls));
        let law = teaching::law(&case, text);
        *self.taught.per_code.entry(found[0].answer / 4096).or_default() += 1;
        *self.taught.per_law.entry(law).or_default() += 1;
        self.taught.parted += u64::from(law == Law::RefusesRow && text.a != found[0].a);
        self.hold_alike(&case, &found[0], &found[1]);
        if !self.steps {
            self.hold_one_alike(&case, "rows", &case.outcome(&Paper), &found[1]);
        }
        for ((left, found), name) in [text, other].into_iter().zip(&found).zip(["text", "other"]) {
            self.hold_kept(&case, factor, &teaching::kept(&case, left), found, name);
        }
    }

    /// A teaching call, with the factor beside it.
    pub fn hold_taught(&mut self, case: &Case) {
        let factor = teaching::factor(case);
        let [text, other] = [&Text, self.other].map(|calls: &dyn Calls| factor.outcome(calls));
        self.hold_taught_beside(&factor, &text, &other);
    }
}
