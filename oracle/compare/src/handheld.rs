//! The handheld's calls: the text against the other implementation, the port against the steps written out for three rows too, and each against its own
//! lent call of order 3.

use std::collections::BTreeMap;

use oracle::by_value;
use oracle::call::{Call, Calls, Case, Outcome};
use oracle::paper::Paper;
use oracle::text::Text;

use crate::Tally;

/// The handheld's calls, and what they are held against.
#[derive(Default)]
pub struct Held {
    per_call: BTreeMap<Call, u64>,
    /// Factors by their sizes, and by their marks.
    per_sizes: BTreeMap<[u32; 3], u64>,
    per_mark: BTreeMap<u32, u64>,
    /// Solves by code and place.
    per_answer: BTreeMap<u64, u64>,
    /// Beside a lent call of the cases.
    beside: u64,
}

impl Held {
    pub fn calls(&self) -> u64 {
        self.per_call.values().sum()
    }

    fn count(&mut self, case: &Case, text: &Outcome) {
        *self.per_call.entry(case.call).or_default() += 1;
        if case.call == Call::HandheldFactor {
            let pivots = by_value::pivots(&text.record);
            *self.per_sizes.entry(pivots.size).or_default() += 1;
            *self.per_mark.entry(pivots.mark).or_default() += 1;
        } else {
            *self.per_answer.entry(text.answer).or_default() += 1;
        }
    }

    pub fn print(&self) {
        for (call, count) in &self.per_call {
            println!("  {:<24}{count:>7}", call.form().name);
        }
        for ([s0, s1, s2], count) in &self.per_sizes {
            println!("  handheld, sizes {s0} {s1} {s2}   {count:>7}");
        }
        for (mark, count) in &self.per_mark {
            println!("  handheld, mark {mark:<9}{count:>7}");
        }
        for (answer, count) in &self.per_answer {
            println!("  handheld, code {} at {:<4}{count:>7}", answer / 4096, answer % 4096);
        }
        println!("  calls of the handheld beside lent ones of the cases: {}", self.beside);
    }
}

impl Tally<'_> {
    /// The handheld's calls beside a lent one of order 3.
    pub fn hold_held_beside(&mut self, lent: &Case) {
        for case in by_value::beside(lent) {
            self.held.beside += 1;
            self.hold_held(&case);
        }
    }

    /// A call of the handheld, and its lent one.
    pub fn hold_held(&mut self, case: &Case) {
        let lent = by_value::lent(case);
        let [text, other] = [&Text, self.other].map(|calls: &dyn Calls| case.outcome(calls));
        self.held.count(case, &text);
        self.hold_alike(case, &text, &other);
        if !self.steps {
            self.hold_one_alike(case, "three rows", &case.outcome(&Paper), &other);
        }
        for (calls, found, name) in [(&Text as &dyn Calls, &text, "text"), (self.other, &other, "other")] {
            self.hold_kept(case, &lent, &by_value::kept(case, &lent.outcome(calls)), found, name);
        }
    }
}
