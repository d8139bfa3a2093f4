//! Trays: the text against the other implementation, the port against the steps too, and each against its own factor and solve of every item, and against
//! its own tray with another item in one place.

use std::collections::BTreeMap;

use oracle::call::{Call, Calls, Case, Outcome, pairs, record_length};
use oracle::line::{case_line, outcome_line};
use oracle::paper::Paper;
use oracle::text::Text;
use oracle::tray;

use crate::Tally;

/// Trays, and what they are held against.
#[derive(Default)]
pub struct Trays {
    per_code: BTreeMap<u64, u64>,
    /// Items by the code of their answers.
    items: BTreeMap<u64, u64>,
    /// Trays with marked items and solved ones.
    mixed: u64,
    size_two: u64,
    /// Trays with another item in one place.
    changed: u64,
}

impl Trays {
    pub fn calls(&self) -> u64 {
        self.per_code.values().sum()
    }

    fn count(&mut self, case: &Case, text: &Outcome) {
        *self.per_code.entry(text.answer / 4096).or_default() += 1;
        if text.answer != 0 {
            return;
        }
        for answer in &text.answers {
            *self.items.entry(answer / 4096).or_default() += 1;
        }
        let solved = text.answers.iter().filter(|&&answer| answer == 0).count();
        self.mixed += u64::from(0 < solved && solved < case.x);
        let rows = text.record.chunks_exact(record_length(case.n)).flat_map(pairs);
        self.size_two += rows.filter(|pair| pair[1] == 2).count() as u64 / 2;
    }

    pub fn print(&self) {
        println!("  {:<24}{:>7}", Call::LbltTray.form().name, self.calls());
        for (code, count) in &self.per_code {
            println!("  tray, code {code:<13}{count:>7}");
        }
        for (code, count) in &self.items {
            println!("  items, code {code:<12}{count:>7}");
        }
        println!("  trays with marked items beside solved ones: {}; blocks of size 2 in trays: {}", self.mixed, self.size_two);
        println!("  trays with another item in one place, the others held against the first: {}", self.changed);
    }
}

impl Tally<'_> {
    pub fn hold_tray(&mut self, case: &Case) {
        let [text, other] = [&Text, self.other].map(|calls: &dyn Calls| case.outcome(calls));
        self.trays.count(case, &text);
        self.hold_alike(case, &text, &other);
        if !self.steps {
            self.hold_one_alike(case, "steps", &case.outcome(&Paper), &other);
        }
        for (calls, found, name) in [(&Text as &dyn Calls, &text, "text"), (self.other, &other, "other")] {
            let kept = tray::kept(case, calls);
            if kept != *found {
                let [kept, found] = [&kept, found].map(|outcome| outcome_line(case, outcome));
                self.differ(case.size(), format!("{}\nitem by item, by the {name}\nkept  {kept}\nfound {found}", case_line(case)));
            }
        }
        if text.answer == 0 && case.x > 0 {
            self.hold_others(case, [&text, &other]);
        }
    }

    /// One of the items becomes another, the first, the last or one between; what the others get stays.
    fn hold_others(&mut self, case: &Case, first: [&Outcome; 2]) {
        let item = self.trays.changed as usize % case.x;
        self.trays.changed += 1;
        let changed = tray::with_another(case, item);
        for ((calls, left), name) in [&Text as &dyn Calls, self.other].into_iter().zip(first).zip(["text", "other"]) {
            let found = changed.outcome(calls);
            if tray::without(left, case.n, item) != tray::without(&found, case.n, item) {
                let [left, found] = [left, &found].map(|outcome| outcome_line(case, outcome));
                let lines = format!("{}\n{}", case_line(case), case_line(&changed));
                self.differ(case.size(), format!("{lines}\nwith another item {item}, by the {name}\nfirst {left}\nfound {found}"));
            }
        }
    }
}
