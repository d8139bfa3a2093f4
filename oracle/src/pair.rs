//! Two runs of one bench that differ only in the columns of the others (document 02, E3).

use crate::call::{Case, Outcome, words};
use crate::cases::{Rng, SPECIAL};

/// The number at this place of the sides stands in a column of the bench.
fn own(case: &Case, at: usize) -> bool {
    at.checked_div(case.n).and_then(|j| case.benches.get(j)) == Some(&case.bench)
}

/// The second run, if there is a column to differ in.
pub fn second(first: &Case) -> Option<Case> {
    let r = &mut Rng::new(first.size() as u64);
    let mut second = first.clone();
    let others: Vec<usize> = (0..first.b.len()).filter(|&at| !own(first, at)).collect();
    for &at in &others {
        second.b[at] = if r.one_in(4) { r.pick(&SPECIAL) } else { f64::from_bits(r.word()) };
    }
    (!others.is_empty()).then_some(second)
}

/// What a run is to answer and leave by what one of the two answers and leaves: the same, the other columns as given.
pub fn kept(run: &Case, left: &Outcome) -> Outcome {
    let given = words(&run.b);
    let b = (0..given.len()).map(|at| if own(run, at) { left.b[at] } else { given[at] }).collect();
    Outcome { b, ..left.clone() }
}
