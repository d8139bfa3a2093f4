//! A tray (document 02, E10): what it answers and leaves by what the factor and the solve of each item do, and by a tray with another item in one place.

use crate::call::{Call, Calls, Case, Outcome, record_length, words};
use crate::cases::{Rng, SPECIAL};

/// The most items, and the greatest order.
pub const MOST_ITEMS: usize = 1024;
pub const MOST_ORDER: usize = 64;

/// The code of a tray that is refused as a whole.
fn refused(tray: &Case) -> Option<u64> {
    let (n, count) = (tray.n, tray.x);
    if count > MOST_ITEMS || n > MOST_ORDER {
        return Some(1);
    }
    let others = [tray.record.len(), tray.b.len(), tray.runs.len(), tray.answers.len()];
    let wanted = [record_length(n), n, 1, 1].map(|each| count * each);
    match (tray.a.len() == count * n * n, others == wanted) {
        (false, _) => Some(3),
        (true, false) => Some(4),
        (true, true) => None,
    }
}

/// An item by itself, to be factored.
fn alone(tray: &Case, item: usize) -> Case {
    let n = tray.n;
    let record = tray.record[item * record_length(n)..][..record_length(n)].to_vec();
    let b = tray.b[item * n..][..n].to_vec();
    Case { x: 1, run: tray.runs[item], record, b, ..Case::new(Call::LbltFactor, n, tray.a[item * n * n..][..n * n].to_vec()) }
}

/// What a tray is to answer and leave: refused, all as given; else by a factor call and a solve call for each item in turn.
pub fn kept(tray: &Case, calls: &dyn Calls) -> Outcome {
    let runs = tray.runs.clone();
    if let Some(code) = refused(tray) {
        let (record, answers) = (tray.record.clone(), tray.answers.clone());
        return Outcome { answer: code << 12, a: words(&tray.a), b: words(&tray.b), record, runs, answers, ..Outcome::default() };
    }
    let mut kept = Outcome { runs, ..Outcome::default() };
    for item in 0..tray.x {
        let mut alone = alone(tray, item);
        alone.run_in_place(calls);
        alone.call = Call::LbltSolve;
        let (answer, _) = alone.run_in_place(calls);
        kept.a.extend(words(&alone.a));
        kept.record.extend(alone.record);
        kept.b.extend(words(&alone.b));
        kept.answers.push(answer);
    }
    kept
}

/// The tray with another item in this place: its matrix, record, side, run number and answer.
pub fn with_another(tray: &Case, item: usize) -> Case {
    let r = &mut Rng::new((tray.size() * MOST_ITEMS + item) as u64);
    let kind = r.below(4);
    let mut number = || match kind {
        0 => f64::from_bits(r.word()),
        1 => r.pick(&SPECIAL),
        2 => 0.0,
        _ => r.unit(),
    };
    let n = tray.n;
    let mut other = tray.clone();
    other.a[item * n * n..][..n * n].fill_with(&mut number);
    other.b[item * n..][..n].fill_with(&mut number);
    other.record[item * record_length(n)..][..record_length(n)].fill_with(|| r.word() as u32);
    other.runs[item] = r.word() as u32;
    other.answers[item] = r.word();
    other
}

/// What a tray of order n answers and leaves, without this item.
pub fn without(left: &Outcome, n: usize, item: usize) -> Outcome {
    fn rest<T: Clone>(all: &[T], each: usize, item: usize) -> Vec<T> {
        [&all[..item * each], &all[(item + 1) * each..]].concat()
    }
    Outcome {
        a: rest(&left.a, n * n, item),
        record: rest(&left.record, record_length(n), item),
        b: rest(&left.b, n, item),
        runs: rest(&left.runs, 1, item),
        answers: rest(&left.answers, 1, item),
        ..left.clone()
    }
}
