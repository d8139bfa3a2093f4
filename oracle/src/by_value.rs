//! The handheld's calls, by value (document 02, E13): what they give by what the lent calls of order 3 answer and leave on the same numbers.

use crate::call::{Call, Case, Outcome, Pivots3, record_length, words};

/// The run number of the lent calls; the handheld has none.
const RUN: u32 = 20_261_117;

/// What stands where pivots go, before a factor.
const BEFORE: [u32; 7] = [9; 7];

pub fn factor(matrix: Vec<f64>) -> Case {
    Case { record: BEFORE.to_vec(), ..Case::new(Call::HandheldFactor, 0, matrix) }
}

pub fn solve(matrix: Vec<f64>, pivots: Pivots3, side: Vec<f64>) -> Case {
    Case { record: pivots.words().to_vec(), b: side, ..Case::new(Call::HandheldSolve, 0, matrix) }
}

/// Index and size of each row in turn, and the mark, by themselves.
fn apart(record: &[u32]) -> Pivots3 {
    Pivots3 { index: [record[0], record[2], record[4]], size: [record[1], record[3], record[5]], mark: record[6] }
}

fn in_turn(pivots: Pivots3) -> Vec<u32> {
    let ([i0, i1, i2], [s0, s1, s2]) = (pivots.index, pivots.size);
    vec![i0, s0, i1, s1, i2, s2, pivots.mark, RUN]
}

pub fn pivots(handheld: &[u32]) -> Pivots3 {
    Pivots3::of(handheld.try_into().expect("seven words"))
}

/// The handheld's calls on what a lent call of order 3 is lent: of a solve one for each column, whatever run it expects.
pub fn beside(lent: &Case) -> Vec<Case> {
    let of_order_3 = lent.n == 3 && lent.a.len() == 9 && lent.record.len() == record_length(3);
    match lent.call {
        Call::LbltFactor if of_order_3 => vec![factor(lent.a.clone())],
        Call::LbltSolve if of_order_3 && lent.b.len() == 3 * lent.x => {
            lent.b.chunks_exact(3).map(|side| solve(lent.a.clone(), apart(&lent.record), side.to_vec())).collect()
        }
        _ => vec![],
    }
}

/// The lent call on what a call of the handheld takes.
pub fn lent(handheld: &Case) -> Case {
    let a = handheld.a.clone();
    match handheld.call {
        Call::HandheldFactor => Case { run: RUN, record: vec![9; record_length(3)], ..Case::new(Call::LbltFactor, 3, a) },
        _ => {
            let record = in_turn(pivots(&handheld.record));
            Case { x: 1, run: RUN, record, b: handheld.b.clone(), ..Case::new(Call::LbltSolve, 3, a) }
        }
    }
}

/// What a call of the handheld is to give by what the lent one answers and leaves: the lower entries, pivots and mark, or answer and side; all else as given.
pub fn kept(handheld: &Case, lent: &Outcome) -> Outcome {
    let given = words(&handheld.a);
    let (a, record) = match handheld.call {
        Call::HandheldFactor => {
            let a = (0..9).map(|at| if at / 3 <= at % 3 { lent.a[at] } else { given[at] }).collect();
            (a, apart(&lent.record).words().to_vec())
        }
        _ => (given, handheld.record.clone()),
    };
    let b = if lent.answer == 0 { lent.b.clone() } else { words(&handheld.b) };
    Outcome { a, record, b, ..lent.clone() }
}
