//! Packed triangles beside those of the full calls: refusals, the greatest orders, and chains of batches.

use super::families::{Chain, order, some_cuts};
use super::filled;
use super::fixed::{RUN, SPECIAL, fits, spoiled};
use super::matrices::{FOR_SOLVE, Symmetric, again, exact, heavy_diagonal, symmetric};
use super::rng::Rng;
use crate::call::{Call, Case, FORMS, record_length};
use crate::packed::packed_length;

fn rows_that_stay(n: usize) -> Vec<u32> {
    (0..n as u32).flat_map(|k| [k, 1]).chain([0, RUN]).collect()
}

/// Sound calls of one order on rising numbers; the solves have two columns, the further batch comes after every earlier order.
fn sound(n: usize) -> Vec<Case> {
    let case = |call| Case::new(call, n, filled(packed_length(n)));
    let of_lblt = |call| Case { run: RUN, record: rows_that_stay(n), ..case(call) };
    let two = |case: Case| Case { x: 2, b: filled(2 * n), ..case };
    let batch = |earlier| Case {
        x: earlier,
        b: filled(packed_length(n) - packed_length(earlier)),
        c: filled(packed_length(n)),
        ..Case::new(Call::PackedCholeskyExtend, n, filled(packed_length(earlier)))
    };
    let mut out = vec![
        of_lblt(Call::PackedLbltFactor),
        two(of_lblt(Call::PackedLbltSolve)),
        of_lblt(Call::PackedLbltDeterminant),
        case(Call::PackedCholeskyFactor),
        two(case(Call::PackedCholeskySolve)),
        case(Call::PackedFirstTwin),
    ];
    out.extend((0..=n).map(batch));
    out
}

/// Sound calls of orders 0 to 3 and the same with one or two things wrong: counts, orders, lengths, words of a record, the run number.
pub fn packed_refusals() -> Vec<Case> {
    let mut out = vec![];
    (0..4).flat_map(sound).for_each(|base| spoiled(&mut out, &base));
    out.retain(fits);
    out
}

/// The full calls, in a room of the order, on as many numbers as the packed ones take.
pub fn full_calls_on_triangles() -> Vec<Case> {
    let mut out = vec![];
    for n in 2..6 {
        for form in FORMS.iter().filter(|form| form.call.packed().is_some()) {
            let case = Case::new(form.call, n, filled(packed_length(n)));
            out.push(match form.call {
                Call::LbltFactor | Call::LbltDeterminant => Case { run: RUN, record: rows_that_stay(n), ..case },
                Call::LbltSolve => Case { x: 1, b: filled(n), run: RUN, record: rows_that_stay(n), ..case },
                Call::CholeskyExtend => Case { x: n, y: 1, ..case },
                Call::CholeskySolve => Case { x: n, y: 1, b: filled(n), ..case },
                _ => Case { x: n, ..case },
            });
        }
    }
    out
}

/// Order 1,024 and as many columns, and 1,025 of each with slices to match.
pub fn largest_packed() -> Vec<Case> {
    let batch = |earlier: usize, n: usize| Case {
        x: earlier,
        b: filled(packed_length(n).saturating_sub(packed_length(earlier))),
        c: filled(packed_length(n)),
        ..Case::new(Call::PackedCholeskyExtend, n, filled(packed_length(earlier)))
    };
    let mut out = vec![batch(1024, 1024), batch(0, 1025), batch(1024, 1025), batch(1025, 1025), batch(1025, 1024), batch(1024, 1023)];
    for n in [0, 1, 3] {
        for columns in [1024, 1025] {
            let sides = Case { x: columns, b: filled(n * columns), ..Case::new(Call::PackedCholeskySolve, n, filled(packed_length(n))) };
            out.push(Case { call: Call::PackedLbltSolve, run: RUN, record: rows_that_stay(n), ..sides.clone() });
            out.push(sides);
        }
    }
    let n = 1025;
    let a = || filled(packed_length(n));
    out.push(Case { record: vec![9; record_length(n)], ..Case::new(Call::PackedLbltDeterminant, n, a()) });
    out.push(Case { x: 1, b: filled(n), ..Case::new(Call::PackedCholeskySolve, n, a()) });
    out.push(Case::new(Call::PackedFirstTwin, n, a()));
    out
}

/// Order 1,024, accepted and refused in the last batch.
pub fn largest_chains() -> Vec<Chain> {
    let r = &mut Rng::new(1029);
    let n = 1024;
    let heavy = heavy_diagonal(r, n);
    let refused = heavy.with(1023, 1023, -1.0);
    [heavy, refused].map(|m| chain(&m, n, vec![300, 1023, 1024, 1024])).into()
}

fn chain(m: &Symmetric, room: usize, cuts: Vec<usize>) -> Chain {
    Chain { a: m.placed(room, true, |_| f64::NAN), n: m.n, room, cuts }
}

/// Cuts in rising order, once with each and once with one of them twice: every set of them up to the order.
fn all_cuts(n: usize) -> Vec<Vec<usize>> {
    let mut out = vec![];
    for set in 1..1 << (n + 1) {
        let cuts: Vec<usize> = (0..=n).filter(|cut| set >> cut & 1 == 1).collect();
        for at in 0..cuts.len() {
            let mut again = cuts.clone();
            again.insert(at, cuts[at]);
            out.push(again);
        }
        out.push(cuts);
    }
    out
}

/// Matrices of orders up to 5, in batches that end at all cuts: accepted ones, refused ones by each code and at each row, rows that came twice, and a
/// special number in each place.
pub fn chains_of_all_cuts() -> Vec<Chain> {
    let r = &mut Rng::new(67);
    let mut out = vec![];
    for n in 0..=5 {
        for m in small_matrices(r, n) {
            let room = n + r.below(2);
            out.extend(all_cuts(n).into_iter().map(|cuts| chain(&m, room, cuts)));
        }
    }
    out
}

pub(super) fn small_matrices(r: &mut Rng, n: usize) -> Vec<Symmetric> {
    let heavy = heavy_diagonal(r, n);
    let whole = exact(r, n);
    let mut out = vec![];
    for row in 0..n {
        out.extend(whole.refused_at(row));
        for p in 0..row {
            out.extend([&whole.matrix, &heavy].map(|m| again(m, p, row)));
        }
        for column in 0..=row {
            for x in [0.0, -0.0, f64::from_bits(1), -1.0, f64::MAX, f64::INFINITY, f64::NEG_INFINITY, f64::NAN] {
                out.push(whole.matrix.with(row, column, x));
            }
        }
    }
    out.extend([heavy, whole.matrix]);
    out
}

/// A matrix by chance, with a row that came twice or another diagonal in it now and then, in batches by chance. The last may end before the order.
pub fn packed_chain(seed: u64) -> Chain {
    // not the numbers that the family, the twin rows, the solves, the benches and the lists of this seed get
    let r = &mut Rng::new(seed ^ 1 << 60);
    let n = order(r).min(64);
    let mut m = symmetric(r, &FOR_SOLVE, n);
    if n > 0 {
        let row = r.below(n);
        let other = r.below(row + 1);
        match r.below(8) {
            0..2 => m = again(&m, other, row),
            2 => m = m.with(row, row, r.pick(&[0.0, -0.0, -1.0, f64::NAN])),
            3 => m = m.with(row, other, r.pick(&SPECIAL)),
            _ => {}
        }
    }
    let room = n + r.pick(&[0, 1, 3]);
    let mut cuts = some_cuts(r, n);
    if r.one_in(3) {
        cuts.pop();
    }
    chain(&m, room, cuts)
}
