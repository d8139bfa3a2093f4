//! Floors for Cholesky's diagonal: beside the cases of the plain calls, and for matrices in which many diagonals fail.

use super::families::{Chain, order, placed, some_cuts};
use super::fixed::{SPECIAL, fits, spoiled};
use super::matrices::{FOR_FLOOR, Numbers, Symmetric, again, fill, filled, heavy_diagonal, number, symmetric};
use super::rng::Rng;
use crate::call::{Call, Calls, Case, words};
use crate::list::{DIGEST_START, digest_of};
use crate::text::Text;

const LEAST: f64 = f64::from_bits(1);

/// Floors that fail a diagonal's test.
pub const FAILING: [f64; 8] = [-1.0, 0.0, -0.0, f64::NAN, -f64::NAN, f64::NEG_INFINITY, -LEAST, f64::MIN];

/// Floors that pass it.
pub const PASSING: [f64; 12] =
    [4.0, LEAST, f64::INFINITY, 1e-12, 1.0, 2.0, f64::from_bits(0x000f_ffff_ffff_ffff), f64::MIN_POSITIVE, 1e-300, 1e16, 1e300, f64::MAX];

/// The floors for a plain call: one that fails, one that passes, one as great as a number that is lent, and any; the second alone above order 130.
pub fn floors_beside(plain: &Case) -> Vec<f64> {
    // nothing that the case itself was made from
    let sizes = [plain.n, plain.x, plain.y].iter().fold(DIGEST_START, |h, &x| digest_of(h, &[x as u64]));
    let r = &mut Rng::new(digest_of(sizes, &words(&plain.a)));
    let passing = r.pick(&PASSING);
    if plain.n > 130 {
        return vec![passing];
    }
    vec![r.pick(&FAILING), passing, of_its_size(r, &plain.a), number(r, Numbers::AnyBits)]
}

/// As great as one of the numbers, or a part of it.
fn of_its_size(r: &mut Rng, a: &[f64]) -> f64 {
    let x = if a.is_empty() { 1.0 } else { r.pick(a) };
    x.abs() * r.pick(&[1.0, 1.0, 0.5, 1e-3, 1e-12])
}

/// Mostly one that passes.
fn a_floor(r: &mut Rng, a: &[f64]) -> f64 {
    match r.below(8) {
        0 => r.pick(&FAILING),
        1..4 => r.pick(&PASSING),
        4..7 => of_its_size(r, a),
        _ => number(r, Numbers::AnyBits),
    }
}

fn in_room(call: Call, n: usize, room: usize, a: Vec<f64>, floor: f64) -> Case {
    Case { x: room, floor, ..Case::new(call, n, a) }
}

/// Of one matrix, at once and from each earlier order on.
fn from_each_row(n: usize, a: &[f64], floor: f64, out: &mut Vec<Case>) {
    out.push(in_room(Call::CholeskyFactorFloored, n, n, a.to_vec(), floor));
    for y in 0..=n {
        out.push(Case { y, ..in_room(Call::CholeskyExtendFloored, n, n, a.to_vec(), floor) });
    }
}

/// Order 1: every special number with every other as the floor. Order 2: every triple of some with the floors of each kind.
pub fn floored_sweep() -> Vec<Case> {
    let mut out = vec![];
    for &x in &SPECIAL {
        for &floor in SPECIAL.iter().chain(&FAILING).chain(&PASSING) {
            from_each_row(1, &[x], floor, &mut out);
        }
    }
    let some = [0.0, -0.0, 1.0, -1.0, 4.0, LEAST, -LEAST, f64::MAX, f64::INFINITY, f64::NEG_INFINITY, f64::NAN];
    for t in 0..some.len().pow(3) {
        let [x, y, z] = [1, 11, 121].map(|by| some[t / by % some.len()]);
        for &floor in FAILING.iter().chain(&PASSING) {
            from_each_row(2, &[x, y, fill(2), z], floor, &mut out);
        }
    }
    out
}

/// Sound calls of orders 0 to 3 and the same with one or two things wrong, with floors of each kind.
pub fn floored_refusals() -> Vec<Case> {
    let mut out = vec![];
    for n in 0..4 {
        for room in n..n + 2 {
            for floor in [4.0, -1.0, f64::NAN, f64::INFINITY] {
                for call in [Call::CholeskyFactorFloored, Call::CholeskyExtendFloored] {
                    spoiled(&mut out, &Case { y: n / 2, ..in_room(call, n, room, filled(room * room), floor) });
                }
            }
        }
    }
    out.retain(fits);
    out
}

/// Some of the diagonals are others, or some of the rows came twice.
pub(super) fn broken(r: &mut Rng, mut m: Symmetric) -> Symmetric {
    let kind = r.below(4);
    let every = 1 + r.below(4);
    for row in 0..m.n {
        if !r.one_in(every) {
            continue;
        }
        match kind {
            0 => m = m.with(row, row, r.pick(&[0.0, -0.0, -1.0, -LEAST, f64::MIN, f64::NEG_INFINITY, f64::NAN])),
            1 => m = again(&m, r.below(row + 1), row),
            2 => m = m.with(row, row, m.get(row, row) * r.pick(&[0.0, -1.0, 0.25, 1e-3])),
            _ => {}
        }
    }
    m
}

/// A matrix by chance in which diagonals fail: at once, from a row on, and from a row on whose earlier ones are a factor.
pub fn floored(seed: u64) -> Vec<Case> {
    // not the numbers that the family, the twin rows, the solves, the benches, the lists and the packed chain of this seed get
    let r = &mut Rng::new(seed ^ 1 << 59);
    let n = order(r).min(64);
    let m = symmetric(r, &FOR_FLOOR, n);
    let m = broken(r, m);
    let room = n + r.pick(&[0, 0, 1, 3]);
    let a = placed(r, &m, room, true);
    let mut out = vec![];
    for _ in 0..3 {
        let floor = a_floor(r, &m.cells);
        let factor = in_room(Call::CholeskyFactorFloored, n, room, a.clone(), floor);
        let earlier = r.below(n + 1);
        let batch = |y: usize, a: Vec<f64>| Case { y, ..in_room(Call::CholeskyExtendFloored, n, room, a, floor) };
        out.extend([factor, batch(r.below(n + 1), a.clone())]);
        let mut begun = a.clone();
        if Text.cholesky_factor_floored(&mut begun, room, earlier, floor).0 == 0 {
            out.push(batch(earlier, begun));
        }
    }
    out
}

/// Such a matrix in batches by chance, and the floor for all of them. The last may end before the order.
pub fn floored_chain(seed: u64) -> (Chain, f64) {
    // nor those that its floored cases get
    let r = &mut Rng::new(seed ^ 1 << 58);
    let n = order(r).min(64);
    let m = symmetric(r, &FOR_FLOOR, n);
    let m = broken(r, m);
    let room = n + r.pick(&[0, 0, 1, 3]);
    let mut cuts = some_cuts(r, n);
    if r.one_in(4) {
        cuts.pop();
    }
    let floor = a_floor(r, &m.cells);
    (Chain { a: placed(r, &m, room, true), n, room, cuts }, floor)
}

/// The floors for the batches of a chain that has none: one that passes, and now and then one that fails.
pub fn floors_for(chain: &Chain) -> Vec<f64> {
    let cuts: Vec<u64> = chain.cuts.iter().map(|&cut| cut as u64).collect();
    let r = &mut Rng::new(digest_of(digest_of(DIGEST_START, &cuts), &words(&chain.a)));
    let lower: Vec<f64> = (0..chain.n).flat_map(|j| &chain.a[j + j * chain.room..chain.n + j * chain.room]).copied().collect();
    let passing = if r.one_in(2) { r.pick(&PASSING) } else { of_its_size(r, &lower) };
    if r.one_in(4) { vec![passing, r.pick(&FAILING)] } else { vec![passing] }
}

/// Rows and columns of order 1,024 with some diagonals that fail.
fn large() -> (usize, Symmetric) {
    let n = 1024;
    let r = &mut Rng::new(1030);
    let mut m = heavy_diagonal(r, n);
    for (row, x) in [(0, 0.0), (1, -1.0), (100, f64::NAN), (511, -0.0), (512, 1.0), (1000, f64::MIN), (1022, f64::NAN), (1023, -LEAST)] {
        m.put(row, row, x);
    }
    (n, m)
}

/// Order 1,024 at once and from row 512 on, with a floor that passes and one that fails; with no diagonal that passes; and 1,025 with a slice to match.
pub fn largest_floored() -> Vec<Case> {
    let (n, m) = large();
    let a = m.placed(n, true, fill);
    let none_passes = Symmetric::of(n, |i, j| if i == j { -1.0 } else { 0.0 });
    let beyond = in_room(Call::CholeskyFactorFloored, n + 1, n + 1, filled((n + 1) * (n + 1)), 4.0);
    vec![
        in_room(Call::CholeskyFactorFloored, n, n, a.clone(), n as f64),
        in_room(Call::CholeskyFactorFloored, n, n, a.clone(), -1.0),
        Case { y: 512, ..in_room(Call::CholeskyExtendFloored, n, n, a, n as f64) },
        in_room(Call::CholeskyFactorFloored, n, n, none_passes.placed(n, true, fill), 4.0),
        Case { call: Call::CholeskyExtendFloored, y: n, ..beyond.clone() },
        beyond,
    ]
}

/// Order 1,024 in two batches.
pub fn largest_floored_chain() -> (Chain, f64) {
    let (n, m) = large();
    (Chain { a: m.placed(n, true, |_| f64::NAN), n, room: n, cuts: vec![512, n] }, n as f64)
}
