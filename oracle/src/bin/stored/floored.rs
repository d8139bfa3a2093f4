//! The part of Cholesky's list with a floor for the diagonal.

use oracle::call::{Call, Case, Slice};
use oracle::cases::{self, FAILING, PASSING};
use oracle::list::{Pattern, Spot, Writer};

use super::{ALL, COUNTS, NANS, ONE, ORDERS, bits, calls_by_seed, emit_all, matrix, set_unless_there, some_of_each_code};

/// The floor stands alone in register C.
pub fn set_floor(w: &mut Writer, floor: f64) {
    set_unless_there(w, Slice::C, &bits(&[floor]));
}

fn factor(n: usize, room: usize, a: Vec<f64>, floor: f64) -> Case {
    Case { x: room, floor, ..Case::new(Call::CholeskyFactorFloored, n, a) }
}

fn extend(earlier: usize, n: usize, room: usize, a: Vec<f64>, floor: f64) -> Case {
    Case { call: Call::CholeskyExtendFloored, y: earlier, ..factor(n, room, a, floor) }
}

/// Batches on what register A holds, with the floor of register C; a refusal ends them.
fn in_batches(w: &mut Writer, room: usize, cuts: &[usize]) {
    let mut earlier = 0;
    for &cut in cuts {
        if w.call(Call::CholeskyExtendFloored, cut, room, earlier) != 0 {
            break;
        }
        earlier = cut;
    }
}

const LEAST: f64 = f64::from_bits(1);

pub fn cholesky(w: &mut Writer) {
    by_hand(w);
    diagonals(w);
    refused(w);
    calls_by_seed(w, cases::floored, 1..=3, 1500, 9_000_000);
    calls_by_seed(w, cases::floored, 4..=6, 1300, 9_010_000);
    calls_by_seed(w, cases::floored, 9..=12, 700, 9_020_000);
    chains(w, 2..=6, 900, 9_030_000);
    by_chance(w);
}

/// At once and row by row: rows that came twice and three times, NaN in a diagonal and in a row, diagonals that fail because of the floor before them.
fn by_hand(w: &mut Writer) {
    let nan = f64::NAN;
    let first: [(usize, &[f64], &[f64]); 17] = [
        (2, &[1.0, 1.0, 1.0], &[4.0, 1e-12, -1.0, nan]),
        (1, &[-1.0], &[-1.0, 4.0]),
        (0, &[], &[4.0, -1.0]),
        (2, &[4.0, 2.0, 5.0], &[4.0, -1.0, nan]),
        (2, &[4.0, 2.0, 3.0], &[0.0]),
        (2, &[3.0, 3.0, 3.0], &[4.0, -0.0]),
        (2, &[0.0, 5.0, 1.0], &[4.0, LEAST, f64::INFINITY, f64::MAX]),
        (2, &[-1.0, 0.0, -1.0], &[2.0]),
        (2, &[nan, 1.0, 1.0], &[4.0, -1.0]),
        (2, &[1.0, nan, 1.0], &[4.0, -1.0]),
        (2, &[0.0, nan, 9.0], &[4.0]),
        (3, &[1.0, 1.0, 1.0, 1.0, 1.0, 1.0], &[4.0, 1e-12, 0.0]),
        (3, &[4.0, 2.0, 5.0, 2.0, 5.0, 5.0], &[1.0, -1.0]),
        (3, &[4.0, 2.0, 0.0, 6.0, 7.0, 22.0], &[4.0, -1.0, f64::NEG_INFINITY]),
        (3, &[1.0, nan, 1.0, 2.0, 3.0, 4.0], &[4.0, nan]),
        (3, &[f64::INFINITY, 1.0, 1.0, 1.0, 2.0, 9.0], &[4.0]),
        (3, &[-1.0, 2.0, 50.0, 3.0, 4.0, -2.0], &[9.0, 1e300]),
    ];
    for (n, lower, floors) in first {
        for &floor in floors {
            let a = matrix(n, lower);
            emit_all(w, [&factor(n, n, a.clone(), floor)]);
            set_unless_there(w, Slice::A, &bits(&a));
            in_batches(w, n, &(0..=n).collect::<Vec<_>>());
        }
    }
    // earlier rows are neither tested nor counted, and no rows count none
    for x in [-1.0, -0.0, f64::NAN] {
        for floor in [4.0, -1.0] {
            let a = matrix(2, &[x, 2.0, 5.0]);
            emit_all(w, [&extend(1, 2, 2, a.clone(), floor), &extend(2, 2, 2, a, floor)]);
        }
    }
}

/// Diagonals on both sides of each test with floors on both sides of it: alone, and in the middle of three, the first of which was there.
fn diagonals(w: &mut Writer) {
    let given = [0.0, -0.0, LEAST, -LEAST, 1.0, -1.0, f64::MAX, f64::MIN, f64::INFINITY, f64::NEG_INFINITY, f64::NAN];
    for x in given {
        for &floor in FAILING.iter().chain(&PASSING) {
            emit_all(w, [&factor(1, 1, vec![x], floor)]);
        }
        for floor in [4.0, -1.0, f64::NAN, LEAST, f64::INFINITY] {
            emit_all(w, [&extend(1, 3, 3, matrix(3, &[1.0, 0.0, x, 0.5, 3.0, 50.0]), floor)]);
        }
    }
}

fn refused(w: &mut Writer) {
    let calls = [Call::CholeskyFactorFloored, Call::CholeskyExtendFloored];
    some_of_each_code(w, cases::floored_refusals(), &calls);
    // each count by itself at the most, above it, and not that of what is lent; then two at a time, so that the order of the checks shows
    for floor in [4.0, f64::NAN] {
        w.case();
        w.set(Slice::A, &bits(&[-1.0]));
        set_floor(w, floor);
        let counts = COUNTS.iter().flat_map(|&far| [(far, 1, 0), (1, far, 0), (1, 1, far), (far, far, far)]);
        for (n, room, earlier) in
            counts.chain([(2, 1, 0), (1, 1, 2), (0, 1, 1), (0, 0, 0), (1, 2, 0), (0, 2, 0), (2, 1, 3), (3, 2, 0), (1, 2, 2)])
        {
            w.call(Call::CholeskyExtendFloored, n, room, earlier);
            if earlier == 0 {
                w.call(Call::CholeskyFactorFloored, n, room, 0);
            }
        }
    }
}

/// Chains of floored batches of the seeds from `seed` on with orders from `orders`, until `words` more have been written.
fn chains(w: &mut Writer, orders: std::ops::RangeInclusive<usize>, words: usize, seed: u64) {
    let end = w.list.len() + words;
    let mut seed = seed;
    while w.list.len() < end {
        let (chain, floor) = cases::floored_chain(seed);
        if orders.contains(&chain.n) {
            emit_all(w, [&factor(chain.n, chain.room, chain.a.clone(), floor)]);
            set_unless_there(w, Slice::A, &bits(&chain.a));
            in_batches(w, chain.room, &chain.cuts);
        }
        seed += 1;
    }
}

/// Matrices of all orders in which many diagonals fail, at once and in batches; then one with a row that came twice, NaN wherever no call may read.
fn by_chance(w: &mut Writer) {
    for n in ORDERS {
        let room = (n + 1).min(64);
        for (shift, floor) in [(0.75, 1.0), (0.0, 1e-12)] {
            let given = |w: &mut Writer| {
                w.random(Slice::A, room * room, 80 + n as u64);
                w.shift(Slice::A, n, room, shift);
            };
            w.case();
            set_floor(w, floor);
            given(w);
            w.call(Call::CholeskyFactorFloored, n, room, 0);
            w.case();
            given(w);
            in_batches(w, room, &[n / 3, n / 3, 2 * n / 3, n]);
        }
        for floor in [4.0, -1.0] {
            w.case();
            set_floor(w, floor);
            let twin = Spot { p: 0, q: n - 1, i: n, j: n };
            w.repeat(Pattern { n, room, base: ONE, kept: ALL, rest: NANS, mask: 0 }, twin);
            w.shift(Slice::A, n - 1, room, 1.0);
            w.call(Call::CholeskyFactorFloored, n, room, 0);
        }
    }
}
