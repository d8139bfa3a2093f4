//! The part of Cholesky's list with the teaching call.

use oracle::call::{Call, Case, Slice};
use oracle::cases;
use oracle::list::{Pattern, Spot, Writer};

use super::{ALL, COUNTS, FILL, NANS, ONE, ORDERS, SIGN, calls_by_seed, emit_all, matrix_in_room, some_of_each_code};

const LEAST: f64 = f64::from_bits(1);

pub fn cholesky(w: &mut Writer) {
    by_hand(w);
    diagonals(w);
    refused(w);
    let short = |seed: u64| cases::taught(seed).into_iter().filter(|case| case.a.len() <= 160).collect();
    calls_by_seed(w, short, 1..=3, 1500, 10_000_000);
    calls_by_seed(w, short, 4..=6, 1500, 10_010_000);
    calls_by_seed(w, short, 9..=12, 1000, 10_020_000);
    by_chance(w);
    at_rows(w);
}

/// A matrix by its lower rows, in a room of its order and in one of two more.
fn taught(w: &mut Writer, n: usize, lower: &[f64]) {
    for room in [n, n + 2] {
        let a = matrix_in_room(n, room, lower);
        emit_all(w, [&Case { x: room, ..Case::new(Call::CholeskyTeaching, n, a) }]);
    }
}

/// Accepted and refused, rows that came twice, zeros of both signs, NaN and infinities in a diagonal and in a row, subnormal numbers.
fn by_hand(w: &mut Writer) {
    let (nan, infinite) = (f64::NAN, f64::INFINITY);
    taught(w, 0, &[]);
    // of rows that came twice 2 and 7 leave a crumb above zero, 1 and 49 leave zero, 3 leaves less
    for x in [1.0, 2.0, 3.0, 7.0, 49.0, infinite, nan, 0.0, -0.0, LEAST] {
        taught(w, 2, &[x, x, x]);
    }
    let others: [(usize, &[f64]); 17] = [
        (1, &[4.0]),
        (1, &[2.0]),
        (1, &[-0.0]),
        (2, &[4.0, 2.0, 5.0]),
        (2, &[1.0, -0.0, 1.0]),
        (2, &[infinite, 1.0, 1.0]),
        (2, &[1.0, infinite, 1.0]),
        (2, &[1.0, nan, 1.0]),
        (2, &[LEAST, LEAST, 1.0]),
        (2, &[f64::MAX, f64::MAX, f64::MAX]),
        (3, &[4.0, 2.0, 5.0, 6.0, 7.0, 26.0]),
        // zero times infinity is in it
        (3, &[1.0, 0.0, 1.0, infinite, 0.0, 1.0]),
        // the products one after the other: their sum would be refused
        (3, &[1.0, 0.0, 1.0, 0.3, 0.1, 0.1]),
        (3, &[4.0, 2.0, 0.0, 6.0, 7.0, 22.0]),
        (3, &[1.0, nan, 1.0, 2.0, 3.0, 4.0]),
        (3, &[4.0, 2.0, 5.0, 2.0, 5.0, 5.0]),
        (4, &[1.0, 0.5, 2.0, 0.1, 0.2, 3.0, 7.0, 8.0, 9.0, 10.0]),
    ];
    for (n, lower) in others {
        taught(w, n, lower);
    }
}

/// Diagonals on both sides of each test, in each of three rows.
fn diagonals(w: &mut Writer) {
    let given = [0.0, -0.0, LEAST, -LEAST, f64::MAX, f64::MIN, f64::INFINITY, f64::NEG_INFINITY, f64::NAN, -f64::NAN];
    for x in given {
        taught(w, 3, &[x, 2.0, 5.0, 6.0, 7.0, 26.0]);
        taught(w, 3, &[1.0, 0.0, x, 0.5, 3.0, 50.0]);
        taught(w, 3, &[1.0, 0.0, 1.0, 0.0, -0.0, x]);
    }
}

fn refused(w: &mut Writer) {
    some_of_each_code(w, cases::taught_refusals(), &[Call::CholeskyTeaching]);
    // orders and rooms at the most, above it, and not those of what is lent, each with each, so that the order of the checks shows
    let counts: Vec<usize> = [0, 1, 2, 63, 64, 65].into_iter().chain(COUNTS).collect();
    for len in [1, 64 * 64] {
        w.case();
        w.set_or_fill(Slice::A, &(FILL..FILL + len).collect::<Vec<_>>());
        for &n in &counts {
            for &room in &counts {
                w.call(Call::CholeskyTeaching, n, room, 0);
            }
        }
    }
}

/// Matrices of all orders, accepted and, most of them, refused in a row by chance; then a row that came twice, NaN wherever no call may read.
fn by_chance(w: &mut Writer) {
    for n in ORDERS.into_iter().chain([63]) {
        let room = (n + 1).min(64);
        for shift in [n as f64, 0.75] {
            w.case();
            w.random(Slice::A, room * room, 90 + n as u64);
            w.shift(Slice::A, n, room, shift);
            w.call(Call::CholeskyTeaching, n, room, 0);
        }
        for p in [0, n.saturating_sub(2)] {
            w.case();
            w.repeat(Pattern { n, room, base: ONE, kept: ALL, rest: NANS, mask: 0 }, Spot { p, q: n - 1, i: n, j: n });
            w.shift(Slice::A, n - 1, room, 1.0);
            w.call(Call::CholeskyTeaching, n, room, 0);
        }
    }
}

/// Refused by 7, 10 and 11 in the first, the middle and the last row of all orders, and by one of them in every row of order 64.
fn at_rows(w: &mut Writer) {
    for n in ORDERS.into_iter().chain([63]) {
        let mut rows = vec![0, n / 2, n - 1];
        rows.dedup();
        for row in rows {
            (0..3).for_each(|kind| at_row(w, n, row, kind));
        }
    }
    (0..64).for_each(|row| at_row(w, 64, row, row % 3));
}

fn at_row(w: &mut Writer, n: usize, row: usize, kind: usize) {
    let room = (n + 2).min(64);
    let ones = Pattern { n, room, base: ONE, kept: ALL, rest: FILL, mask: SIGN };
    let pattern = match kind {
        0 => Pattern { base: 0, kept: 0, mask: 0, ..ones },
        1 => ones,
        _ => Pattern { mask: NANS ^ ONE, ..ones },
    };
    w.case();
    w.repeat(pattern, Spot { p: 0, q: 0, i: row, j: row });
    w.shift(Slice::A, row, room, 1.0);
    w.call(Call::CholeskyTeaching, n, room, 0);
}
