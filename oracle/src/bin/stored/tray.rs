//! The part of LBLT's list with trays.

use oracle::call::{Call, Case, Slice, record_length};
use oracle::cases::{self, SPECIAL};
use oracle::list::Writer;
use oracle::tray::{MOST_ITEMS, MOST_ORDER};

use super::handheld::SPREAD;
use super::{COUNTS, INFINITE, ONE, ORDERS, SIGN, bits, calls_by_seed, halves, matrix, run_of, set_unless_there};

pub fn lblt(w: &mut Writer) {
    by_hand(w);
    of_no_rows(w);
    refusals(w);
    lengths(w);
    calls_by_seed(w, short, 1..=4, 1000, 12_000_000);
    by_chance(w);
    three_rows(w);
    largest(w);
}

/// The shorter trays of a seed.
fn short(seed: u64) -> Vec<Case> {
    cases::trays(seed).into_iter().filter(|case| case.a.len() <= 24).collect()
}

/// The call on what registers A and B hold: over old words, which rise from the first record on, and over old answers, which rise from the run numbers on.
fn call(w: &mut Writer, n: usize, count: usize) {
    rising(w, Slice::Record, 100, count * record_length(n));
    rising(w, Slice::Runs, run_of(n) as u64, 2 * count);
    w.call(Call::LbltTray, n, count, count);
}

fn rising(w: &mut Writer, slice: Slice, first: u64, len: usize) {
    set_unless_there(w, slice, &(first..first + len as u64).collect::<Vec<_>>());
}

/// Matrices by their lower rows, one after the other, with a side for each.
fn tray(w: &mut Writer, n: usize, items: &[&[f64]], sides: &[f64]) {
    let sides: Vec<f64> = sides.iter().copied().cycle().take(n * items.len()).collect();
    w.case();
    w.set(Slice::A, &items.iter().flat_map(|rows| bits(&matrix(n, rows))).collect::<Vec<_>>());
    w.set(Slice::B, &bits(&sides));
    call(w, n, items.len());
}

/// Marked items first, last, between others, alone and all; blocks of size 1 and 2; a matrix that comes twice; NaN, infinity and zeros; run numbers at the
/// ends, alike, and one bit apart.
fn by_hand(w: &mut Writer) {
    let (infinite, nan, least) = (f64::INFINITY, f64::NAN, f64::from_bits(1));
    let side = [3.0, 5.0, nan, -0.0, 7.0, infinite, 2.0];
    let exchange: &[f64] = &[0.0, 1.0, 4.0];
    let (block, marked, own): (&[f64], &[f64], &[f64]) = (&[0.0, 1.0, 0.0], &[0.0, nan, 5.0], &[4.0, 2.0, 3.0]);
    let (twins, zero): (&[f64], &[f64]) = (&[1.0, 1.0, 1.0], &[0.0, -0.0, 0.0]);
    for items in [
        &[block, marked, own][..],
        &[marked, exchange],
        &[own, zero],
        &[zero, twins, marked],
        &[twins, block, twins],
        &[own, own],
        &[exchange],
        &[marked],
        &[&[nan; 3], block, &[infinite, 1.0, 2.0]],
    ] {
        tray(w, 2, items, &side);
    }
    tray(w, 1, &[&[2.0], &[0.0], &[-0.0], &[nan], &[infinite], &[-least], &[-3.0]], &side);
    tray(w, 1, &[&[-4.0], &[nan]], &[nan, 1.0]);
    // a mark in each row, between others; one after a block of two rows
    let (first, middle, last) = (&[0.0, 0.0, 5.0, 0.0, 3.0, 7.0], &[2.0, 0.0, 0.0, 0.0, 0.0, 7.0], &[1.0, 0.0, 1.0, 0.0, 0.0, 0.0]);
    let (two_one, one_two) = (&[-0.0, 3.0, 0.5, 2.0, 1.0, 7.0], &[4.0, 1.0, 0.5, 2.0, 5.0, 0.125]);
    tray(w, 3, &[first, two_one, middle], &side);
    tray(w, 3, &[one_two, last, one_two], &[nan, 1.0, 2.0, 3.0]);
    tray(w, 3, &[&[0.0, 1.0, 0.0, 0.0, 0.0, 0.0], two_one], &side);
    for runs in [[7, 7, 7], [0, u32::MAX, 1], [7, 7 | 1 << 31, 7 | 1 << 16]] {
        w.case();
        w.set(Slice::A, &bits(&[2.0, 0.0, 4.0]));
        w.set(Slice::B, &bits(&[3.0, 5.0, 7.0]));
        rising(w, Slice::Record, 100, 12);
        w.set(Slice::Runs, &[halves(&runs), vec![SIGN; 3]].concat());
        w.call(Call::LbltTray, 1, 3, 3);
    }
}

/// Orders and counts of 0, which are done, but for order 65; and wrong lengths beside them.
fn of_no_rows(w: &mut Writer) {
    w.case();
    w.set(Slice::A, &[]);
    w.set(Slice::B, &[]);
    for count in [0, 1, 3] {
        call(w, 0, count);
    }
    for n in [1, MOST_ORDER, MOST_ORDER + 1] {
        call(w, n, 0);
    }
    // with a number, a word, a run number or an answer too many, or too few
    for (a, record, b, runs, answers) in [
        (1, 4, 0, 2, 2),
        (0, 3, 0, 2, 2),
        (0, 5, 0, 2, 2),
        (0, 4, 1, 2, 2),
        (0, 4, 0, 1, 2),
        (0, 4, 0, 3, 2),
        (0, 4, 0, 2, 1),
        (0, 4, 0, 2, 3),
        (1, 3, 1, 1, 3),
    ] {
        lent(w, [a, record, b, runs, answers]);
        w.call(Call::LbltTray, 0, 2, runs);
    }
    for (a, record, b, runs, answers) in [(1, 0, 0, 0, 0), (0, 1, 0, 0, 0), (0, 0, 1, 0, 0), (0, 0, 0, 1, 0), (0, 0, 0, 0, 1)] {
        lent(w, [a, record, b, runs, answers]);
        w.call(Call::LbltTray, 2, 0, runs);
        w.call(Call::LbltTray, 0, 0, runs);
    }
}

/// A case with slices of these lengths: numbers of A, words of the records, numbers of B, run numbers, answers.
fn lent(w: &mut Writer, [a, record, b, runs, answers]: [usize; 5]) {
    w.case();
    for (slice, len) in [(Slice::A, a), (Slice::B, b)] {
        rising(w, slice, super::FILL, len);
    }
    rising(w, Slice::Record, 100, record);
    rising(w, Slice::Runs, 7, runs + answers);
}

/// As many items of order 1 that all slices are compared by digests.
const ITEMS: usize = 40;

/// Order and count at the most, above it, and not those of what is lent, each by itself and both.
fn refusals(w: &mut Writer) {
    lent(w, [ITEMS, 4 * ITEMS, ITEMS, ITEMS, ITEMS]);
    let orders = [0, 2, MOST_ORDER, MOST_ORDER + 1, MOST_ORDER + 2].into_iter().chain(COUNTS);
    let counts = [0, 1, ITEMS - 1, ITEMS + 1].into_iter().chain(COUNTS);
    let both = [(MOST_ORDER + 1, MOST_ITEMS + 1), (0, MOST_ITEMS + 1), (MOST_ORDER, MOST_ITEMS), (usize::MAX, usize::MAX), (2, ITEMS / 4)];
    for (n, count) in orders.map(|n| (n, ITEMS)).chain(counts.map(|count| (1, count))).chain(both) {
        w.case();
        w.call(Call::LbltTray, n, count, ITEMS);
    }
    // run numbers in the place of answers, answers in that of run numbers; then all as it is to be
    for runs in [0, ITEMS - 1, ITEMS + 1, 2 * ITEMS, ITEMS] {
        w.case();
        w.call(Call::LbltTray, 1, ITEMS, runs);
    }
}

/// One length at a time that is not the sizes', and two, so that the order of the checks shows; then with an order and a count above the most.
fn lengths(w: &mut Writer) {
    let whole = [ITEMS, 4 * ITEMS, ITEMS, ITEMS, ITEMS];
    for (which, len) in whole.into_iter().enumerate() {
        for wrong in [0, len - 1, len + 1, len / ITEMS, len - ITEMS, len + ITEMS] {
            let mut lengths = whole;
            lengths[which] = wrong;
            lent(w, lengths);
            w.call(Call::LbltTray, 1, ITEMS, lengths[3]);
        }
    }
    // of order 2: packed triangles and single rows, records without a run number and without a mark, a number and a square for each side
    let (items, each) = (19, [4, 6, 2, 1, 1]);
    for (which, wrong) in [(0, 3), (0, 2), (1, 5), (1, 4), (2, 1), (2, 4)] {
        let mut each = each;
        each[which] = wrong;
        lent(w, each.map(|each| each * items));
        w.call(Call::LbltTray, 2, items, items);
    }
    for (one, other) in [(0, 1), (0, 2), (0, 3), (0, 4), (1, 2), (3, 4)] {
        let mut lengths = whole;
        lengths[one] += 1;
        lengths[other] -= 1;
        lent(w, lengths);
        w.call(Call::LbltTray, 1, ITEMS, lengths[3]);
        w.call(Call::LbltTray, MOST_ORDER + 1, ITEMS, lengths[3]);
        w.call(Call::LbltTray, 1, MOST_ITEMS + 1, lengths[3]);
    }
}

/// The most items of an order that the registers hold.
fn most(n: usize) -> usize {
    (4096 / (n * n)).min(4096 / record_length(n)).min(MOST_ITEMS)
}

/// Items from the list's own source of chance: as they are, with NaN in the first entry of every second or third, which marks these in their last row, and
/// with an infinite number, or a great one, in the first entry of each.
fn by_chance(w: &mut Writer) {
    for n in ORDERS {
        let given = |w: &mut Writer, count: usize, seed: u64| {
            let seed = (seed * 100 + n as u64).wrapping_mul(SPREAD);
            w.case();
            w.random(Slice::A, n * n * count, seed);
            w.random(Slice::B, n * count, !seed);
        };
        let each = n * n;
        let few = ITEMS.div_ceil(n).max(3).min(most(n));
        given(w, few, 1);
        call(w, n, few);
        for (count, step) in [(few, 2), (most(n), 3)] {
            given(w, count, step as u64);
            w.shift(Slice::A, count.div_ceil(step), step * each - 1, f64::NAN);
            call(w, n, count);
        }
        given(w, few, 4);
        w.shift(Slice::A, few, each - 1, if n % 2 == 0 { f64::INFINITY } else { n as f64 });
        call(w, n, few);
    }
}

/// As many items of order 3 as the registers hold. By chance, with a number added at every fifth place and the like, so that each entry is met: NaN,
/// infinite numbers, great and small ones. Then numbers each one unit beside the last, ones, subnormal and the greatest; the sides become infinite and NaN.
fn three_rows(w: &mut Writer) {
    let count = most(3);
    let steps = [5, 7, 8, 10, 11, 13, 14];
    let added = [f64::NAN, f64::INFINITY, -2.0, 0.5, f64::MAX, f64::NEG_INFINITY, 1e-300];
    for (step, by) in steps.into_iter().zip(added) {
        let seed = (1000 + step as u64).wrapping_mul(SPREAD);
        w.case();
        w.random(Slice::A, 9 * count, seed);
        w.shift(Slice::A, (9 * count).div_ceil(step), step - 1, by);
        w.random(Slice::B, 3 * count, !seed);
        call(w, 3, count);
    }
    for first in [ONE, SIGN + ONE, 0, INFINITE - 9 * count as u64] {
        w.case();
        rising(w, Slice::A, first, 9 * count);
        rising(w, Slice::B, INFINITE - 2 * count as u64, 3 * count);
        call(w, 3, count);
    }
}

/// As many items as a tray holds: of no rows, with one more refused; of order 1, with numbers each one unit beside the last, which become infinite and then
/// NaN, or zero and then subnormal. Special numbers with special sides.
fn largest(w: &mut Writer) {
    w.case();
    w.set(Slice::A, &[]);
    w.set(Slice::B, &[]);
    call(w, 0, MOST_ITEMS);
    call(w, 0, MOST_ITEMS + 1);
    let half = MOST_ITEMS as u64 / 2;
    for first in [INFINITE - half, SIGN - half, SIGN + INFINITE - half, 0] {
        w.case();
        rising(w, Slice::A, first, MOST_ITEMS);
        w.random(Slice::B, MOST_ITEMS, first | 1);
        call(w, 1, MOST_ITEMS);
    }
    w.case();
    let special = |by: usize| bits(&(0..ITEMS).map(|t| SPECIAL[t * by % SPECIAL.len()]).collect::<Vec<_>>());
    w.set(Slice::A, &special(1));
    w.set(Slice::B, &special(7));
    call(w, 1, ITEMS);
}
