//! The part of LBLT's list with the handheld's calls.

use oracle::call::{Call, Pivots3, Slice};
use oracle::cases::{self, SPECIAL};
use oracle::list::Writer;

use super::{FILL, NANS, bits, calls_by_seed, halves, matrix, set_unless_there};

const LEAST: f64 = f64::from_bits(1);

/// α, and one unit above and below it.
const ALPHA: f64 = 0.6403882032022076;
const ABOVE: f64 = f64::from_bits(ALPHA.to_bits() + 1);
const BELOW: f64 = f64::from_bits(ALPHA.to_bits() - 1);

/// Numbers from seeds side by side are alike: these are far apart.
pub const SPREAD: u64 = 0x9e37_79b9_7f4a_7c15;

pub fn lblt(w: &mut Writer) {
    by_hand(w);
    special(w);
    marked(w);
    damaged(w);
    calls_by_seed(w, cases::held, 0..=0, 4000, 11_000_000);
    by_chance(w);
}

/// The factor of what register A holds, and a solve by it.
fn both(w: &mut Writer, side: [f64; 3]) {
    set_unless_there(w, Slice::Record, &[9; 7]);
    w.call(Call::HandheldFactor, 0, 0, 0);
    set_unless_there(w, Slice::B, &bits(&side));
    w.call(Call::HandheldSolve, 0, 0, 0);
}

/// A matrix by its lower rows.
fn lower(w: &mut Writer, rows: &[f64; 6], side: [f64; 3]) {
    w.case();
    w.set(Slice::A, &bits(&matrix(3, rows)));
    both(w, side);
}

/// Pivots of every kind: three of one row each, in their own order and exchanged, one and then two, two and then one.
const KINDS: [[f64; 6]; 11] = [
    [4.0, 1.0, 5.0, 2.0, 3.0, 7.0],
    [0.5, 2.0, 8.0, 1.0, 3.0, 9.0],
    [0.5, 1.0, 3.0, 4.0, 0.25, 9.0],
    [4.0, 1.0, 0.5, 2.0, 5.0, 0.125],
    [4.0, 0.5, 0.1, 0.25, 1.0, 5.0],
    [0.75, 2.0, 8.0, 0.25, 0.5, 9.0],
    [0.0, 3.0, 0.5, 2.0, 1.0, 7.0],
    [0.0, 2.0, 5.0, 4.0, 1.0, 0.25],
    [0.25, 1.0, 4.0, 0.5, 0.125, 0.1],
    [0.25, 0.5, 0.1, 1.0, 0.125, 4.0],
    [-0.5, 0.5, 0.1, 1.0, 0.125, 4.0],
];

/// Each kind; document 01's matrices of order 3; equal maxima; α at equality and one unit beside it in each test; zero columns, and zeros that come up.
fn by_hand(w: &mut Writer) {
    let (tiny, huge, infinite, nan) = (f64::from_bits((1023 - 600) << 52), f64::from_bits((1023 + 600) << 52), f64::INFINITY, f64::NAN);
    for rows in &KINDS {
        lower(w, rows, [3.0, 5.0, 7.0]);
        lower(w, rows, [0.0, -0.0, 1.0]);
        lower(w, &rows.map(|x| -x), [infinite, nan, 1.0]);
        lower(w, &rows.map(|x| x * tiny), [tiny, LEAST, -tiny]);
        lower(w, &rows.map(|x| x * huge), [huge, 1.0, f64::MAX]);
    }
    let others = [
        [0.0, 3.0, 1.0, -3.0, 2.0, 1.0],
        [0.0, -3.0, 3.0, 3.0, 3.0, -3.0],
        [0.0, tiny, 0.0, 0.0, huge, 0.0],
        [0.0, infinite, 0.0, 1.0, 1.0, 1.0],
        [infinite, infinite, 1.0, 1.0, 2.0, 3.0],
        [0.0, 3.0, 2.0, -3.0, 5.0, 1.0],
        [0.0, -3.0, 8.0, 3.0, 1.0, 9.0],
        [0.0, 0.0, 0.0, 0.0, 0.0, 0.0],
        [-0.0, 0.0, 0.0, -0.0, -0.0, -0.0],
        // the sign of a zero shows that sizes scale a block
        [0.0, 0.0, -0.0, -3.0, -3.0, 0.0],
        [0.0, 0.0, 4.0, 0.0, 2.0, 3.0],
        [0.0, 0.0, 0.0, 0.0, 2.0, 0.0],
        [2.0, 0.0, 0.0, 0.0, 0.0, 3.0],
        [1.0, 2.0, 4.0, 0.0, 0.0, 3.0],
        [4.0, 2.0, 1.0, 2.0, 1.0, 1.0],
        [2.0, 0.0, 3.0, 0.0, 0.0, 0.0],
        [0.0, 1.0, 0.0, 2.0, 4.0, 0.0],
        [nan, 0.0, 2.0, 0.0, 1.0, 3.0],
        [2.0, 0.0, nan, 0.0, 0.0, 3.0],
        [0.0, nan, 5.0, 1.0, 2.0, 3.0],
        [0.0, 1.0, 5.0, nan, 2.0, 3.0],
        [0.5, 1.0, 1.0, 0.0, nan, 1.0],
        [LEAST, LEAST, LEAST, LEAST, LEAST, LEAST],
        [LEAST, 0.0, 2.0, 0.0, 0.0, 1.0],
        [f64::MAX, f64::MAX, f64::MAX, f64::MAX, f64::MAX, f64::MAX],
        [0.1, 0.3, 0.7, 0.2, 0.9, 0.6],
        [0.0, 0.1, 0.7, 0.3, 0.9, 0.2],
        [0.8, 1.9, 0.6, 1.4, 0.6, 0.4],
    ];
    for rows in &others {
        lower(w, rows, [3.0, 5.0, 7.0]);
    }
    lower(w, &[-2.0, 0.0, -3.0, 0.0, 0.0, -5.0], [0.0, -0.0, 0.0]);
    for x in [BELOW, ALPHA, ABOVE] {
        // diagonal against α·colmax, against (α·colmax)·(colmax/rowmax), and the candidate's against α·rowmax: in row 0 by row 1 and by row 2, then in row 1
        for rows in [
            [x, 1.0, 0.3, 0.25, 0.5, 0.1],
            [x, 0.25, 0.3, 1.0, 0.5, 0.1],
            [x / 2.0, 1.0, 0.3, 0.25, 2.0, 0.1],
            [x / 2.0, 0.25, 0.3, 1.0, 2.0, 0.1],
            [0.1, 1.0, 2.0 * x, 0.25, 2.0, 0.1],
            [0.1, 0.25, 0.3, 1.0, 2.0, 2.0 * x],
            [0.1, 1.0, x, 0.25, 0.5, 0.1],
            [4.0, 0.0, x, 0.0, 1.0, 0.1],
            [4.0, 0.0, 0.1, 0.0, 1.0, x],
        ] {
            lower(w, &rows, [1.0, 2.0, -3.0]);
        }
    }
}

/// A special number in each lower entry, others above the diagonal.
fn special(w: &mut Writer) {
    let some = [0.0, -0.0, LEAST, f64::MAX, f64::INFINITY, f64::NEG_INFINITY, f64::NAN];
    let mut t = 0;
    for rows in [&KINDS[0], &KINDS[3], &KINDS[6]] {
        for at in 0..6 {
            for x in some {
                let mut rows = *rows;
                rows[at] = x;
                let mut a = matrix(3, &rows);
                for above in [3, 6, 7] {
                    a[above] = SPECIAL[t % SPECIAL.len()];
                    t += 1;
                }
                w.case();
                w.set(Slice::A, &bits(&a));
                both(w, [3.0, 5.0, 7.0]);
            }
        }
    }
}

fn solved(w: &mut Writer, pivots: Pivots3) {
    w.case();
    set_unless_there(w, Slice::A, &bits(&[2.0, 0.5, -3.0, f64::NAN, 0.75, 1.5, f64::INFINITY, f64::NAN, 5.0]));
    set_unless_there(w, Slice::B, &bits(&[3.0, 5.0, 7.0]));
    set_unless_there(w, Slice::Record, &halves(&pivots.words()));
    w.call(Call::HandheldSolve, 0, 0, 0);
}

/// All pivots that keep the rule.
const SOUND: [([u32; 3], [u32; 3]); 11] = [
    ([0, 1, 2], [1, 1, 1]),
    ([0, 2, 2], [1, 1, 1]),
    ([1, 1, 2], [1, 1, 1]),
    ([1, 2, 2], [1, 1, 1]),
    ([2, 1, 2], [1, 1, 1]),
    ([2, 2, 2], [1, 1, 1]),
    ([0, 2, 2], [1, 2, 2]),
    ([1, 2, 2], [1, 2, 2]),
    ([2, 2, 2], [1, 2, 2]),
    ([1, 1, 2], [2, 2, 1]),
    ([2, 2, 2], [2, 2, 1]),
];

/// All pivots that keep the rule, with every mark up to one above the order.
fn marked(w: &mut Writer) {
    for (index, size) in SOUND {
        for mark in 0..5 {
            solved(w, Pivots3 { index, size, mark });
        }
    }
}

/// Sound pivots with each word changed to each of a few, and in one bit; two broken rows, and a broken row beside a bad mark, so that the order of the
/// checks shows; blocks of two rows with a wrong index in both.
fn damaged(w: &mut Writer) {
    for (index, size) in [SOUND[0], SOUND[5], SOUND[7], SOUND[10]] {
        let sound = Pivots3 { index, size, mark: 0 }.words();
        for at in 0..sound.len() {
            let of_bits = [8, 16, 31].map(|bit| sound[at] ^ 1 << bit);
            for word in [0, 1, 2, 3, 4, u32::MAX].into_iter().chain(of_bits) {
                let mut changed = sound;
                changed[at] = word;
                if changed != sound {
                    solved(w, Pivots3::of(changed));
                }
            }
        }
        for (one, other) in [(0, 1), (0, 2), (1, 2), (0, 6), (1, 6), (2, 6), (3, 6), (4, 6), (5, 6), (3, 4), (4, 5), (0, 5), (1, 5)] {
            let mut changed = sound;
            (changed[one], changed[other]) = (3, 4);
            solved(w, Pivots3::of(changed));
        }
    }
    for index in [0, 3, u32::MAX] {
        solved(w, Pivots3 { index: [index, index, 2], size: [2, 2, 1], mark: 0 });
        solved(w, Pivots3 { index: [0, index, index], size: [1, 2, 2], mark: 0 });
    }
    solved(w, Pivots3 { index: [0, 1, 1], size: [1, 2, 2], mark: 0 });
}

/// Matrices from the list's own source of chance, as they are and with a heavy diagonal; what stands above the diagonal is any number, or NaN.
fn by_chance(w: &mut Writer) {
    let heavy = (0..20).map(|seed: u64| (seed, 2.0));
    for (seed, shift) in (0..60).map(|seed| (seed, 0.0)).chain(heavy) {
        let spread = (seed + 1).wrapping_mul(SPREAD);
        w.case();
        w.random(Slice::A, 9, spread);
        w.shift(Slice::A, 3, 3, shift);
        set_unless_there(w, Slice::Record, &[9; 7]);
        w.call(Call::HandheldFactor, 0, 0, 0);
        w.random(Slice::B, 3, !spread);
        w.call(Call::HandheldSolve, 0, 0, 0);
    }
    for first in [FILL, NANS, 0] {
        w.case();
        w.set_or_fill(Slice::A, &(first..first + 9).collect::<Vec<_>>());
        both(w, [3.0, 5.0, 7.0]);
    }
}
