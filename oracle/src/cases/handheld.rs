//! Cases for the handheld beside those of the lent calls of order 3: numbers of a few in every lower entry, special numbers in every two places, pivots of
//! every kind, sound and damaged. What stands above the diagonal is any number.

use super::SPECIAL;
use super::families::{changed_record, mismarked_record, sound_record};
use super::fixed::pairs_from;
use super::matrices::{FOR_LBLT, Symmetric, alpha_edge, fill, numbers, symmetric};
use super::rng::Rng;
use crate::by_value::{factor, solve};
use crate::call::{Calls, Case, Pivots3, three_columns};
use crate::text::Text;

/// The places of the lower entries, row by row.
const LOWER: [usize; 6] = [0, 1, 4, 2, 5, 8];

const ALPHA: f64 = 0.6403882032022076;

/// 2 to this power.
const fn power(e: i64) -> f64 {
    f64::from_bits(((e + 1023) as u64) << 52)
}

const LEAST: f64 = f64::from_bits(1);

/// Equal sizes, NaN and infinity; α, one unit above and below it, and the same halved; the ends of the range.
const FEW: [&[f64]; 3] = [
    &[0.0, 1.0, -1.0, 2.0, f64::NAN, f64::INFINITY],
    &[0.0, 1.0, -2.0, ALPHA, ALPHA / 2.0, f64::from_bits(ALPHA.to_bits() + 1), f64::from_bits(ALPHA.to_bits() - 1)],
    &[-0.0, LEAST, power(-600), -power(600), f64::MAX, f64::NEG_INFINITY],
];

/// A matrix by its lower rows; above the diagonal special numbers, others for each `kind`.
fn placed(lower: [f64; 6], kind: usize) -> Vec<f64> {
    let mut out: Vec<f64> = (0..9).map(|at| SPECIAL[(kind * 5 + at) % SPECIAL.len()]).collect();
    for (at, x) in LOWER.into_iter().zip(lower) {
        out[at] = x;
    }
    out
}

/// The factor, and a solve by what it gives.
fn both(matrix: Vec<f64>, side: Vec<f64>) -> [Case; 2] {
    let (l, pivots) = Text.handheld_factor(three_columns(&matrix));
    [factor(matrix), solve(l.as_flattened().to_vec(), pivots, side)]
}

/// All matrices over a few numbers, with sides of special numbers.
pub fn held_few() -> impl Iterator<Item = Case> {
    FEW.into_iter().flat_map(|few| {
        (0..few.len().pow(6)).flat_map(move |t| {
            let lower = [0, 1, 2, 3, 4, 5].map(|at| few[t / few.len().pow(at) % few.len()]);
            let side = [1, 3, 7].map(|by| SPECIAL[(t * by + t / 1024) % SPECIAL.len()]);
            both(placed(lower, t), side.to_vec())
        })
    })
}

/// Matrices with pivots of every kind: all that keep the rule, and a mark in each row.
const KINDS: [[f64; 6]; 14] = [
    [4.0, 1.0, 5.0, 2.0, 3.0, 7.0],
    [0.5, 2.0, 8.0, 1.0, 3.0, 9.0],
    [0.5, 1.0, 3.0, 4.0, 0.25, 9.0],
    [4.0, 1.0, 0.5, 2.0, 5.0, 0.125],
    [0.0, 3.0, 0.5, 2.0, 1.0, 7.0],
    [0.0, 2.0, 5.0, 4.0, 1.0, 0.25],
    [4.0, 0.5, 0.1, 0.25, 1.0, 5.0],
    [0.75, 2.0, 8.0, 0.25, 0.5, 9.0],
    [0.25, 1.0, 4.0, 0.5, 0.125, 0.1],
    [0.25, 0.5, 0.1, 1.0, 0.125, 4.0],
    [-0.5, 0.5, 0.1, 1.0, 0.125, 4.0],
    [0.0, 0.0, 5.0, 0.0, 3.0, 7.0],
    [2.0, 0.0, 0.0, 0.0, 0.0, 7.0],
    [2.0, 4.0, 9.0, 2.0, 4.0, 2.0],
];

/// The same with every two special numbers in every two places.
pub fn held_special() -> impl Iterator<Item = Case> {
    let places = (0..6).flat_map(|q| (0..q).map(move |p| (p, q)));
    KINDS.into_iter().flat_map(move |kind| {
        places.clone().flat_map(move |(p, q)| {
            (0..SPECIAL.len().pow(2)).flat_map(move |t| {
                let mut lower = kind;
                lower[p] = SPECIAL[t % SPECIAL.len()];
                lower[q] = SPECIAL[t / SPECIAL.len()];
                both(placed(lower, t), vec![3.0, -5.0, 7.0])
            })
        })
    })
}

/// Pivots that keep the rule but for the mark, with every mark up to one above the order.
fn sound_pairs() -> Vec<Pivots3> {
    let of = |pairs: &[u32], mark: u32| {
        let [index, size] = [0, 1].map(|from| [pairs[from], pairs[from + 2], pairs[from + 4]]);
        Pivots3 { index, size, mark }
    };
    pairs_from(0, 3).iter().flat_map(|pairs| (0..5).map(move |mark| of(pairs, mark))).collect()
}

/// A matrix and a side, others for each number.
fn numbered(t: usize) -> (Vec<f64>, Vec<f64>) {
    let r = &mut Rng::new(t as u64);
    let matrix = if r.one_in(4) { numbers(r, 9) } else { (0..9).map(|_| r.unit()).collect() };
    let side = if r.one_in(4) { numbers(r, 3) } else { (0..3).map(|_| r.unit()).collect() };
    (matrix, side)
}

/// Solves by all pivots over a few words; by sound ones, with every mark, with each bit changed, and each word to each of some.
pub fn held_pivots() -> impl Iterator<Item = Case> {
    let few = [0, 1, 2, 3, u32::MAX];
    let over_few = (0..few.len().pow(7)).map(move |t| Pivots3::of([0, 1, 2, 3, 4, 5, 6].map(|at| few[t / few.len().pow(at) % few.len()])));
    let changed = sound_pairs().into_iter().flat_map(|sound| {
        (0..7).flat_map(move |at| {
            let with = move |word: u32| {
                let mut words = sound.words();
                words[at] = word;
                Pivots3::of(words)
            };
            let word = sound.words()[at];
            (0..32).map(move |bit| word ^ 1 << bit).chain([4, 5, 6, 7, 1 << 31, u32::MAX - 1]).map(with)
        })
    });
    over_few.chain(changed).enumerate().map(|(t, pivots)| {
        let (matrix, side) = numbered(t);
        solve(matrix, pivots, side)
    })
}

/// Solves by all sound pivots that have no mark, with every two of some numbers in every two of the lower entries and the side.
pub fn held_sides() -> impl Iterator<Item = Case> {
    let some = [0.0, -0.0, 1.0, -3.0, LEAST, power(-600), power(600), f64::MAX, f64::INFINITY, f64::NEG_INFINITY, f64::NAN];
    let places = (0..9).flat_map(|q| (0..q).map(move |p| (p, q)));
    sound_pairs().into_iter().filter(|pivots| pivots.mark == 0).flat_map(move |pivots| {
        places.clone().flat_map(move |(p, q)| {
            (0..some.len().pow(2)).map(move |t| {
                let mut given = [2.0, 0.75, -3.0, 1.5, 0.3, 5.0, 3.0, -7.0, 11.0];
                given[p] = some[t % some.len()];
                given[q] = some[t / some.len()];
                let [lower @ .., x, y, z] = given;
                solve(placed(lower, t), pivots, vec![x, y, z])
            })
        })
    })
}

/// Three rows: any, or two rows beside one that has nothing in common with them.
fn three_rows(r: &mut Rng) -> Symmetric {
    if !r.one_in(4) {
        return symmetric(r, &FOR_LBLT, 3);
    }
    let two = if r.one_in(2) { alpha_edge(r, 2) } else { symmetric(r, &FOR_LBLT, 2) };
    let alone = r.pick(&[1.0, 0.0, -0.0, 2.0, f64::NAN]);
    let apart = r.pick(&[0.0, 0.0, -0.0]);
    Symmetric::of(3, |i, j| match (i, j) {
        (0, 0) => alone,
        (_, 0) => apart,
        _ => two.get(i - 1, j - 1),
    })
}

/// A matrix by chance; solves by its factor and pivots, by these with a word changed, by other sound pivots and by those with a mark on a wrong row.
pub fn held(seed: u64) -> Vec<Case> {
    // not the numbers that the other cases of this seed get
    let r = &mut Rng::new(seed ^ 1 << 56);
    let m = three_rows(r);
    let above = numbers(r, 9);
    let of_a_place = r.one_in(4);
    let matrix = m.placed(3, true, |at| if of_a_place { fill(at) } else { above[at] });
    let (l, own) = Text.handheld_factor(three_columns(&matrix));
    let record: Vec<u32> = (0..3).flat_map(|k| [own.index[k], own.size[k]]).chain([own.mark, 0]).collect();
    let of_record = |record: Vec<u32>| match record[..] {
        [i0, s0, i1, s1, i2, s2, mark, _] => Pivots3::of([i0, i1, i2, s0, s1, s2, mark]),
        _ => unreachable!("a record of order 3 has 8 words"),
    };
    let l = l.as_flattened().to_vec();
    let changed = of_record(changed_record(r, &record));
    let (sound, mismarked) = (of_record(sound_record(r, 3, 0)), of_record(mismarked_record(r, 3, 0)));
    vec![
        factor(matrix),
        solve(l.clone(), own, numbers(r, 3)),
        solve(l, changed, numbers(r, 3)),
        solve(numbers(r, 9), sound, numbers(r, 3)),
        solve(numbers(r, 9), mismarked, numbers(r, 3)),
    ]
}
