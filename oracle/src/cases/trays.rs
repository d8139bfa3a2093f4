//! Trays: systems of one order, laid end to end. What stands above the diagonals, and in records and answers before the call, is any number.

use super::SPECIAL;
use super::families::{a_number, another_number, order, sound_record};
use super::fixed::FAR;
use super::handheld::{held_few, held_special};
use super::matrices::{FOR_LBLT, Numbers, Symmetric, fill, heavy_diagonal, number, numbers, symmetric, well_scaled};
use super::rng::Rng;
use crate::call::{Call, Case, record_length};
use crate::tray::{MOST_ITEMS, MOST_ORDER};

/// A tray of these matrices of order n, with sides by chance.
fn tray(r: &mut Rng, n: usize, matrices: &[Symmetric]) -> Case {
    let of_a_place = r.one_in(2);
    let mut above = |at: usize| if of_a_place { fill(at) } else { number(r, Numbers::AnyBits) };
    let a = matrices.iter().flat_map(|m| {
        let rest: Vec<f64> = (0..n * n).map(&mut above).collect();
        m.placed(n, true, |at| rest[at])
    });
    let a = a.collect();
    let b = matrices.iter().flat_map(|_| numbers(r, n)).collect();
    laid(r, n, matrices.len(), a, b)
}

/// The numbers as they are laid, with run numbers, old records and old answers by chance.
fn laid(r: &mut Rng, n: usize, count: usize, a: Vec<f64>, b: Vec<f64>) -> Case {
    let runs = runs(r, count);
    let record = runs.iter().flat_map(|&run| old_record(r, n, run)).collect();
    let answers = (0..count).map(|_| if r.one_in(4) { 0 } else { r.word() }).collect();
    Case { x: count, b, record, runs, answers, ..Case::new(Call::LbltTray, n, a) }
}

/// One number for all, each one unit or one bit beside the last, or any.
fn runs(r: &mut Rng, count: usize) -> Vec<u32> {
    let first = a_number(r);
    match r.below(4) {
        0 => vec![first; count],
        1 => (0..count).map(|item| first.wrapping_add(item as u32)).collect(),
        2 => (0..count).scan(first, |run, _| Some(std::mem::replace(run, another_number(r, *run)))).collect(),
        _ => (0..count).map(|_| a_number(r)).collect(),
    }
}

/// What stands where an item's record goes: any words, or a sound record of this run or another.
fn old_record(r: &mut Rng, n: usize, run: u32) -> Vec<u32> {
    match r.below(4) {
        0 => sound_record(r, n, run),
        1 => {
            let other = another_number(r, run);
            sound_record(r, n, other)
        }
        2 => vec![9; record_length(n)],
        _ => (0..record_length(n)).map(|_| r.word() as u32).collect(),
    }
}

/// The matrix with a zero row and column, which is marked there if no row before it is exchanged or marked.
fn cleared(m: &Symmetric, row: usize) -> Symmetric {
    Symmetric::of(m.n, |i, j| if i == row || j == row { 0.0 } else { m.get(i, j) })
}

/// Matrices for one tray: any, some with a zero row, some the one before once more.
fn matrices(r: &mut Rng, n: usize, count: usize) -> Vec<Symmetric> {
    let mut out: Vec<Symmetric> = vec![];
    for _ in 0..count {
        let again = out.last().filter(|_| r.one_in(8)).cloned();
        let m = again.unwrap_or_else(|| symmetric(r, &FOR_LBLT, n));
        out.push(if n > 0 && r.one_in(5) { cleared(&m, r.below(n)) } else { m });
    }
    out
}

/// A tray by chance: mostly a few items, most often of order 3; now and then as many as a tray holds, of the smallest orders. Sometimes something is wrong
/// with it.
pub fn trays(seed: u64) -> Vec<Case> {
    // not the numbers that the other cases of this seed get
    let r = &mut Rng::new(seed ^ 1 << 55);
    let (n, count) = match r.below(2000) {
        0 => (r.below(4), MOST_ITEMS - r.below(2)),
        1..21 => (r.below(4), r.below(100)),
        21..31 => (r.pick(&[33, 60, 63, MOST_ORDER]), r.below(4)),
        31..231 => (3, r.below(10)),
        _ => match order(r).min(20) {
            n if n <= 8 => (n, r.below(10)),
            n => (n, r.below(4)),
        },
    };
    let given = matrices(r, n, count);
    let mut sound = tray(r, n, &given);
    if r.one_in(8) {
        spoil(r, &mut sound);
    }
    vec![sound]
}

/// Its order, its count or the length of one of its slices becomes another.
fn spoil(r: &mut Rng, tray: &mut Case) {
    let (far, by) = (r.pick(&FAR), r.pick(&[-1, 1]));
    match r.below(7) {
        0 => tray.n = r.pick(&[tray.n + 1, tray.n.saturating_sub(1), MOST_ORDER + 1, far]),
        1 => tray.x = r.pick(&[tray.x + 1, tray.x.saturating_sub(1), MOST_ITEMS + 1, far]),
        which => lengthen(tray, which - 2, by),
    }
}

/// One of the five slices becomes longer or shorter.
fn lengthen(tray: &mut Case, which: usize, by: isize) {
    fn resized<T: Clone>(slice: &mut Vec<T>, by: isize, with: T) {
        slice.resize(slice.len().saturating_add_signed(by), with);
    }
    match which {
        0 => resized(&mut tray.a, by, 7.0),
        1 => resized(&mut tray.record, by, 7),
        2 => resized(&mut tray.b, by, 7.0),
        3 => resized(&mut tray.runs, by, 7),
        _ => resized(&mut tray.answers, by, 7),
    }
}

/// Order 1: every two special numbers side by side, and every three of some. Orders 2 and 3: all trays of up to three and of up to two items over matrices
/// with pivots of every kind and a mark in each row.
pub fn trays_small() -> Vec<Case> {
    let r = &mut Rng::new(70);
    let one = |x: f64| Symmetric::of(1, |_, _| x);
    let some = [0.0, -0.0, 2.0, -3.0, f64::INFINITY, f64::NAN, f64::from_bits(1)];
    let mut out: Vec<Case> = all_of(&SPECIAL.map(one), 2).iter().map(|given| tray(r, 1, given)).collect();
    out.extend(all_of(&some.map(one), 3).iter().map(|given| tray(r, 1, given)));
    let (two, three) = (TWO.map(|lower| by_rows(2, &lower)), THREE.map(|lower| by_rows(3, &lower)));
    for (n, kinds, most) in [(2, &two[..], 3), (3, &three[..], 2)] {
        for count in 0..=most {
            out.extend(all_of(kinds, count).iter().map(|given| tray(r, n, given)));
        }
    }
    // a marked item, and one that is all NaN, between two others
    let (zero, nan) = (by_rows(3, &[0.0; 6]), by_rows(3, &[f64::NAN; 6]));
    for m in &three {
        for other in [&zero, &nan] {
            out.extend([[m, other, m], [other, m, other]].map(|given| tray(r, 3, &given.map(Symmetric::clone))));
        }
    }
    out
}

/// Trays of 1,024 items, and what is left as a last one. Order 1: every special number with every special side. Order 2: every three special numbers. Order
/// 3: all matrices over a few numbers, and those with pivots of every kind with every two special numbers in every two lower entries.
pub fn trays_of_many() -> impl Iterator<Item = Case> {
    let at = |k: usize| SPECIAL[k % SPECIAL.len()];
    let ones = (0..SPECIAL.len().pow(2)).map(move |t| (vec![at(t)], vec![at(t / 32)]));
    let twos = (0..SPECIAL.len().pow(3)).map(move |t| {
        let side = vec![at(t * 7 + t / 32), at(t * 5 + t / 1024 + 3)];
        (vec![at(t), at(t / 32), fill(t), at(t / 1024)], side)
    });
    let mut held = held_few().chain(held_special());
    // a factor, and the solve by it
    let threes = std::iter::from_fn(move || Some((held.next()?.a, held.next()?.b)));
    in_trays(1, ones).chain(in_trays(2, twos)).chain(in_trays(3, threes))
}

/// Matrices and sides, as many in a tray as it holds.
fn in_trays(n: usize, mut items: impl Iterator<Item = (Vec<f64>, Vec<f64>)>) -> impl Iterator<Item = Case> {
    let mut r = Rng::new(73 + n as u64);
    std::iter::from_fn(move || {
        let (matrices, sides): (Vec<_>, Vec<_>) = items.by_ref().take(MOST_ITEMS).unzip();
        let count = matrices.len();
        (count > 0).then(|| laid(&mut r, n, count, matrices.concat(), sides.concat()))
    })
}

fn by_rows(n: usize, lower: &[f64]) -> Symmetric {
    Symmetric::of(n, |i, j| lower[i * (i + 1) / 2 + j])
}

/// Every way to choose as many of them, one after the other.
fn all_of(of: &[Symmetric], count: u32) -> Vec<Vec<Symmetric>> {
    (0..of.len().pow(count)).map(|t| (0..count).map(|at| of[t / of.len().pow(at) % of.len()].clone()).collect()).collect()
}

/// By lower rows: one pivot after the other, exchanged, a block of two rows; a mark in each row, by zeros, by twins and by NaN; infinity.
const TWO: [[f64; 3]; 10] = [
    [4.0, 2.0, 3.0],
    [0.0, 1.0, 4.0],
    [0.0, 1.0, 0.0],
    [0.0, 0.0, 5.0],
    [0.0, f64::NAN, 5.0],
    [2.0, 0.0, 0.0],
    [1.0, 1.0, 1.0],
    [f64::NAN, 1.0, 2.0],
    [f64::INFINITY, 1.0, 2.0],
    [0.25, 1.0, f64::NEG_INFINITY],
];

const THREE: [[f64; 6]; 14] = [
    [4.0, 1.0, 5.0, 2.0, 3.0, 7.0],
    [0.5, 2.0, 8.0, 1.0, 3.0, 9.0],
    [0.5, 1.0, 3.0, 4.0, 0.25, 9.0],
    [4.0, 1.0, 0.5, 2.0, 5.0, 0.125],
    [0.0, 3.0, 0.5, 2.0, 1.0, 7.0],
    [0.0, 2.0, 5.0, 4.0, 1.0, 0.25],
    [4.0, 0.5, 0.1, 0.25, 1.0, 5.0],
    [0.25, 0.5, 0.1, 1.0, 0.125, 4.0],
    [0.0, 0.0, 5.0, 0.0, 3.0, 7.0],
    [2.0, 0.0, 0.0, 0.0, 0.0, 7.0],
    [1.0, 0.0, 1.0, 0.0, 0.0, 0.0],
    [2.0, 4.0, 9.0, 2.0, 4.0, 2.0],
    [0.0, f64::NAN, 5.0, 1.0, 2.0, 3.0],
    [f64::NAN, 0.0, 2.0, 0.0, 1.0, 3.0],
];

/// Every order from 0 to 64, with up to four items: well scaled, marked in some row, of a heavy diagonal, with a special number in it. At order 64 each row
/// is marked once.
pub fn trays_of_all_orders() -> Vec<Case> {
    let r = &mut Rng::new(71);
    let mut out = vec![];
    for n in 0..=MOST_ORDER {
        let heavy = heavy_diagonal(r, n);
        let last = n.saturating_sub(1);
        let rows: Vec<usize> = if n < MOST_ORDER { vec![0, n / 2, last] } else { (0..n).collect() };
        for row in rows {
            let (one, special) = (well_scaled(r, n), r.pick(&SPECIAL));
            let planted = if n > 0 { one.with(row, r.below(n), special) } else { one.clone() };
            out.push(tray(r, n, &[one, cleared(&heavy, row), heavy.clone(), planted]));
        }
    }
    out
}

/// Sound trays of orders and counts up to 3 and the same with one or two things wrong: order, count, the length of each slice.
pub fn tray_refusals() -> Vec<Case> {
    let r = &mut Rng::new(72);
    let mut out = vec![];
    for (n, count) in (0..16).map(|t| (t % 4, t / 4)) {
        let given: Vec<Symmetric> = (0..count).map(|_| well_scaled(r, n)).collect();
        let base = tray(r, n, &given);
        let edits = wrong(&base);
        out.push(base.clone());
        for (at, one) in edits.iter().enumerate() {
            let mut case = base.clone();
            one.apply(&mut case);
            out.push(case.clone());
            for other in &edits[at + 1..] {
                let mut both = case.clone();
                other.apply(&mut both);
                out.push(both);
            }
        }
    }
    out
}

#[derive(Clone, Copy)]
enum Wrong {
    Order(usize),
    Count(usize),
    Length { which: usize, by: isize },
}

impl Wrong {
    fn apply(self, tray: &mut Case) {
        match self {
            Wrong::Order(n) => tray.n = n,
            Wrong::Count(count) => tray.x = count,
            Wrong::Length { which, by } => lengthen(tray, which, by),
        }
    }
}

fn wrong(base: &Case) -> Vec<Wrong> {
    let mut out = vec![];
    out.extend([base.n + 1, base.n.saturating_sub(1), MOST_ORDER, MOST_ORDER + 1].into_iter().chain(FAR).map(Wrong::Order));
    out.extend([base.x + 1, base.x.saturating_sub(1), MOST_ITEMS].into_iter().chain(FAR).map(Wrong::Count));
    let (items, each) = (base.x as isize, base.n as isize);
    let lengths = [base.a.len(), base.record.len(), base.b.len(), base.runs.len(), base.answers.len()].map(|len| len as isize);
    for (which, len) in lengths.into_iter().enumerate() {
        // one too few and too many, none, those of one item alone, one fewer and one more for each item, a row more
        for by in [-1, 1, -len, len / items.max(1) - len, -items, items, each] {
            out.push(Wrong::Length { which, by });
        }
    }
    out
}

/// As many items as a tray holds, and one more with slices to match; the greatest order, and one more.
pub fn largest_trays() -> Vec<Case> {
    let r = &mut Rng::new(1033);
    let mut out = vec![];
    for (n, count) in [(0, MOST_ITEMS), (1, MOST_ITEMS), (2, MOST_ITEMS), (3, MOST_ITEMS), (8, MOST_ITEMS), (MOST_ORDER, 3)] {
        let given = matrices(r, n, count);
        out.push(tray(r, n, &given));
    }
    let many: Vec<Symmetric> = (0..MOST_ITEMS).map(|_| well_scaled(r, MOST_ORDER)).collect();
    out.push(tray(r, MOST_ORDER, &many));
    let special: Vec<Symmetric> = (0..MOST_ITEMS).map(|item| Symmetric::of(1, |_, _| SPECIAL[item % SPECIAL.len()])).collect();
    out.push(tray(r, 1, &special));
    for (n, count) in
        [(0, 0), (MOST_ORDER, 0), (0, MOST_ITEMS + 1), (1, MOST_ITEMS + 1), (MOST_ORDER + 1, 0), (MOST_ORDER + 1, 1), (MOST_ORDER + 1, 2)]
    {
        let given: Vec<Symmetric> = (0..count).map(|_| well_scaled(r, n)).collect();
        out.push(tray(r, n, &given));
    }
    out
}
