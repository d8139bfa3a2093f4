//! Cholesky's solve: factors of many kinds and right-hand sides for them.

use super::families::{order, placed, some_cuts};
use super::matrices::{FOR_FACTOR, FOR_SOLVE, Numbers, Symmetric, fill, number, numbers, symmetric};
use super::rng::Rng;
use super::{SPECIAL, filled};
use crate::call::{Call, Calls, Case};
use crate::text::Text;

/// One matrix by chance, factored at once or in batches, or a triangle that no call factored, and solves by it.
pub fn solves(seed: u64) -> Vec<Case> {
    // not the numbers that the family and the twin rows of this seed get
    let r = &mut Rng::new(seed ^ 1 << 63);
    let n = order(r);
    let room = n + r.pick(&[0, 0, 1, 3]);
    let factors = match r.below(6) {
        0..2 => in_batches(r, n, room, &[n]),
        2 => {
            let cuts = some_cuts(r, n);
            in_batches(r, n, room, &cuts)
        }
        _ => {
            let m = symmetric(r, &FOR_FACTOR, n);
            vec![by(n, room, placed(r, &m, room, true))]
        }
    };
    let mut out = vec![];
    for factor in factors {
        for _ in 0..2 {
            let columns = if r.one_in(40) { 64 } else { r.pick(&[0, 1, 1, 1, 2, 3, 4, 4, 5, 6, 7, 8, 9]) };
            out.push(with_sides(r, &factor, columns));
        }
    }
    out
}

/// A solve of no columns.
fn by(n: usize, room: usize, a: Vec<f64>) -> Case {
    Case { x: room, ..Case::new(Call::CholeskySolve, n, a) }
}

/// What each batch leaves, the rows after it as they came. A refusal ends the batches; what it leaves is solved by as it stands.
fn in_batches(r: &mut Rng, n: usize, room: usize, cuts: &[usize]) -> Vec<Case> {
    let m = symmetric(r, &FOR_SOLVE, n);
    let mut a = placed(r, &m, room, true);
    let mut out = vec![];
    let mut earlier = 0;
    for &cut in cuts {
        let answer = Text.cholesky_extend(&mut a, room, earlier, cut);
        out.push(by(cut, room, a.clone()));
        if answer != 0 {
            break;
        }
        earlier = cut;
    }
    out
}

fn with_sides(r: &mut Rng, factor: &Case, columns: usize) -> Case {
    let b = (0..columns).flat_map(|_| side(r, factor)).collect();
    Case { y: columns, b, ..factor.clone() }
}

fn side(r: &mut Rng, factor: &Case) -> Vec<f64> {
    let n = factor.n;
    match r.below(6) {
        0..3 => numbers(r, n),
        3 => cancelling(r, factor),
        // one special number among others, or among zeros of either sign
        4 => planted(r, n, |r| r.unit()),
        _ => planted(r, n, |r| r.pick(&[0.0, -0.0])),
    }
}

/// L·(Lᵀ·x) for small whole numbers x: the sums of a solve cancel.
fn cancelling(r: &mut Rng, factor: &Case) -> Vec<f64> {
    let n = factor.n;
    let l = |i: usize, j: usize| factor.a[i + j * factor.x];
    let x: Vec<f64> = (0..n).map(|_| number(r, Numbers::SmallIntegers)).collect();
    let y: Vec<f64> = (0..n).map(|j| (j..n).fold(0.0, |sum, i| sum + l(i, j) * x[i])).collect();
    (0..n).map(|i| (0..=i).fold(0.0, |sum, j| sum + l(i, j) * y[j])).collect()
}

fn planted(r: &mut Rng, n: usize, others: impl Fn(&mut Rng) -> f64) -> Vec<f64> {
    let mut b: Vec<f64> = (0..n).map(|_| others(r)).collect();
    if n > 0 {
        b[r.below(n)] = r.pick(&SPECIAL);
    }
    b
}

/// Every order up to 64 and some above, with 0 to 9 columns and 64, NaN wherever no call may read: a factor, and a triangle that is none.
pub fn solves_of_all_orders() -> Vec<Case> {
    let r = &mut Rng::new(65);
    let mut out = vec![];
    for n in (0..=64).chain([65, 100, 127, 128, 255, 256]) {
        for columns in (0..=9).chain([64]) {
            let room = n + r.pick(&[0, 1, 3]);
            let nan = |m: &Symmetric| by(n, room, m.placed(room, true, |_| f64::NAN));
            let mut own = nan(&Symmetric::of(n, |i, j| r.unit() + if i == j { n as f64 } else { 0.0 }));
            Text.cholesky_factor(&mut own.a, room, n);
            let other = nan(&symmetric(r, &FOR_FACTOR, n));
            out.push(with_sides(r, &own, columns));
            out.push(with_sides(r, &other, columns));
        }
    }
    out
}

/// Orders, rooms and column counts of 1,024, and 1,025 with slices to match.
pub fn largest_solves() -> Vec<Case> {
    let r = &mut Rng::new(1026);
    let (n, few) = (1024, 1000);
    let m = Symmetric::of(n, |i, j| r.unit() + if i == j { n as f64 } else { 0.0 });
    let mut whole = by(n, n, m.placed(n, true, fill));
    Text.cholesky_factor(&mut whole.a, n, n);
    let cut = Symmetric::of(few, |i, j| whole.a[i + j * n]);
    let within = by(few, n, cut.placed(n, true, |_| f64::NAN));
    let m = n + 1;
    let sides = |factor: Case, columns: usize| Case { y: columns, b: filled(factor.n * columns), ..factor };
    vec![
        with_sides(r, &whole, 5),
        with_sides(r, &whole, n),
        with_sides(r, &within, 9),
        with_sides(r, &by(3, n, whole.a.clone()), n),
        with_sides(r, &by(1, 1, vec![3.0]), n),
        by(0, n, whole.a.clone()),
        sides(by(0, 0, vec![]), n),
        sides(by(0, 0, vec![]), m),
        sides(by(1, 1, vec![3.0]), m),
        sides(by(n, m, filled(m * m)), 1),
        sides(by(m, m, filled(m * m)), 1),
        sides(by(m, n, whole.a.clone()), 1),
    ]
}
