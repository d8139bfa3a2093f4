//! Matrices for the teaching call beside those of the factor: small ones, every order that it takes, refused at every row, and sizes on both sides of
//! its limits.

use super::families::{order, placed};
use super::fixed::{FAR, fits, spoiled};
use super::floored::broken;
use super::matrices::{FOR_FLOOR, FOR_SOLVE, Symmetric, again, exact, fill, filled, heavy_diagonal, symmetric};
use super::packed::small_matrices;
use super::rng::Rng;
use crate::call::{Call, Case};
use crate::teaching::MOST;

fn lent(n: usize, room: usize, a: Vec<f64>) -> Case {
    Case { x: room, ..Case::new(Call::CholeskyTeaching, n, a) }
}

fn in_room(m: &Symmetric, room: usize) -> Case {
    lent(m.n, room, m.placed(room, true, fill))
}

/// Matrices of orders up to 5: accepted ones, refused ones by each code and at each row, rows that came twice, and a special number in each place; in rooms
/// of the order, one more and three more.
pub fn taught_small() -> Vec<Case> {
    let r = &mut Rng::new(68);
    let mut out = vec![];
    for m in (0..=5).flat_map(|n| small_matrices(r, n)) {
        out.extend([in_room(&m, m.n), in_room(&m, m.n + 3), lent(m.n, m.n + 1, m.placed(m.n + 1, true, |_| f64::NAN))]);
    }
    out
}

/// Every order from 0 to 64, in rooms of the order and up to two more: accepted, refused by each code at the last row, and at the two greatest orders at
/// every row; the last row the one before it again, and the first.
pub fn taught_orders() -> Vec<Case> {
    let r = &mut Rng::new(69);
    let mut out = vec![];
    for n in 0..=MOST {
        let (heavy, whole) = (heavy_diagonal(r, n), exact(r, n));
        let first = if n + 1 < MOST { n.saturating_sub(1) } else { 0 };
        let mut matrices: Vec<Symmetric> = (first..n).flat_map(|row| whole.refused_at(row)).collect();
        if n > 1 {
            matrices.extend([n - 2, 0].map(|p| again(&heavy, p, n - 1)));
        }
        matrices.extend([heavy, whole.matrix]);
        out.extend(matrices.iter().map(|m| in_room(m, n + r.below(3))));
    }
    out
}

/// Sound calls of orders 0 to 3 and the same with one or two things wrong; then orders, rooms and lengths on both sides of their limits, each with each.
pub fn taught_refusals() -> Vec<Case> {
    let mut out = vec![];
    for n in 0..4 {
        for room in n..n + 2 {
            spoiled(&mut out, &lent(n, room, filled(room * room)));
        }
    }
    out.retain(fits);
    let counts: Vec<usize> = [0, 1, 2, MOST - 1, MOST, MOST + 1, MOST + 2, 1023, 1024].into_iter().chain(FAR).collect();
    for &n in &counts {
        for &room in &counts {
            let whole = if room < 1023 { room * room } else { MOST * MOST };
            for len in [0, 1, whole.saturating_sub(1), whole, whole + 1] {
                out.push(lent(n, room, filled(len)));
            }
        }
    }
    out
}

/// Orders 3 and 64 in a room of 1,024, accepted and refused at the first and the last row; order 65, which the factor accepts; a room of 1,025.
pub fn largest_taught() -> Vec<Case> {
    let r = &mut Rng::new(1031);
    let mut out = vec![];
    for n in [3, MOST] {
        let whole = exact(r, n);
        out.extend(whole.refused_at(0).iter().chain(&whole.refused_at(n - 1)).map(|m| in_room(m, 1024)));
        out.extend([in_room(&whole.matrix, 1024), in_room(&whole.matrix, 1025)]);
    }
    let beyond = heavy_diagonal(r, MOST + 1);
    out.extend([MOST + 1, MOST + 2, 1024, 1025].map(|room| in_room(&beyond, room)));
    out
}

/// A matrix by chance as it is, with one row that is refused or came twice, and with many.
pub fn taught(seed: u64) -> Vec<Case> {
    // not the numbers that the other cases of this seed get
    let r = &mut Rng::new(seed ^ 1 << 57);
    let n = if r.one_in(50) { r.pick(&[MOST - 1, MOST, MOST + 1]) } else { order(r).min(MOST) };
    let m = if r.one_in(2) { symmetric(r, &FOR_SOLVE, n) } else { symmetric(r, &FOR_FLOOR, n) };
    let mut matrices = vec![];
    if n > 0 {
        let row = r.below(n);
        let failing = r.pick(&[0.0, -0.0, -1.0, f64::NEG_INFINITY, f64::NAN]);
        matrices.push(if r.one_in(2) { m.with(row, row, failing) } else { again(&m, r.below(row + 1), row) });
    }
    let many = broken(r, m.clone());
    matrices.extend([many, m]);
    let room = n + r.pick(&[0, 0, 1, 3, 20]);
    matrices.iter().map(|m| lent(n, room, placed(r, m, room, true))).collect()
}
