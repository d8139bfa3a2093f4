//! Packed triangles (document 02, E7): a packed call by what the full one answers and leaves on the same matrix, and the packed batches of a chain by
//! what the one call and the full layout's batches leave.
//!
//! A packed matrix holds the columns from the diagonal down, one after the other. The steps in `paper` have document 02's places instead.

use crate::call::{Call, Calls, Case, Outcome, words};
use crate::cases::{Chain, filled};

pub fn packed_length(n: usize) -> usize {
    n * (n + 1) / 2
}

/// The lower triangle of the first n rows and columns of a room.
pub fn pack<T: Copy>(a: &[T], room: usize, n: usize) -> Vec<T> {
    (0..n).flat_map(|j| &a[j * room + j..j * room + n]).copied().collect()
}

/// The whole matrix, with NaN above the diagonal.
pub fn unpack(a: &[f64], n: usize) -> Vec<f64> {
    let mut whole = vec![f64::NAN; n * n];
    let mut rest = a;
    for j in 0..n {
        let (column, after) = rest.split_at(n - j);
        whole[j * n + j..(j + 1) * n].copy_from_slice(column);
        rest = after;
    }
    whole
}

/// The first rows of a packed matrix of order n, packed.
fn leading(a: &[u64], n: usize, rows: usize) -> Vec<u64> {
    let mut out = vec![];
    let mut rest = a;
    for j in 0..rows {
        out.extend_from_slice(&rest[..rows - j]);
        rest = &rest[n - j..];
    }
    out
}

/// The lower rows from `earlier` on, end to end.
fn rows(a: &[f64], room: usize, earlier: usize, n: usize) -> Vec<f64> {
    (earlier..n).flat_map(|i| (0..=i).map(move |j| a[i + j * room])).collect()
}

/// The room of a full call's matrix.
fn room(full: &Case) -> usize {
    if matches!(full.call, Call::LbltFactor | Call::LbltSolve | Call::LbltDeterminant) { full.n } else { full.x }
}

/// The first matrix is as long as its room wants it, and the order at most the room.
fn sound(full: &Case) -> bool {
    let room = room(full);
    full.n <= room && room.checked_mul(room) == Some(full.a.len())
}

/// The packed call on the lower triangle that the full one is lent, if there is one; nothing packed stands beside a refusal for the room alone.
pub fn beside(full: &Case) -> Option<Case> {
    const MOST: usize = 1024;
    let (call, room) = (full.call.packed()?, room(full));
    let for_the_room = room > MOST || full.n > room;
    if for_the_room && full.n.max(full.y) <= MOST {
        return None;
    }
    let case = Case::new(call, full.n, triangle(full, full.n));
    Some(match call {
        Call::PackedLbltFactor | Call::PackedLbltDeterminant => Case { run: full.run, record: full.record.clone(), ..case },
        Call::PackedLbltSolve => Case { x: full.x, run: full.run, record: full.record.clone(), b: full.b.clone(), ..case },
        Call::PackedCholeskySolve => Case { x: full.y, b: full.b.clone(), ..case },
        Call::PackedCholeskyExtend => {
            let (b, c) = if sound(full) { (rows(&full.a, room, full.y, full.n), filled(packed_length(full.n))) } else { (vec![], vec![]) };
            Case { x: full.y, b, c, ..Case::new(call, full.n, triangle(full, full.y)) }
        }
        _ => case,
    })
}

/// The lower triangle of the first `order` rows; a buffer of a wrong length stays one.
fn triangle(full: &Case, order: usize) -> Vec<f64> {
    if sound(full) && order <= room(full) {
        return pack(&full.a, room(full), order);
    }
    let mut a = full.a.clone();
    if order <= a.len() && packed_length(order) == a.len() {
        a.push(7.0);
    }
    a
}

/// What the packed call is to answer and leave by what the full one does: the same answer, value, record and sides, and in the buffer that it works in
/// the lower part of the full one's. A refusal before the work leaves that buffer as given.
pub fn kept(packed: &Case, full: &Case, left: &Outcome) -> Outcome {
    let [a, b, c] = [&packed.a, &packed.b, &packed.c].map(|s| words(s));
    let (answer, value, record) = (left.answer, left.value, left.record.clone());
    let as_given = Outcome { answer, value, a, b, c, record, ..Outcome::default() };
    let worked = matches!(left.answer / 4096, 0 | 7 | 10 | 11);
    match packed.call {
        Call::PackedLbltFactor | Call::PackedCholeskyFactor if worked => Outcome { a: pack(&left.a, room(full), full.n), ..as_given },
        Call::PackedCholeskyExtend if worked => Outcome { c: pack(&left.a, room(full), full.n), ..as_given },
        Call::PackedLbltSolve | Call::PackedCholeskySolve => Outcome { b: left.b.clone(), ..as_given },
        _ => as_given,
    }
}

/// A batch with what it answers and leaves.
pub type Batch = (Case, Outcome);

/// The batches of a chain, each into a new buffer from what the one before it left in its own; a refusal ends them.
pub fn packed_batches(calls: &dyn Calls, chain: &Chain) -> Vec<Batch> {
    let fresh = |left: &Outcome| left.c.iter().map(|&w| f64::from_bits(w)).collect();
    batches(calls, &chain.cuts, |earlier, cut, last| Case {
        x: earlier,
        b: rows(&chain.a, chain.room, earlier, cut),
        c: filled(packed_length(cut)),
        ..Case::new(Call::PackedCholeskyExtend, cut, last.map_or(vec![], fresh))
    })
}

/// The same in one room.
pub fn full_batches(calls: &dyn Calls, chain: &Chain) -> Vec<Batch> {
    let buffer = |left: &Outcome| left.a.iter().map(|&w| f64::from_bits(w)).collect();
    batches(calls, &chain.cuts, |earlier, cut, last| Case {
        x: chain.room,
        y: earlier,
        ..Case::new(Call::CholeskyExtend, cut, last.map_or(chain.a.clone(), buffer))
    })
}

pub(crate) fn batches(calls: &dyn Calls, cuts: &[usize], batch: impl Fn(usize, usize, Option<&Outcome>) -> Case) -> Vec<Batch> {
    let mut out: Vec<Batch> = vec![];
    for &cut in cuts {
        let earlier = out.last().map_or(0, |(last, _)| last.n);
        let next = batch(earlier, cut, out.last().map(|(_, left)| left));
        let left = next.outcome(calls);
        let refused = left.answer != 0;
        out.push((next, left));
        if refused {
            break;
        }
    }
    out
}

/// The one call on the whole matrix of a chain.
pub fn whole(chain: &Chain) -> Case {
    Case::new(Call::PackedCholeskyFactor, chain.n, pack(&chain.a, chain.room, chain.n))
}

/// What the last batch of a chain is to answer and leave by what the one call does: its refusal if that row was handed in, and its rows as far as
/// they were handed in.
pub fn by_the_whole(last: &Case, whole: &Case, left: &Outcome) -> Outcome {
    let handed_in = left.answer % 4096 < last.n as u64;
    let [a, b] = [&last.a, &last.b].map(|s| words(s));
    let c = leading(&left.a, whole.n, last.n);
    Outcome { answer: if handed_in { left.answer } else { 0 }, a, b, c, ..Outcome::default() }
}
