//! Matrices in which rows came twice, or nearly so, and the calls that look for them.

use super::families::order;
use super::filled;
use super::matrices::{Numbers, Symmetric, fill, number, plain, well_scaled};
use super::rng::Rng;
use crate::call::{Call, Case};

/// A matrix by chance, as it is and with an entry changed, and the calls on it.
pub fn twins(seed: u64) -> Vec<Case> {
    // not the numbers that the family of this seed gets
    let r = &mut Rng::new(!seed);
    let n = order(r);
    let sources = sources(r, n);
    let m = repeated(r, &sources);
    let room = n + r.pick(&[0, 1, 1, 3]);
    let places = places(r, &sources);
    let many = places.len() > 1;
    let mut out = calls(r, &m, room, many);
    for (i, j) in places {
        let near = m.with(i, j, changed(r, m.get(i, j)));
        out.extend(calls(r, &near, room, many));
    }
    out
}

/// For each row the row that it is again; itself if it came once.
fn sources(r: &mut Rng, n: usize) -> Vec<usize> {
    let mut out: Vec<usize> = (0..n).collect();
    if n < 2 {
        return out;
    }
    match r.below(8) {
        0 => {}
        1..4 => {
            let q = 1 + r.below(n - 1);
            out[q] = r.below(q);
        }
        4 => {
            for q in 1..n {
                if r.one_in(3) {
                    out[q] = out[r.below(q)];
                }
            }
        }
        // a batch sent again
        5 => {
            let rows = 1 + r.below(n / 2);
            let first = r.below(n - 2 * rows + 1);
            for i in 0..rows {
                out[n - rows + i] = first + i;
            }
        }
        6 => out.fill(0),
        _ => {
            let rows = 1 + r.below(n.min(3));
            out.iter_mut().for_each(|source| *source = r.below(rows));
        }
    }
    out
}

/// Rows and columns as their sources say; now and then each NaN gets a sign and a payload of its own.
fn repeated(r: &mut Rng, sources: &[usize]) -> Symmetric {
    let n = sources.len();
    let once = match r.below(4) {
        0 => plain(r, n),
        1 => well_scaled(r, n),
        // rows that agree in most places
        2 => {
            let two = [number(r, Numbers::AnyBits), number(r, Numbers::AnyBits)];
            Symmetric::of(n, |_, _| two[r.one_in(8) as usize])
        }
        _ => Symmetric::of(n, |_, _| r.pick(&[0.0, -0.0, 1.0, f64::NAN])),
    };
    let own = r.one_in(2);
    Symmetric::of(n, |i, j| match once.get(sources[i], sources[j]) {
        x if own && x.is_nan() => any_nan(r),
        x => x,
    })
}

fn any_nan(r: &mut Rng) -> f64 {
    f64::from_bits(r.word() | 0x7ff0_0000_0000_0001)
}

/// Where an entry is changed: at every place of a small matrix, at every place of two twin rows, at one place, or nowhere.
fn places(r: &mut Rng, sources: &[usize]) -> Vec<(usize, usize)> {
    let n = sources.len();
    if n == 0 {
        return vec![];
    }
    let again: Vec<usize> = (0..n).filter(|&q| sources[q] != q).collect();
    match r.below(4) {
        0 if n <= 6 => (0..n).flat_map(|i| (0..=i).map(move |j| (i, j))).collect(),
        0 if n <= 33 && !again.is_empty() => {
            let q = r.pick(&again);
            [q, sources[q]].iter().flat_map(|&i| (0..n).map(move |j| (i, j))).collect()
        }
        1 => vec![],
        _ if again.is_empty() || r.one_in(4) => vec![(r.below(n), r.below(n))],
        _ => vec![(r.pick(&again), r.below(n))],
    }
}

/// One bit is another, or the sign of a zero, or a NaN is another one: that counts as the same.
fn changed(r: &mut Rng, x: f64) -> f64 {
    if x == 0.0 && r.one_in(2) {
        -x
    } else if x.is_nan() && r.one_in(2) {
        any_nan(r)
    } else {
        f64::from_bits(x.to_bits() ^ 1 << r.below(64))
    }
}

/// The calls on one matrix: for every earlier order if the matrix is small, else for some.
fn calls(r: &mut Rng, m: &Symmetric, room: usize, few: bool) -> Vec<Case> {
    let n = m.n;
    let rest: Vec<f64> = match r.below(3) {
        0 => filled(room * room),
        1 => (0..room * room).map(|_| any_nan(r)).collect(),
        _ => (0..room * room).map(|_| number(r, Numbers::AnyBits)).collect(),
    };
    let all = Case { x: room, ..Case::new(Call::FirstTwin, n, m.placed(room, true, |at| rest[at])) };
    let earlier: Vec<usize> = match n {
        0..=4 => (0..=n).collect(),
        5..=8 if !few => (0..=n).collect(),
        _ => (0..3).map(|_| r.below(n + 1)).collect(),
    };
    let since = |y| Case { call: Call::FirstTwinSince, y, ..all.clone() };
    earlier.into_iter().map(since).chain([all.clone()]).collect()
}

/// Order 1,024, order 1,000 in a room of 1,024, and 1,025 with a slice to match.
pub fn largest_twins() -> Vec<Case> {
    let r = &mut Rng::new(1025);
    let (n, few) = (1024, 1000);
    let once = well_scaled(r, n);
    let last_is = |m: &Symmetric, n: usize, p: usize| {
        let source = |i: usize| if i + 1 == n { p } else { i };
        Symmetric::of(n, |i, j| m.get(source(i), source(j)))
    };
    let case = |m: &Symmetric| Case { x: n, ..Case::new(Call::FirstTwin, m.n, m.placed(n, true, fill)) };
    let since = |y: usize, case: &Case| Case { call: Call::FirstTwinSince, y, ..case.clone() };
    let twin = last_is(&once, n, 0);
    let near = twin.with(n - 1, 700, -twin.get(n - 1, 700));
    let alike = Symmetric::of(n, |_, _| 1.0);
    // no rows are twins, and all nearly are
    let all_near = Symmetric::of(n, |i, j| if i ^ 1 == j { 2.0 } else { 1.0 });
    let m = n + 1;
    vec![
        case(&once),
        case(&twin),
        since(n - 1, &case(&twin)),
        since(n, &case(&twin)),
        case(&near),
        since(900, &case(&alike)),
        case(&all_near),
        since(900, &case(&all_near)),
        case(&last_is(&once, few, few - 2)),
        since(few - 1, &case(&last_is(&once, few, 0))),
        Case { x: m, ..Case::new(Call::FirstTwin, n, filled(m * m)) },
        Case { x: m, y: m, ..Case::new(Call::FirstTwinSince, m, filled(m * m)) },
    ]
}
