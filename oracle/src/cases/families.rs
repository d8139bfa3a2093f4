//! A family: one matrix by chance and the calls that follow from it.

use super::filled;
use super::matrices::{FOR_CHOLESKY, FOR_LBLT, FOR_UDU, Symmetric, alpha_edge, fill, numbers, symmetric};
use super::rng::Rng;
use crate::call::{Call, Calls, Case, record_length};
use crate::text::Text;

/// A matrix of order n in its room, to be factored in batches that end at the cuts.
pub struct Chain {
    pub a: Vec<f64>,
    pub n: usize,
    pub room: usize,
    pub cuts: Vec<usize>,
}

pub struct Family {
    pub cases: Vec<Case>,
    pub chains: Vec<Chain>,
}

pub fn family(seed: u64) -> Family {
    let r = &mut Rng::new(seed);
    let n = order(r);
    match r.below(9) {
        0..4 => Family { cases: lblt(r, &mut Rng::new(!seed), n), chains: vec![] },
        4..7 => cholesky(r, n),
        _ => Family { cases: vec![udu(r, n.max(1))], chains: vec![] },
    }
}

pub(super) fn order(r: &mut Rng) -> usize {
    match r.below(100) {
        0..72 => r.below(9),
        72..93 => 9 + r.below(12),
        93..98 => 33,
        98 => r.pick(&[60, 64]),
        _ => r.pick(&[60, 64, 100, 130]),
    }
}

/// What stands where no call may read: mostly a number of its own for each place, now and then NaN.
pub(super) fn placed(r: &mut Rng, m: &Symmetric, room: usize, lower: bool) -> Vec<f64> {
    if r.one_in(8) { m.placed(room, lower, |_| f64::NAN) } else { m.placed(room, lower, fill) }
}

/// The number of a run or a bench: one of the ends, or any.
pub(super) fn a_number(r: &mut Rng) -> u32 {
    match r.below(4) {
        0 => 0,
        1 => u32::MAX,
        _ => r.word() as u32,
    }
}

/// Any number but this one; often one bit or one unit beside it.
pub(super) fn another_number(r: &mut Rng, number: u32) -> u32 {
    let bit = 1 << r.below(32);
    let any = a_number(r);
    let other = r.pick(&[number ^ bit, number.wrapping_add(1), number.wrapping_sub(1), any]);
    if other == number { !number } else { other }
}

/// `runs` is the source of the run numbers and of what is read by another one.
fn lblt(r: &mut Rng, runs: &mut Rng, n: usize) -> Vec<Case> {
    let m = symmetric(r, &FOR_LBLT, n);
    let a = placed(r, &m, n, true);
    let run = a_number(runs);
    let factor = Case { run, record: vec![0x5a5a_5a5a; record_length(n)], ..Case::new(Call::LbltFactor, n, a) };
    let mut own = factor.clone();
    Text.lblt_factor(&mut own.a, &mut own.record, n, run);
    let mut out = vec![factor];
    readers(r, &own, &mut out);
    if n <= 20 && r.one_in(4) {
        let other = Case { record: sound_record(r, n, run), a: numbers(r, n * n), ..own.clone() };
        readers(r, &other, &mut out);
    }
    if n <= 20 && r.one_in(4) {
        let broken = Case { record: changed_record(r, &own.record), ..own.clone() };
        readers(r, &broken, &mut out);
    }
    if n <= 20 && r.one_in(4) {
        let mismarked = Case { record: mismarked_record(r, n, run), a: numbers(r, n * n), ..own.clone() };
        readers(r, &mismarked, &mut out);
    }
    if n <= 20 && runs.one_in(4) {
        let records = [sound_record(runs, n, run), changed_record(runs, &own.record), mismarked_record(runs, n, run), own.record.clone()];
        for record in records {
            let other = Case { run: another_number(runs, run), record, ..own.clone() };
            readers(runs, &other, &mut out);
        }
    }
    out
}

/// A factor of order 2 to 4 that meets a comparison with α at equality, or one unit beside it.
pub fn alpha_case(seed: u64) -> Case {
    let r = &mut Rng::new(seed);
    let n = 2 + r.below(3);
    let a = alpha_edge(r, n).placed(n, true, fill);
    Case { run: n as u32, record: vec![9; record_length(n)], ..Case::new(Call::LbltFactor, n, a) }
}

fn readers(r: &mut Rng, own: &Case, out: &mut Vec<Case>) {
    let n = own.n;
    let columns = r.pick(&[0, 1, 1, 1, 2, 3, 5]);
    let b = numbers(r, n * columns);
    let reader = |call| Case { call, b: filled(n * n), ..own.clone() };
    out.push(Case { x: columns, b, ..reader(Call::LbltSolve) });
    out.push(Case { b: vec![], ..reader(Call::LbltDeterminant) });
    out.push(reader(Call::LbltD));
    out.push(reader(Call::LbltLPermuted));
}

/// Solves of many columns, by the factor's own record and by any other that keeps the rule, with numbers of all kinds.
pub fn many_columns() -> Vec<Case> {
    let r = &mut Rng::new(64);
    let mut out = vec![];
    for n in (1..=20).chain([33, 60, 128]) {
        for columns in [4, 5, 6, 7, 8, 9, 64, 67] {
            let run = columns as u32;
            let mut own = Case { run, record: vec![9; record_length(n)], ..Case::new(Call::LbltFactor, n, heavy_or_not(r, n, 0.0)) };
            Text.lblt_factor(&mut own.a, &mut own.record, n, run);
            let mut other = Case { record: sound_record(r, n, run), a: numbers(r, n * n), ..own.clone() };
            other.record[2 * n] = 0;
            for factor in [own, other] {
                let b = (0..n * columns).map(|_| r.unit()).collect();
                out.push(Case { call: Call::LbltSolve, x: columns, b, ..factor.clone() });
                out.push(Case { call: Call::LbltSolve, x: columns, b: numbers(r, n * columns), ..factor });
            }
        }
    }
    out
}

/// The pairs of a record that keep the rule, whatever the factor would have written.
fn sound_pairs(r: &mut Rng, n: usize) -> Vec<u32> {
    let mut out = vec![];
    let mut k = 0;
    while k < n {
        let size = if k + 1 < n && r.one_in(2) { 2 } else { 1 };
        let last = k + size - 1;
        let index = if r.one_in(2) { last } else { last + r.below(n - last) };
        for _ in 0..size {
            out.extend([index as u32, size as u32]);
        }
        k += size;
    }
    out
}

/// The marks that name a row of size 1: where its index is that row, and where it is another.
fn marks_on_ones(pairs: &[u32]) -> (Vec<u32>, Vec<u32>) {
    let ones = (0..pairs.len() as u32 / 2).filter(|&k| pairs[2 * k as usize + 1] == 1);
    ones.map(|k| k + 1).partition(|&mark| pairs[2 * mark as usize - 2] == mark - 1)
}

/// A record that keeps the rule.
pub(super) fn sound_record(r: &mut Rng, n: usize, run: u32) -> Vec<u32> {
    let mut out = sound_pairs(r, n);
    let (own, _) = marks_on_ones(&out);
    out.extend([if !own.is_empty() && r.one_in(4) { r.pick(&own) } else { 0 }, run]);
    out
}

/// A record whose pairs keep the rule and whose mark names a row of size 1 with another index, or no row where there is none.
pub(super) fn mismarked_record(r: &mut Rng, n: usize, run: u32) -> Vec<u32> {
    let mut out = sound_pairs(r, n);
    let (_, others) = marks_on_ones(&out);
    out.extend([if others.is_empty() { n as u32 + 1 } else { r.pick(&others) }, run]);
    out
}

/// One word of a record changed.
pub(super) fn changed_record(r: &mut Rng, record: &[u32]) -> Vec<u32> {
    let mut out = record.to_vec();
    let at = r.below(out.len());
    let n = (out.len() / 2) as u32 - 1;
    let other = r.below(out.len());
    out[at] = r.pick(&[0, 1, 2, 3, n.saturating_sub(1), n, n + 1, u32::MAX, record[other]]);
    out
}

fn cholesky(r: &mut Rng, n: usize) -> Family {
    let m = symmetric(r, &FOR_CHOLESKY, n);
    let room = n + r.pick(&[0, 0, 1, 3]);
    let a = placed(r, &m, room, true);
    let factor = Case { x: room, ..Case::new(Call::CholeskyFactor, n, a.clone()) };
    let mut own = factor.clone();
    Text.cholesky_factor(&mut own.a, room, n);
    let mut out = vec![factor.clone()];
    let cuts: Vec<Vec<usize>> = if n <= 8 { (0..=n).map(|m| vec![m, n]).collect() } else { (0..2).map(|_| some_cuts(r, n)).collect() };
    for cuts in &cuts {
        batches(&factor, cuts, &mut out);
    }
    // earlier rows that are no factor of anything
    out.push(Case { call: Call::CholeskyExtend, y: r.below(n + 1), ..factor });
    if r.one_in(4) {
        let y = r.below(n + 1);
        out.push(Case { x: room, y, ..Case::new(Call::CholeskyExtend, n, numbers(r, room * room)) });
    }
    let reader = |call| Case { call, ..own.clone() };
    out.push(Case { b: filled(n * n), ..reader(Call::CholeskyL) });
    out.push(reader(Call::CholeskyUnpack));
    out.push(reader(Call::CholeskyDeterminant));
    let chains = cuts.into_iter().map(|cuts| Chain { a: a.clone(), n, room, cuts }).collect();
    Family { cases: out, chains }
}

/// Rising, ending at n, with batches of no rows now and then.
pub(super) fn some_cuts(r: &mut Rng, n: usize) -> Vec<usize> {
    let mut cuts: Vec<usize> = (0..r.below(4) + 1).map(|_| r.below(n + 1)).collect();
    cuts.push(n);
    cuts.sort_unstable();
    cuts
}

/// The further batches of one chain, each on what the one before it leaves; a refusal ends it.
fn batches(factor: &Case, cuts: &[usize], out: &mut Vec<Case>) {
    let mut buffer = factor.a.clone();
    let mut earlier = 0;
    for &cut in cuts {
        out.push(Case { call: Call::CholeskyExtend, n: cut, y: earlier, a: buffer.clone(), ..factor.clone() });
        if Text.cholesky_extend(&mut buffer, factor.x, earlier, cut) != 0 {
            return;
        }
        earlier = cut;
    }
}

fn udu(r: &mut Rng, n: usize) -> Case {
    let m = symmetric(r, &FOR_UDU, n);
    let p = placed(r, &m, n, false);
    Case { b: filled(n * n), c: filled(n), ..Case::new(Call::UduFactor, n, p) }
}

/// Order 1,024 for every call, and 1,025 with slices to match.
pub fn largest() -> Vec<Case> {
    let r = &mut Rng::new(1024);
    let n = 1024;
    let a = heavy_or_not(r, n, 0.0);
    let factor = Case { run: 1, record: vec![9; record_length(n)], ..Case::new(Call::LbltFactor, n, a) };
    let mut own = factor.clone();
    Text.lblt_factor(&mut own.a, &mut own.record, n, 1);
    let reader = |call| Case { call, b: filled(n * n), ..own.clone() };
    let definite = heavy_or_not(r, n, n as f64);
    let root = Case { x: n, ..Case::new(Call::CholeskyFactor, n, definite.clone()) };
    let mut out = vec![
        factor,
        Case { x: 3, b: numbers(r, 3 * n), ..reader(Call::LbltSolve) },
        Case { b: vec![], ..reader(Call::LbltDeterminant) },
        reader(Call::LbltD),
        reader(Call::LbltLPermuted),
        Case { run: 2, x: 3, b: numbers(r, 3 * n), ..reader(Call::LbltSolve) },
        Case { run: 2, b: vec![], ..reader(Call::LbltDeterminant) },
        Case { run: 2, ..reader(Call::LbltD) },
        Case { run: 2, ..reader(Call::LbltLPermuted) },
        root.clone(),
        Case { call: Call::CholeskyUnpack, ..root.clone() },
        Case { call: Call::CholeskyDeterminant, ..root.clone() },
        Case { call: Call::CholeskyL, b: filled(n * n), ..root.clone() },
        Case { b: filled(n * n), c: filled(n), ..Case::new(Call::UduFactor, n, definite) },
    ];
    batches(&root, &[341, 1000, n], &mut out);
    let m = n + 1;
    out.push(Case { record: vec![9; record_length(m)], ..Case::new(Call::LbltFactor, m, filled(m * m)) });
    out.push(Case { x: m, ..Case::new(Call::CholeskyFactor, m, filled(m * m)) });
    out.push(Case { b: filled(m * m), c: filled(m), ..Case::new(Call::UduFactor, m, filled(m * m)) });
    out
}

fn heavy_or_not(r: &mut Rng, n: usize, on_diagonal: f64) -> Vec<f64> {
    let mut a: Vec<f64> = (0..n * n).map(|_| r.unit()).collect();
    for i in 0..n {
        a[i + i * n] += on_diagonal;
    }
    a
}
