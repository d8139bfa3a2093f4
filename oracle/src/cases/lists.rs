//! LAPACK's pivot lists: lists to be read, records to be written as lists.

use super::families::{a_number, changed_record, mismarked_record, order, placed, sound_record};
use super::fixed::pairs_from;
use super::matrices::{FOR_LBLT, symmetric};
use super::rng::Rng;
use crate::back::{reader, writer};
use crate::call::{Calls, Case, record_length};
use crate::text::Text;

/// A sound record, the list that stands for it, and both with something changed.
pub fn lists(seed: u64) -> Vec<Case> {
    // not the numbers that the family, the twin rows, the solves and the benches of this seed get
    let r = &mut Rng::new(seed ^ 1 << 61);
    let n = if r.one_in(300) { 1024 } else { order(r).min(64) };
    let run = if r.one_in(4) { 1 } else { a_number(r) };
    let record = if n <= 64 && r.one_in(2) { factored(r, n, run) } else { sound_record(r, n, run) };
    let list = listed(&record, n);
    let mut out = vec![writer(n, record.clone()), list.clone()];
    for _ in 0..3 {
        out.push(damaged(r, &list));
    }
    out.push(any(r, n, run));
    out.push(writer(n, changed_record(r, &record)));
    out.push(writer(n, mismarked_record(r, n, run)));
    if r.one_in(8) {
        out.push(of_another_length(r, &list));
        out.push(of_another_length(r, &writer(n, record)));
    }
    out
}

/// The record of a matrix that the text factors.
fn factored(r: &mut Rng, n: usize, run: u32) -> Vec<u32> {
    let m = symmetric(r, &FOR_LBLT, n);
    let mut record = vec![9; record_length(n)];
    Text.lblt_factor(&mut placed(r, &m, n, true), &mut record, n, run);
    record
}

/// The reader of the list that stands for a sound record.
fn listed(record: &[u32], n: usize) -> Case {
    let mut list = vec![0; n];
    let (_, info, run) = Text.pivots_to_lapack(record, &mut list, n);
    reader(n, list, info, run)
}

/// One or two numbers changed.
fn damaged(r: &mut Rng, sound: &Case) -> Case {
    let mut case = sound.clone();
    for _ in 0..1 + r.below(2) {
        if case.n == 0 || r.one_in(4) {
            case.info = another_info(r, &case);
        } else {
            damage(r, &mut case.list);
        }
    }
    case
}

fn damage(r: &mut Rng, list: &mut [i32]) {
    let n = list.len() as i32;
    let (at, other) = (r.below(list.len()), r.below(list.len()));
    let (number, row) = (list[at], at as i32 + 1);
    match r.below(8) {
        0 => list.swap(at, other),
        1 => list[at] = list[other],
        2 => list[at] = number.wrapping_neg(),
        3 => list[at] = r.pick(&[number.wrapping_add(1), number.wrapping_sub(1)]),
        4 => list[at] = r.pick(&[0, i32::MIN, i32::MAX, n + 1, -n - 1, -n, n]),
        5 => list[at] = r.pick(&[row, -row, row - 1, -row - 1]),
        // a block of size 2, or of two sizes 1 as far down
        6 => {
            let p = row + r.between(0, (n - row).into()) as i32;
            let sign = r.pick(&[1, -1]);
            list.iter_mut().skip(at).take(2).for_each(|number| *number = sign * p);
        }
        _ => list[at] = number ^ 1 << r.below(32),
    }
}

/// Of the rows that may be named, of the others, and beside them.
fn another_info(r: &mut Rng, case: &Case) -> i32 {
    let n = case.n as i32;
    let row = r.between(0, n.into()) as i32;
    let named: Vec<i32> = (1..=n).filter(|&row| case.list[row as usize - 1] == row).collect();
    match r.below(4) {
        0 if !named.is_empty() => r.pick(&named),
        0 | 1 => row,
        2 => r.pick(&[-1, -row, n + 1, i32::MIN, i32::MAX]),
        _ => case.info ^ 1 << r.below(32),
    }
}

/// Numbers that are rows, mostly further down, with any sign.
fn any(r: &mut Rng, n: usize, run: u32) -> Case {
    let twice = r.one_in(2);
    let mut list: Vec<i32> = vec![];
    for row in 1..=n as i64 {
        let p = if r.one_in(8) { r.between(0, n as i64 + 1) } else { r.between(row, n as i64) } as i32;
        match list.last() {
            Some(&before) if twice && before < 0 && r.one_in(2) => list.push(before),
            _ => list.push(p * r.pick(&[1, 1, -1])),
        }
    }
    let info = r.pick(&[0, 0, 0, 1, n as i32]);
    reader(n, list, info, run)
}

/// The list, the record or the order is another one's.
fn of_another_length(r: &mut Rng, case: &Case) -> Case {
    let mut case = case.clone();
    let by = r.pick(&[-2, -1, 1, 2]);
    for _ in 0..1 + r.below(2) {
        match r.below(3) {
            0 => case.list.resize(case.list.len().saturating_add_signed(by), 1),
            1 => case.record.resize(case.record.len().saturating_add_signed(by), 1),
            _ => case.n = case.n.saturating_add_signed(by),
        }
    }
    case
}

/// Run numbers of the cases that need no chance, in turn.
const RUNS: [u32; 4] = [0, 1, u32::MAX, 20_261_117];

/// All lists of an order over some numbers.
pub fn lists_over(n: usize, numbers: &[i32]) -> impl Iterator<Item = Vec<i32>> {
    let of = numbers.len();
    (0..of.pow(n as u32)).map(move |t| (0..n).map(|at| numbers[t / of.pow(at as u32) % of]).collect())
}

/// All lists of orders 0 to 3 over the numbers from −4 to 4 and the ends, with INFO from −1 to one above the order and at the ends.
pub fn short_lists() -> Vec<Case> {
    let numbers = [i32::MIN, -4, -3, -2, -1, 0, 1, 2, 3, 4, i32::MAX];
    let mut out = vec![];
    for n in 0..=3 {
        for list in lists_over(n, &numbers) {
            let infos = [i32::MIN, i32::MAX].into_iter().chain(-1..=n as i32 + 1);
            out.extend(infos.zip(RUNS.into_iter().cycle()).map(|(info, run)| reader(n, list.clone(), info, run)));
        }
    }
    out
}

/// All lists of orders 0 to 5 that are sound beside INFO 0, with INFO up to one above the order.
pub fn sound_lists() -> Vec<Case> {
    let mut out = vec![];
    for n in 0..=5usize {
        for (at, pairs) in pairs_from(0, n).into_iter().enumerate() {
            let list = listed(&[&pairs[..], &[0, RUNS[at % 4]]].concat(), n);
            out.extend((0..=n as i32 + 1).map(|info| Case { info, ..list.clone() }));
        }
    }
    out
}

/// The sound lists of orders 3 and 4 with each bit of each number, and of INFO, changed.
pub fn lists_but_one_bit() -> Vec<Case> {
    let mut out = vec![];
    for sound in sound_lists().iter().filter(|case| matches!(case.n, 3 | 4) && case.info == 0) {
        for bit in 0..32 {
            out.push(Case { info: 1 << bit, ..sound.clone() });
            for at in 0..sound.n {
                let mut changed = sound.clone();
                changed.list[at] ^= 1 << bit;
                out.push(changed);
            }
        }
    }
    out
}

/// All records of orders 0 to 2 over a few words, and all of orders 3 and 4 whose pairs keep the rule, with every mark up to one above the order.
pub fn short_records() -> Vec<Case> {
    let words = [0, 1, 2, 3, u32::MAX];
    let mut out = vec![];
    for n in 0..=2usize {
        let free = record_length(n) - 1;
        for t in 0..words.len().pow(free as u32) {
            let word = |at: usize| words[t / words.len().pow(at as u32) % words.len()];
            out.push(writer(n, (0..free).map(word).chain([RUNS[t % 4]]).collect()));
        }
    }
    for n in 3..=4usize {
        for (at, pairs) in pairs_from(0, n).into_iter().enumerate() {
            out.extend((0..n as u32 + 2).map(|mark| writer(n, [&pairs[..], &[mark, RUNS[at % 4]]].concat())));
        }
    }
    out
}

/// Order 1,024, with what is changed at its first and last rows, and orders above it with slices to match.
pub fn largest_lists() -> Vec<Case> {
    let r = &mut Rng::new(1028);
    let n = 1024;
    let pairs = |pair: fn(u32) -> [u32; 2]| (0..n as u32).flat_map(pair).collect::<Vec<_>>();
    let [alone, down, twos, far] = [pairs(|k| [k, 1]), pairs(|_| [1023, 1]), pairs(|k| [k | 1, 2]), pairs(|_| [1023, 2])];
    let mut records = vec![sound_record(r, n, 0), sound_record(r, n, u32::MAX)];
    for (pairs, mark) in [(&alone, 0), (&alone, 1024), (&down, 1024), (&twos, 0), (&far, 0)] {
        records.push([&pairs[..], &[mark, 1]].concat());
    }
    let mut out = vec![];
    for record in records {
        let list = listed(&record, n);
        for (at, number) in [(0, 0), (1023, 0), (1023, 1023), (1022, -1024), (1023, -1024), (1023, 1025), (511, 512), (1023, i32::MIN)] {
            let mut changed = list.clone();
            changed.list[at] = number;
            out.push(changed);
        }
        for info in [1, 1023, 1024, 1025, -1, i32::MIN] {
            out.push(Case { info, ..list.clone() });
        }
        for (at, word) in [(0, 1024), (2046, 1024), (2047, 2), (2047, 1), (2048, 1024), (2048, 1025), (2048, 1)] {
            let mut changed = writer(n, record.clone());
            changed.record[at] = word;
            out.push(changed);
        }
        out.extend([list, writer(n, record)]);
    }
    for n in [1025, 1 << 32, 1 << 63, usize::MAX] {
        for long in [0, n.min(1025)] {
            let record = (0..long as u32).flat_map(|k| [k, 1]).chain([0, 1]).collect();
            out.push(Case { n, ..reader(long, (1..=long as i32).collect(), 0, 1) });
            out.push(Case { n, ..writer(long, record) });
        }
    }
    out
}
