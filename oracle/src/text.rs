//! The calls, answered by the text.
//!
//! The text itself answers `LBLT::new`, `solve_mut`, `determinant`, `d`, `l_permuted`, `Cholesky::new`, `new_with_substitute`, `l`, `unpack`,
//! `determinant` and `UDU::new`. What follows document 01 because the text says nothing of it is marked "document 01": the checks before a call, the
//! room, the further batch, and what stays in the buffers after a refusal. Marked "document 02" are the codes of a diagonal that is turned down, the
//! floor of a further batch and how many columns used it, the orders of the teaching call and the rows that it reaches, the row that a mark may name, the
//! run number, which columns are a bench's, a tray's sizes and its items' answers (each item has a factor and a solve of the text's own), LAPACK's lists:
//! each number of a list is a pair of a record, and the record's rule is the list's; and packed triangles: they are unpacked, answered in the full layout
//! and packed again. The text has no call for rows that came twice, and its Cholesky solve rests on triangular solves that it does not contain: the steps
//! answer these calls here too, in the full layout. The handheld's calls are the text's own at order 3; the rule of its pivots is document 01's with document
//! 02's of a mark.

use crate::call::{Calls, Matrix3, Pivots3, mark, pairs, record_length, three_columns};
use crate::linalg::cholesky::Cholesky;
use crate::linalg::lblt::{LBLT, parts};
use crate::linalg::udu::UDU;
use crate::packed::{pack, packed_length, unpack};
use crate::paper::Paper;
use crate::tail::trailing;
use crate::{Dyn, OMatrix};

pub struct Text;

pub type Square = OMatrix<f64, Dyn, Dyn>;

pub fn square(n: usize, data: Vec<f64>) -> Square {
    OMatrix::from_vec(Dyn(n), Dyn(n), data)
}

const DONE: u64 = 0;
const MOST: usize = 1024;

fn refusal(code: u64, place: usize) -> u64 {
    code * 4096 + place as u64
}

/// Document 01: the checks before a call, in the order of the table.
mod checks {
    use super::{MOST, packed_length, record_length, refusal};

    pub fn counts(counts: &[usize]) -> Option<u64> {
        counts.iter().any(|&c| c > MOST).then(|| refusal(1, 0))
    }

    pub fn orders(room: usize, earlier: usize, n: usize) -> Option<u64> {
        (n > room || earlier > n).then(|| refusal(2, 0))
    }

    pub fn first(len: usize, wanted: usize) -> Option<u64> {
        (len != wanted).then(|| refusal(3, 0))
    }

    pub fn another(len: usize, wanted: usize) -> Option<u64> {
        (len != wanted).then(|| refusal(4, 0))
    }

    /// Its rule, then its run number.
    pub fn record(record: &[u32], n: usize, run: u32) -> Option<u64> {
        rule(record, n).or_else(|| of_run(record, n, run))
    }

    /// Document 02.
    fn of_run(record: &[u32], n: usize, run: u32) -> Option<u64> {
        (record[2 * n + 1] != run).then(|| refusal(13, 0))
    }

    pub fn rule(record: &[u32], n: usize) -> Option<u64> {
        broken(record, n).map(|place| refusal(5, place))
    }

    /// Document 02: the record that a list stands for keeps the rule.
    pub fn listed(record: &[u32], n: usize) -> Option<u64> {
        broken(record, n).map(|place| refusal(12, place))
    }

    /// The place at which the rule is broken.
    fn broken(record: &[u32], n: usize) -> Option<usize> {
        let pair = |k: usize| (record[2 * k] as usize, record[2 * k + 1]);
        let mut may_be_marked = vec![false; n];
        let mut k = 0;
        while k < n {
            let (index, size) = pair(k);
            let sound = match size {
                1 => (k..n).contains(&index),
                2 => k + 1 < n && (k + 1..n).contains(&index) && pair(k + 1) == pair(k),
                _ => false,
            };
            if !sound {
                return Some(k);
            }
            // document 02: a mark names a row of size 1 whose index is that row
            may_be_marked[k] = pair(k) == (k, 1);
            k += size as usize;
        }
        let mark = record[2 * n] as usize;
        let sound = mark == 0 || may_be_marked.get(mark - 1) == Some(&true);
        (!sound).then_some(n)
    }

    /// The record's length by document 02.
    pub fn factored(a: &[f64], words: &[u32], n: usize) -> Option<u64> {
        counts(&[n]).or_else(|| first(a.len(), n * n)).or_else(|| another(words.len(), record_length(n)))
    }

    /// Document 02.
    pub fn packed(a: &[f64], n: usize) -> Option<u64> {
        counts(&[n]).or_else(|| first(a.len(), packed_length(n)))
    }

    pub fn in_room(a: &[f64], room: usize, earlier: usize, n: usize) -> Option<u64> {
        counts(&[room, earlier, n]).or_else(|| orders(room, earlier, n)).or_else(|| first(a.len(), room * room))
    }
}

/// The text's factor, from a sound record and the matrix beside it.
pub fn lblt_of(a: &[f64], record: &[u32], n: usize) -> LBLT<f64, Dyn> {
    let pairs = (0..n).map(|k| (record[2 * k] as usize, record[2 * k + 1] as usize)).collect();
    let mark = (record[2 * n] as usize).checked_sub(1);
    parts::together((square(n, a.to_vec()), OMatrix::from_vec(Dyn(n), crate::U1, pairs), mark))
}

/// The text's factor goes into a matrix and a record of its order. The row that it marks.
fn lend_back(factor: LBLT<f64, Dyn>, a: &mut [f64], record: &mut [u32], run: u32) -> Option<usize> {
    let (matrix, pivots, zero_pivot) = parts::apart(factor);
    a.copy_from_slice(matrix.as_slice());
    let pivots = pivots.as_slice();
    for (k, &(index, size)) in pivots.iter().enumerate() {
        record[2 * k] = index as u32;
        record[2 * k + 1] = size as u32;
    }
    record[2 * pivots.len()] = zero_pivot.map_or(0, |k| k as u32 + 1);
    record[2 * pivots.len() + 1] = run; // document 02
    zero_pivot
}

/// Document 01: the first n rows and columns of a room.
fn leading(a: &[f64], room: usize, n: usize) -> Square {
    let mut out = Vec::with_capacity(n * n);
    for j in 0..n {
        out.extend_from_slice(&a[j * room..j * room + n]);
    }
    square(n, out)
}

fn put_leading(a: &mut [f64], room: usize, n: usize, block: &[f64]) {
    for j in 0..n {
        a[j * room..j * room + n].copy_from_slice(&block[j * n..(j + 1) * n]);
    }
}

/// Document 01: entry (i, j) of the room after the columns before `j`, which are finished.
fn updated(a: &[f64], room: usize, i: usize, j: usize) -> f64 {
    (0..j).fold(a[i + j * room], |x, k| x + -a[j + k * room] * a[i + k * room])
}

/// Document 02: the code of a diagonal that is turned down.
fn turned_down(diagonal: f64) -> Option<u64> {
    if diagonal.is_nan() {
        Some(11)
    } else if diagonal < 0.0 {
        Some(10)
    } else if diagonal == 0.0 {
        Some(7)
    } else {
        None
    }
}

/// The text's factor, with a floor by its substitute.
fn cholesky_by_text(matrix: Square, floor: Option<f64>) -> Option<Cholesky<f64, Dyn>> {
    match floor {
        None => Cholesky::new(matrix),
        Some(floor) => Cholesky::new_with_substitute(matrix, floor),
    }
}

fn cholesky_factor(a: &mut [f64], room: usize, n: usize, floor: Option<f64>) -> u64 {
    if let Some(refused) = checks::in_room(a, room, 0, n) {
        return refused;
    }
    match cholesky_by_text(leading(a, room, n), floor) {
        Some(factor) => {
            put_leading(a, room, n, factor.l_dirty().as_slice());
            DONE
        }
        None => refused_cholesky(a, room, n, floor),
    }
}

/// What the text leaves behind when it answers `None`: the columns before the refused one are those of `new_unchecked`, which refuses nothing.
/// Document 01: the refused column is updated and undivided, later ones untouched.
fn refused_cholesky(a: &mut [f64], room: usize, n: usize, floor: Option<f64>) -> u64 {
    let given = leading(a, room, n);
    let finished = Cholesky::new_unchecked(given.clone()).unpack_dirty();
    for j in 0..n {
        let diagonal = updated(a, room, j, j);
        if let Some(code) = turned_down(diagonal) {
            assert!(cholesky_by_text(leading_of(&given, n, j), floor).is_some(), "the text refuses before {j}");
            assert!(cholesky_by_text(leading_of(&given, n, j + 1), floor).is_none(), "the text goes beyond {j}");
            for i in j..n {
                a[i + j * room] = updated(a, room, i, j);
            }
            return refusal(code, j);
        }
        for i in j..n {
            a[i + j * room] = finished[(i, j)];
        }
    }
    panic!("the text refuses a matrix that document 01 accepts")
}

/// Document 01: the first `earlier` rows are taken as factored, the work is on the rows from there on, in the text's order for each entry.
/// Document 02: the floor as in the text.
fn cholesky_extend(a: &mut [f64], room: usize, earlier: usize, n: usize, floor: Option<f64>) -> u64 {
    if let Some(refused) = checks::in_room(a, room, earlier, n) {
        return refused;
    }
    let root = |x: f64| turned_down(x).is_none().then(|| x.sqrt());
    for j in 0..n {
        for i in j.max(earlier)..n {
            a[i + j * room] = updated(a, room, i, j);
        }
        if j >= earlier {
            let diagonal = a[j + j * room];
            match root(diagonal).or_else(|| floor.and_then(root)) {
                Some(denom) => a[j + j * room] = denom,
                None => return refusal(turned_down(diagonal).expect("a diagonal without a root"), j),
            }
        }
        for i in earlier.max(j + 1)..n {
            a[i + j * room] /= a[j + j * room];
        }
    }
    DONE
}

/// Document 02: the answer and, of the columns from `earlier` on that the call finished, the number of those whose updated diagonal fails. It is worked
/// out after the call, from the diagonals as they were given and the finished rows.
fn with_count(a: &mut [f64], room: usize, earlier: usize, n: usize, call: impl FnOnce(&mut [f64]) -> u64) -> (u64, u64) {
    let given = a.to_vec();
    let answer = call(a);
    let finished = match answer / 4096 {
        0 => earlier..n,
        7 | 10 | 11 => earlier..(answer % 4096) as usize,
        _ => 0..0,
    };
    let mut open = a.to_vec();
    let fails = |j: usize| {
        open[j + j * room] = given[j + j * room];
        turned_down(updated(&open, room, j, j)).is_some()
    };
    (answer, finished.map(fails).filter(|&fails| fails).count() as u64)
}

/// Document 02: the text's factor of as many of the first rows as it accepts. In the row after them, which it refuses, the entries before the diagonal are
/// those of `new_unchecked`, which refuses nothing, and the diagonal is updated.
fn cholesky_by_rows(a: &mut [f64], room: usize, n: usize) -> u64 {
    let given = a.to_vec();
    let accepted = |rows: usize| Some((rows, Cholesky::new(leading(&given, room, rows))?));
    let (rows, factor) = (0..=n).rev().find_map(accepted).expect("the text accepts no rows");
    put_leading(a, room, rows, factor.l_dirty().as_slice());
    if rows == n {
        return DONE;
    }
    let unchecked = Cholesky::new_unchecked(leading(&given, room, rows + 1)).unpack_dirty();
    for k in 0..rows {
        a[rows + k * room] = unchecked[(rows, k)];
    }
    let diagonal = updated(a, room, rows, rows);
    a[rows + rows * room] = diagonal;
    refusal(turned_down(diagonal).expect("the text refuses a diagonal that document 02 accepts"), rows)
}

fn leading_of(whole: &Square, n: usize, m: usize) -> Square {
    leading(whole.as_slice(), n, m)
}

impl Calls for Text {
    fn lblt_factor(&self, a: &mut [f64], record: &mut [u32], n: usize, run: u32) -> u64 {
        if let Some(refused) = checks::factored(a, record, n) {
            return refused;
        }
        lend_back(LBLT::new(square(n, a.to_vec())), a, record, run);
        DONE
    }

    fn lblt_solve(&self, a: &[f64], record: &[u32], b: &mut [f64], n: usize, columns: usize, run: u32) -> u64 {
        let refused = checks::counts(&[n, columns])
            .or_else(|| checks::factored(a, record, n))
            .or_else(|| checks::another(b.len(), n * columns))
            .or_else(|| checks::record(record, n, run));
        if let Some(refused) = refused {
            return refused;
        }
        let mut sides = OMatrix::from_vec(Dyn(n), Dyn(columns), b.to_vec());
        let solved = lblt_of(a, record, n).solve_mut(&mut sides);
        b.copy_from_slice(sides.as_slice());
        if solved { DONE } else { refusal(6, record[2 * n] as usize - 1) }
    }

    /// Document 02: the text solves the matrix of the bench's own columns, and they go back to where they stood.
    fn lblt_solve_bench(
        &self,
        a: &[f64],
        record: &[u32],
        b: &mut [f64],
        benches: &[u32],
        n: usize,
        columns: usize,
        bench: u32,
        run: u32,
    ) -> u64 {
        let refused = checks::counts(&[n, columns])
            .or_else(|| checks::factored(a, record, n))
            .or_else(|| checks::another(b.len(), n * columns))
            .or_else(|| checks::another(benches.len(), columns))
            .or_else(|| checks::record(record, n, run));
        if let Some(refused) = refused {
            return refused;
        }
        let own: Vec<usize> = benches.iter().enumerate().filter(|&(_, &of)| of == bench).map(|(j, _)| j).collect();
        let gathered = own.iter().flat_map(|&j| &b[j * n..(j + 1) * n]).copied().collect();
        let mut sides = OMatrix::from_vec(Dyn(n), Dyn(own.len()), gathered);
        let solved = lblt_of(a, record, n).solve_mut(&mut sides);
        for (at, j) in own.into_iter().enumerate() {
            b[j * n..(j + 1) * n].copy_from_slice(&sides.as_slice()[at * n..(at + 1) * n]);
        }
        if solved { DONE } else { refusal(6, record[2 * n] as usize - 1) }
    }

    fn lblt_determinant(&self, a: &[f64], record: &[u32], n: usize, run: u32) -> (u64, f64) {
        match checks::factored(a, record, n).or_else(|| checks::record(record, n, run)) {
            Some(refused) => (refused, 0.0),
            None => (DONE, lblt_of(a, record, n).determinant()),
        }
    }

    fn lblt_d(&self, a: &[f64], record: &[u32], d: &mut [f64], n: usize, run: u32) -> u64 {
        let refused = checks::factored(a, record, n).or_else(|| checks::another(d.len(), n * n)).or_else(|| checks::record(record, n, run));
        if refused.is_none() {
            d.copy_from_slice(lblt_of(a, record, n).d().as_slice());
        }
        refused.unwrap_or(DONE)
    }

    fn lblt_l_permuted(&self, a: &[f64], record: &[u32], l: &mut [f64], n: usize, run: u32) -> u64 {
        let refused = checks::factored(a, record, n).or_else(|| checks::another(l.len(), n * n)).or_else(|| checks::record(record, n, run));
        if refused.is_none() {
            l.copy_from_slice(lblt_of(a, record, n).l_permuted().as_slice());
        }
        refused.unwrap_or(DONE)
    }

    /// Document 02: the text factors each item, and solves its side by what it has just made.
    fn lblt_tray(
        &self,
        a: &mut [f64],
        records: &mut [u32],
        b: &mut [f64],
        runs: &[u32],
        answers: &mut [u64],
        n: usize,
        count: usize,
    ) -> u64 {
        let refused = checks::counts(&[count])
            .or_else(|| (n > 64).then(|| refusal(1, 0)))
            .or_else(|| checks::first(a.len(), count * n * n))
            .or_else(|| checks::another(records.len(), count * record_length(n)))
            .or_else(|| checks::another(b.len(), count * n))
            .or_else(|| checks::another(runs.len(), count))
            .or_else(|| checks::another(answers.len(), count));
        if let Some(refused) = refused {
            return refused;
        }
        for item in 0..count {
            let numbers = &mut a[item * n * n..][..n * n];
            let side = &mut b[item * n..][..n];
            let factor = LBLT::new(square(n, numbers.to_vec()));
            let mut solution = OMatrix::from_vec(Dyn(n), Dyn(1), side.to_vec());
            let solved = factor.solve_mut(&mut solution);
            side.copy_from_slice(solution.as_slice());
            let record = &mut records[item * record_length(n)..][..record_length(n)];
            let mark = lend_back(factor, numbers, record, runs[item]);
            answers[item] = if solved { DONE } else { refusal(6, mark.expect("the text solves where there is none")) };
        }
        DONE
    }

    fn cholesky_factor(&self, a: &mut [f64], room: usize, n: usize) -> u64 {
        cholesky_factor(a, room, n, None)
    }

    fn cholesky_extend(&self, a: &mut [f64], room: usize, earlier: usize, n: usize) -> u64 {
        cholesky_extend(a, room, earlier, n, None)
    }

    fn cholesky_factor_floored(&self, a: &mut [f64], room: usize, n: usize, floor: f64) -> (u64, u64) {
        with_count(a, room, 0, n, |a| cholesky_factor(a, room, n, Some(floor)))
    }

    fn cholesky_extend_floored(&self, a: &mut [f64], room: usize, earlier: usize, n: usize, floor: f64) -> (u64, u64) {
        with_count(a, room, earlier, n, |a| cholesky_extend(a, room, earlier, n, Some(floor)))
    }

    fn cholesky_teaching(&self, a: &mut [f64], room: usize, n: usize) -> u64 {
        let above_its_most = (n > 64).then(|| refusal(1, 0));
        above_its_most.or_else(|| checks::in_room(a, room, 0, n)).unwrap_or_else(|| cholesky_by_rows(a, room, n))
    }

    fn cholesky_solve(&self, a: &[f64], b: &mut [f64], room: usize, n: usize, columns: usize) -> u64 {
        Paper.cholesky_solve(a, b, room, n, columns)
    }

    fn cholesky_l(&self, a: &[f64], l: &mut [f64], room: usize, n: usize) -> u64 {
        let refused = checks::in_room(a, room, 0, n).or_else(|| checks::another(l.len(), n * n));
        if refused.is_none() {
            l.copy_from_slice(Cholesky::pack_dirty(leading(a, room, n)).l().as_slice());
        }
        refused.unwrap_or(DONE)
    }

    fn cholesky_unpack(&self, a: &mut [f64], room: usize, n: usize) -> u64 {
        let refused = checks::in_room(a, room, 0, n);
        if refused.is_none() {
            let block = Cholesky::pack_dirty(leading(a, room, n)).unpack();
            put_leading(a, room, n, block.as_slice());
        }
        refused.unwrap_or(DONE)
    }

    fn cholesky_determinant(&self, a: &[f64], room: usize, n: usize) -> (u64, f64) {
        match checks::in_room(a, room, 0, n) {
            Some(refused) => (refused, 0.0),
            None => (DONE, Cholesky::pack_dirty(leading(a, room, n)).determinant()),
        }
    }

    fn udu_factor(&self, p: &[f64], u: &mut [f64], d: &mut [f64], n: usize) -> u64 {
        let refused = checks::counts(&[n])
            .or_else(|| (n == 0).then(|| refusal(1, 0)))
            .or_else(|| checks::first(p.len(), n * n))
            .or_else(|| checks::another(u.len(), n * n))
            .or_else(|| checks::another(d.len(), n));
        if let Some(refused) = refused {
            return refused;
        }
        match UDU::new(square(n, p.to_vec())) {
            Some(factor) => {
                u.copy_from_slice(factor.u.as_slice());
                d.copy_from_slice(factor.d.as_slice());
                DONE
            }
            None => refused_udu(p, u, d, n),
        }
    }

    fn first_twin_since(&self, a: &[f64], room: usize, earlier: usize, n: usize) -> u64 {
        Paper.first_twin_since(a, room, earlier, n)
    }

    fn first_twin(&self, a: &[f64], room: usize, n: usize) -> u64 {
        Paper.first_twin(a, room, n)
    }

    /// Document 02: a number that is no pair's, and an INFO that is no mark, become words that the rule turns down.
    fn pivots_from_lapack(&self, list: &[i32], info: i32, record: &mut [u32], n: usize, run: u32) -> u64 {
        let pair = |&number: &i32| match number {
            0 => [0, 0],
            1.. => [number as u32 - 1, 1],
            _ => [number.unsigned_abs() - 1, 2],
        };
        let meant = || [list.iter().flat_map(pair).collect(), vec![info as u32, run]].concat();
        let refused = checks::counts(&[n])
            .or_else(|| checks::another(list.len(), n))
            .or_else(|| checks::another(record.len(), record_length(n)))
            .or_else(|| checks::listed(&meant(), n));
        if refused.is_none() {
            record.copy_from_slice(&meant());
        }
        refused.unwrap_or(DONE)
    }

    /// Document 02: the pair of each row as a number.
    fn pivots_to_lapack(&self, record: &[u32], list: &mut [i32], n: usize) -> (u64, i32, u32) {
        let refused = checks::counts(&[n])
            .or_else(|| checks::another(record.len(), record_length(n)))
            .or_else(|| checks::another(list.len(), n))
            .or_else(|| checks::rule(record, n));
        if let Some(refused) = refused {
            return (refused, 0, 0);
        }
        let number = |pair: &[u32]| if pair[1] == 1 { pair[0] as i32 + 1 } else { -(pair[0] as i32 + 1) };
        list.copy_from_slice(&pairs(record).map(number).collect::<Vec<_>>());
        (DONE, mark(record) as i32, record[2 * n + 1])
    }

    fn packed_lblt_factor(&self, a: &mut [f64], record: &mut [u32], n: usize, run: u32) -> u64 {
        checks::packed(a, n).unwrap_or_else(|| {
            let mut whole = unpack(a, n);
            let answer = self.lblt_factor(&mut whole, record, n, run);
            a.copy_from_slice(&pack(&whole, n, n));
            answer
        })
    }

    fn packed_lblt_solve(&self, a: &[f64], record: &[u32], b: &mut [f64], n: usize, columns: usize, run: u32) -> u64 {
        let refused = checks::counts(&[columns]).or_else(|| checks::packed(a, n));
        refused.unwrap_or_else(|| self.lblt_solve(&unpack(a, n), record, b, n, columns, run))
    }

    fn packed_lblt_determinant(&self, a: &[f64], record: &[u32], n: usize, run: u32) -> (u64, f64) {
        match checks::packed(a, n) {
            Some(refused) => (refused, 0.0),
            None => self.lblt_determinant(&unpack(a, n), record, n, run),
        }
    }

    fn packed_cholesky_factor(&self, a: &mut [f64], n: usize) -> u64 {
        checks::packed(a, n).unwrap_or_else(|| {
            let mut whole = unpack(a, n);
            let answer = self.cholesky_factor(&mut whole, n, n);
            a.copy_from_slice(&pack(&whole, n, n));
            answer
        })
    }

    /// Document 02: the old factor and the new rows in one room, and there the further batch.
    fn packed_cholesky_extend(&self, old: &[f64], rows: &[f64], fresh: &mut [f64], earlier: usize, n: usize) -> u64 {
        let refused = checks::counts(&[earlier, n])
            .or_else(|| checks::orders(n, earlier, n))
            .or_else(|| checks::packed(old, earlier))
            .or_else(|| checks::another(rows.len(), packed_length(n) - packed_length(earlier)))
            .or_else(|| checks::another(fresh.len(), packed_length(n)));
        if let Some(refused) = refused {
            return refused;
        }
        let mut whole = vec![f64::NAN; n * n];
        put_leading(&mut whole, n, earlier, &unpack(old, earlier));
        let mut numbers = rows.iter();
        for i in earlier..n {
            for (j, &x) in numbers.by_ref().take(i + 1).enumerate() {
                whole[i + j * n] = x;
            }
        }
        let answer = self.cholesky_extend(&mut whole, n, earlier, n);
        fresh.copy_from_slice(&pack(&whole, n, n));
        answer
    }

    fn packed_cholesky_solve(&self, a: &[f64], b: &mut [f64], n: usize, columns: usize) -> u64 {
        let refused = checks::counts(&[columns]).or_else(|| checks::packed(a, n));
        refused.unwrap_or_else(|| self.cholesky_solve(&unpack(a, n), b, n, n, columns))
    }

    fn packed_first_twin(&self, a: &[f64], n: usize) -> u64 {
        checks::packed(a, n).unwrap_or_else(|| self.first_twin(&unpack(a, n), n, n))
    }

    fn handheld_factor(&self, matrix: Matrix3) -> (Matrix3, Pivots3) {
        let (factor, pivots, zero_pivot) = parts::apart(LBLT::new(square(3, matrix.as_flattened().to_vec())));
        let pivots = pivots.as_slice();
        let index = [0, 1, 2].map(|k| pivots[k].0 as u32);
        let size = [0, 1, 2].map(|k| pivots[k].1 as u32);
        (three_columns(factor.as_slice()), Pivots3 { index, size, mark: zero_pivot.map_or(0, |k| k as u32 + 1) })
    }

    fn handheld_solve(&self, matrix: Matrix3, pivots: Pivots3, side: [f64; 3]) -> (u64, [f64; 3]) {
        let rows = (0..3).flat_map(|k| [pivots.index[k], pivots.size[k]]);
        let record: Vec<u32> = rows.chain([pivots.mark]).collect();
        if let Some(refused) = checks::rule(&record, 3) {
            return (refused, side);
        }
        let mut solution = OMatrix::from_vec(Dyn(3), Dyn(1), side.to_vec());
        let solved = lblt_of(matrix.as_flattened(), &record, 3).solve_mut(&mut solution);
        let answer = if solved { DONE } else { refusal(6, pivots.mark as usize - 1) };
        (answer, [0, 1, 2].map(|row| solution[(row, 0)]))
    }
}

/// What the text leaves behind when it answers `None` at j. Columns after j do not read p(j,j), so they are the text's own for the matrix with
/// NaN there, which it does not refuse. Document 01: d holds the zero found at j, and zeros stand before it and in the columns of u up to j.
fn refused_udu(p: &[f64], u: &mut [f64], d: &mut [f64], n: usize) -> u64 {
    let j = (0..n).rev().find(|&j| UDU::new(square(n - j, trailing(p, n, j))).is_none()).expect("the text refuses the whole");
    let mut open = p.to_vec();
    open[j + j * n] = f64::NAN;
    let factor = UDU::new(square(n, open)).expect("nothing after NaN is zero");
    u.fill(0.0);
    d.fill(0.0);
    if j + 1 == n {
        d[j] = p[j + j * n];
        return refusal(8, j);
    }
    for k in j + 1..n {
        d[k] = factor.d[k];
        for i in 0..n {
            u[i + k * n] = factor.u[(i, k)];
        }
    }
    let sum = (j + 1..n).fold(0.0, |x, k| x + d[k] * (u[j + k * n] * u[j + k * n]));
    d[j] = p[j + j * n] - sum;
    assert_eq!(d[j], 0.0, "the text refuses a diagonal that is not zero");
    refusal(8, j)
}
