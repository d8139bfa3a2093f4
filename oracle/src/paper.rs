//! The calls, written from document 01's steps and without the text: a matrix is read and written by `a[(i, j)]`, the loops run entry by entry.
//! Cholesky's solve, the codes of a diagonal that is turned down, the floor and how many columns used it, the row that a mark may name, the run number,
//! the bench's solve, the tray, LAPACK's lists and packed triangles are written from document 02. The packed calls take the same steps on the packed places;
//! nothing is unpacked. The teaching call is worked out row by row, in `by_rows`, the handheld's calls entry by entry, in `handheld`.
//! The calls for rows that came twice are written from what twin rows are: all pairs are compared, one after the other.

// sums and quotients stand as the documents write them
#![allow(clippy::assign_op_pattern)]

use std::cmp::Ordering;
use std::ops::{Deref, DerefMut, Index, IndexMut};

use crate::by_rows;
use crate::call::{Calls, Matrix3, Pivots3, word};
use crate::handheld;

pub struct Paper;

/// Where the entries of a matrix stand in a buffer.
#[derive(Clone, Copy)]
enum Layout {
    Room(usize),
    /// Document 02: the lower triangle of a matrix of this order.
    Packed(usize),
}

impl Layout {
    fn length(self) -> usize {
        match self {
            Layout::Room(room) => room * room,
            Layout::Packed(n) => n * (n + 1) / 2,
        }
    }

    fn place(self, i: usize, j: usize) -> usize {
        match self {
            Layout::Room(room) => i + j * room,
            Layout::Packed(n) => {
                assert!(j <= i && i < n, "({i}, {j}) is no entry of a lower triangle of order {n}");
                i + j * (2 * n - j - 1) / 2
            }
        }
    }
}

/// A lent buffer and its layout.
struct Lent<C> {
    cells: C,
    layout: Layout,
}

fn full<C>(cells: C, room: usize) -> Lent<C> {
    Lent { cells, layout: Layout::Room(room) }
}

fn packed<C>(cells: C, n: usize) -> Lent<C> {
    Lent { cells, layout: Layout::Packed(n) }
}

impl<C: Deref<Target = [f64]>> Index<(usize, usize)> for Lent<C> {
    type Output = f64;
    fn index(&self, (i, j): (usize, usize)) -> &f64 {
        &self.cells[self.layout.place(i, j)]
    }
}

impl<C: DerefMut<Target = [f64]>> IndexMut<(usize, usize)> for Lent<C> {
    fn index_mut(&mut self, (i, j): (usize, usize)) -> &mut f64 {
        &mut self.cells[self.layout.place(i, j)]
    }
}

impl<C: Deref<Target = [f64]>> Lent<C> {
    fn has_its_length(&self) -> bool {
        self.cells.len() == self.layout.length()
    }
}

/// Of two sizes: `max` drops a NaN if the other number is none. Sizes have the order of their bits.
fn max(x: f64, y: f64) -> f64 {
    if x.is_nan() {
        y
    } else if y.is_nan() || x.to_bits() >= y.to_bits() {
        x
    } else {
        y
    }
}

fn size(x: f64) -> f64 {
    f64::from_bits(x.to_bits() & !(1 << 63))
}

const ALPHA: f64 = 0.6403882032022076;

#[derive(Clone, Copy)]
enum Pivot {
    Zero,
    One(usize),
    Two(usize),
}

impl Lent<&mut [f64]> {
    fn choose(&self, n: usize, k: usize) -> Pivot {
        let diag = size(self[(k, k)]);
        let mut imax = k + 1;
        let mut colmax = if k + 1 < n { size(self[(k + 1, k)]) } else { 0.0 };
        for i in k + 1..n {
            if size(self[(i, k)]) > colmax {
                imax = i;
                colmax = size(self[(i, k)]);
            }
        }
        if max(diag, colmax) == 0.0 {
            return Pivot::Zero;
        }
        if diag.is_nan() || colmax.is_nan() || diag >= ALPHA * colmax {
            return Pivot::One(k);
        }
        let left = (k..imax).map(|j| size(self[(imax, j)]));
        let below = (imax + 1..n).map(|j| size(self[(j, imax)]));
        let rowmax = left.chain(below).fold(0.0, max);
        if diag >= (ALPHA * colmax) * (colmax / rowmax) {
            Pivot::One(k)
        } else if size(self[(imax, imax)]) < ALPHA * rowmax {
            Pivot::Two(imax)
        } else {
            Pivot::One(imax)
        }
    }

    fn exchange(&mut self, one: (usize, usize), other: (usize, usize)) {
        (self[one], self[other]) = (self[other], self[one]);
    }

    fn interchange(&mut self, n: usize, k: usize, t: usize, p: usize) {
        if t == p {
            return;
        }
        for i in p + 1..n {
            self.exchange((i, t), (i, p));
        }
        for j in t + 1..p {
            self.exchange((j, t), (p, j));
        }
        self.exchange((t, t), (p, p));
        if t == k + 1 {
            self.exchange((t, k), (p, k));
        }
    }

    fn eliminate_one(&mut self, n: usize, k: usize) {
        let inv = 1.0 / self[(k, k)];
        for i in k + 1..n {
            for j in k + 1..=i {
                self[(i, j)] = self[(i, j)] + (self[(i, k)] * -inv) * self[(j, k)];
            }
        }
        for i in k + 1..n {
            self[(i, k)] *= inv;
        }
    }

    fn eliminate_two(&mut self, n: usize, k: usize) {
        if k + 2 >= n {
            return;
        }
        let d = size(self[(k + 1, k)]);
        let d11 = self[(k + 1, k + 1)] / d;
        let d22 = self[(k, k)] / d;
        let d21 = self[(k + 1, k)] / d;
        let multiplier = 1.0 / (d * (d11 * d22 - 1.0));
        for j in k + 2..n {
            let (left, right) = (self[(j, k)], self[(j, k + 1)]);
            let w1 = (left * d11 - right * d21) * multiplier;
            let w2 = (right * d22 - left * d21) * multiplier;
            for i in j..n {
                self[(i, j)] = (self[(i, j)] - self[(i, k)] * w1) - self[(i, k + 1)] * w2;
            }
            self[(j, k)] = w1;
            self[(j, k + 1)] = w2;
        }
    }

    fn updated(&self, i: usize, j: usize) -> f64 {
        let mut x = self[(i, j)];
        for k in 0..j {
            x += (-self[(j, k)]) * self[(i, k)];
        }
        x
    }

    /// Column j for the rows from `from` on: whether its diagonal failed and the floor stands in for it, or its refusal.
    fn cholesky_column(&mut self, n: usize, from: usize, j: usize, floor: Option<f64>) -> Result<bool, u64> {
        for i in from.max(j)..n {
            self[(i, j)] = self.updated(i, j);
        }
        let mut floored = false;
        if from <= j {
            let mut x = self[(j, j)];
            if let Some(why) = failing(x) {
                // document 02: the floor if it passes itself, otherwise the refusal is the diagonal's own
                match floor {
                    Some(floor) if failing(floor).is_none() => x = floor,
                    _ => return Err(code(why, j)),
                }
                floored = true;
            }
            self[(j, j)] = x.sqrt();
        }
        for i in from.max(j + 1)..n {
            self[(i, j)] = self[(i, j)] / self[(j, j)];
        }
        Ok(floored)
    }
}

/// Document 02: the code of a number that fails a diagonal's test.
pub(crate) fn failing(x: f64) -> Option<u64> {
    match x.partial_cmp(&0.0) {
        Some(Ordering::Greater) => None,
        Some(Ordering::Equal) => Some(7),
        Some(Ordering::Less) => Some(10),
        None => Some(11),
    }
}

/// A pivot record that has been found sound.
struct Record<'a>(&'a [u32]);

impl Record<'_> {
    fn index(&self, k: usize) -> usize {
        self.0[2 * k] as usize
    }

    fn size(&self, k: usize) -> usize {
        self.0[2 * k + 1] as usize
    }

    /// Two words a row, the mark, the run number.
    fn order(&self) -> usize {
        (self.0.len() - 2) / 2
    }

    /// The first row of each block.
    fn blocks(&self) -> Vec<usize> {
        let mut rows = vec![];
        let mut k = 0;
        while k < self.order() {
            rows.push(k);
            k += self.size(k);
        }
        rows
    }

    /// The place at which the rule is broken.
    fn broken_at(&self, n: usize) -> Option<usize> {
        let mut k = 0;
        let mut own = vec![];
        while k < n {
            let (index, size) = (self.0[2 * k], self.0[2 * k + 1]);
            if size != 1 && size != 2 {
                return Some(k);
            }
            let least = k + size as usize - 1;
            if (index as usize) < least || index as usize >= n {
                return Some(k);
            }
            if size == 2 && (self.0[2 * k + 2] != index || self.0[2 * k + 3] != size) {
                return Some(k);
            }
            if size == 1 && index as usize == k {
                own.push(index);
            }
            k = least + 1;
        }
        match self.0[2 * n] {
            0 => None,
            mark if own.contains(&(mark - 1)) => None,
            _ => Some(n),
        }
    }
}

/// Document 02: pivots as `dsytrf` writes them for the lower triangle, a signed number for each row. Rows are counted from 1 here.
struct List<'a>(&'a [i32]);

impl List<'_> {
    fn rows(&self) -> i64 {
        self.0.len() as i64
    }

    fn number(&self, row: i64) -> i64 {
        self.0[row as usize - 1].into()
    }

    /// The rows of the block that begins at row k, if it is sound: a positive p swaps k and p; −p, which stands twice, swaps k + 1 and p.
    fn block(&self, k: i64) -> Option<i64> {
        match self.number(k) {
            p if p > 0 => (k <= p && p <= self.rows()).then_some(1),
            _ if k == self.rows() => None,
            minus_p => (minus_p == self.number(k + 1) && k < -minus_p && -minus_p <= self.rows()).then_some(2),
        }
    }

    /// The first row of the first block that is not sound.
    fn broken_at(&self) -> Option<i64> {
        let mut k = 1;
        while k <= self.rows() {
            match self.block(k) {
                Some(rows) => k += rows,
                None => return Some(k),
            }
        }
        None
    }

    /// INFO is 0, or a row that is a block by itself and is swapped with no other.
    fn allows(&self, info: i64) -> bool {
        info == 0 || (1..=self.rows()).any(|row| row == info && self.number(row) == row)
    }
}

pub(crate) fn code(code: u64, place: usize) -> u64 {
    code << 12 | place as u64
}

fn factored(a: &Lent<&[f64]>, record: &[u32], n: usize, other: Option<(usize, usize)>, run: u32) -> u64 {
    let columns = other.map_or(0, |(_, columns)| columns);
    if n > 1024 || columns > 1024 {
        code(1, 0)
    } else if !a.has_its_length() {
        code(3, 0)
    } else if record.len() != 2 * n + 2 || other.is_some_and(|(len, columns)| len != n * columns) {
        code(4, 0)
    } else if let Some(place) = Record(record).broken_at(n) {
        code(5, place)
    } else if record.last() != Some(&run) {
        code(13, 0)
    } else {
        0
    }
}

fn in_room(a: &[f64], room: usize, earlier: usize, n: usize) -> u64 {
    if room > 1024 || earlier > 1024 || n > 1024 {
        code(1, 0)
    } else if n > room || earlier > n {
        code(2, 0)
    } else if a.len() != room * room {
        code(3, 0)
    } else {
        0
    }
}

fn lblt_factor(mut a: Lent<&mut [f64]>, record: &mut [u32], n: usize, run: u32) -> u64 {
    if n > 1024 {
        return code(1, 0);
    }
    if !a.has_its_length() {
        return code(3, 0);
    }
    if record.len() != 2 * n + 2 {
        return code(4, 0);
    }
    let (mut k, mut mark) = (0, 0);
    while k < n {
        let pivot = a.choose(n, k);
        let (index, block) = match pivot {
            Pivot::Zero => (k, 1),
            Pivot::One(p) => (p, 1),
            Pivot::Two(p) => (p, 2),
        };
        match pivot {
            Pivot::Zero if mark == 0 => mark = k as u32 + 1,
            Pivot::Zero => {}
            Pivot::One(p) => {
                a.interchange(n, k, k, p);
                a.eliminate_one(n, k);
            }
            Pivot::Two(p) => {
                a.interchange(n, k, k + 1, p);
                a.eliminate_two(n, k);
            }
        }
        for row in k..k + block {
            record[2 * row] = index as u32;
            record[2 * row + 1] = block as u32;
        }
        k += block;
    }
    record[2 * n] = mark;
    record[2 * n + 1] = run;
    0
}

fn lblt_solve(a: &Lent<&[f64]>, record: &[u32], b: &mut [f64], n: usize, columns: usize, run: u32) -> u64 {
    let refused = factored(a, record, n, Some((b.len(), columns)), run);
    if refused != 0 {
        return refused;
    }
    if record[2 * n] != 0 {
        return code(6, record[2 * n] as usize - 1);
    }
    for j in 0..columns {
        solve_column(a, &Record(record), &mut b[j * n..(j + 1) * n]);
    }
    0
}

fn lblt_determinant(a: &Lent<&[f64]>, record: &[u32], n: usize, run: u32) -> (u64, f64) {
    let refused = factored(a, record, n, None, run);
    if refused != 0 {
        return (refused, 0.0);
    }
    let record = Record(record);
    let mut product = 1.0;
    for k in record.blocks() {
        product *= if record.size(k) == 1 { a[(k, k)] } else { a[(k, k)] * a[(k + 1, k + 1)] - a[(k + 1, k)] * a[(k + 1, k)] };
    }
    (0, product)
}

/// The rows from `earlier` on: the answer, and how many of the finished columns used the floor.
fn cholesky_rows(mut a: Lent<&mut [f64]>, earlier: usize, n: usize, floor: Option<f64>) -> (u64, u64) {
    let mut used = 0;
    for j in 0..n {
        match a.cholesky_column(n, earlier, j, floor) {
            Ok(floored) => used += u64::from(floored),
            Err(refused) => return (refused, used),
        }
    }
    (0, used)
}

fn cholesky_in_room(a: &mut [f64], room: usize, earlier: usize, n: usize, floor: Option<f64>) -> (u64, u64) {
    match in_room(a, room, earlier, n) {
        0 => cholesky_rows(full(a, room), earlier, n, floor),
        refused => (refused, 0),
    }
}

/// Rows p < q are twins if entry (q, k) of the symmetric matrix is entry (p, k) for every k: the same bits, or both NaN.
fn first_twin_since(a: &Lent<&[f64]>, earlier: usize, n: usize) -> u64 {
    let entry = |i: usize, j: usize| word(a[(i.max(j), i.min(j))]);
    for q in earlier..n {
        for p in 0..q {
            if (0..n).all(|k| entry(q, k) == entry(p, k)) {
                return code(4096 + q as u64, p);
            }
        }
    }
    0
}

/// One right-hand side.
fn solve_column(l: &Lent<&[f64]>, record: &Record, b: &mut [f64]) {
    let n = b.len();
    let blocks = record.blocks();
    for &k in &blocks {
        let last = k + record.size(k) - 1;
        b.swap(last, record.index(k));
        for i in last + 1..n {
            for c in k..=last {
                b[i] = b[i] - l[(i, c)] * b[c];
            }
        }
    }
    for &k in &blocks {
        if record.size(k) == 1 {
            b[k] = b[k] / l[(k, k)];
        } else {
            let (d11, d22, d21) = (l[(k, k)], l[(k + 1, k + 1)], l[(k + 1, k)]);
            let det = d11 * d22 - d21 * d21;
            let (x, y) = (b[k], b[k + 1]);
            b[k] = (x * d22 - y * d21) / det;
            b[k + 1] = (y * d11 - x * d21) / det;
        }
    }
    for &k in blocks.iter().rev() {
        let last = k + record.size(k) - 1;
        for c in (k..=last).rev() {
            for i in last + 1..n {
                b[c] = b[c] - l[(i, c)] * b[i];
            }
        }
        b.swap(last, record.index(k));
    }
}

/// Document 02: one right-hand side by the factor l.
fn solve_triangles(l: &Lent<&[f64]>, b: &mut [f64]) {
    let n = b.len();
    for i in 0..n {
        b[i] = b[i] / l[(i, i)];
        for r in i + 1..n {
            b[r] = b[r] + (-b[i]) * l[(r, i)];
        }
    }
    for i in (0..n).rev() {
        for r in i + 1..n {
            b[i] = b[i] - l[(r, i)] * b[r];
        }
        b[i] = b[i] / l[(i, i)];
    }
}

impl Calls for Paper {
    fn lblt_factor(&self, a: &mut [f64], record: &mut [u32], n: usize, run: u32) -> u64 {
        lblt_factor(full(a, n), record, n, run)
    }

    fn lblt_solve(&self, a: &[f64], record: &[u32], b: &mut [f64], n: usize, columns: usize, run: u32) -> u64 {
        lblt_solve(&full(a, n), record, b, n, columns, run)
    }

    fn lblt_solve_bench(
        &self,
        a: &[f64],
        record: &[u32],
        b: &mut [f64],
        benches: &[u32],
        n: usize,
        columns: usize,
        bench: u32,
        run: u32,
    ) -> u64 {
        if n > 1024 || columns > 1024 {
            return code(1, 0);
        }
        if a.len() != n * n {
            return code(3, 0);
        }
        if record.len() != 2 * n + 2 || b.len() != n * columns {
            return code(4, 0);
        }
        if benches.len() != columns {
            return code(4, 0);
        }
        if let Some(place) = Record(record).broken_at(n) {
            return code(5, place);
        }
        if record[2 * n + 1] != run {
            return code(13, 0);
        }
        if record[2 * n] != 0 {
            return code(6, record[2 * n] as usize - 1);
        }
        for j in 0..columns {
            if benches[j] == bench {
                solve_column(&full(a, n), &Record(record), &mut b[j * n..(j + 1) * n]);
            }
        }
        0
    }

    fn lblt_determinant(&self, a: &[f64], record: &[u32], n: usize, run: u32) -> (u64, f64) {
        lblt_determinant(&full(a, n), record, n, run)
    }

    fn lblt_d(&self, a: &[f64], record: &[u32], d: &mut [f64], n: usize, run: u32) -> u64 {
        let refused = factored(&full(a, n), record, n, Some((d.len(), n)), run);
        if refused == 0 {
            let record = Record(record);
            d.fill(0.0);
            for k in record.blocks() {
                for c in k..k + record.size(k) {
                    for r in c..k + record.size(k) {
                        d[r + c * n] = a[r + c * n];
                        d[c + r * n] = a[r + c * n];
                    }
                }
            }
        }
        refused
    }

    fn lblt_l_permuted(&self, a: &[f64], record: &[u32], l: &mut [f64], n: usize, run: u32) -> u64 {
        let refused = factored(&full(a, n), record, n, Some((l.len(), n)), run);
        if refused == 0 {
            let record = Record(record);
            for (at, x) in l.iter_mut().enumerate() {
                *x = if at % (n + 1) == 0 { 1.0 } else { 0.0 };
            }
            for k in record.blocks() {
                let last = k + record.size(k) - 1;
                for row in 0..n {
                    l.swap(row + last * n, row + record.index(k) * n);
                }
                for c in k..=last {
                    for i in last + 1..n {
                        for row in 0..n {
                            l[row + c * n] += l[row + i * n] * a[i + c * n];
                        }
                    }
                }
            }
        }
        refused
    }

    fn lblt_tray(
        &self,
        a: &mut [f64],
        records: &mut [u32],
        b: &mut [f64],
        runs: &[u32],
        answers: &mut [u64],
        n: usize,
        count: usize,
    ) -> u64 {
        if count > 1024 || n > 64 {
            return code(1, 0);
        }
        if a.len() != count * n * n {
            return code(3, 0);
        }
        if records.len() != count * (2 * n + 2) || b.len() != count * n || runs.len() != count || answers.len() != count {
            return code(4, 0);
        }
        let (mut matrices, mut records, mut sides) = (a, records, b);
        for (run, answer) in runs.iter().zip(answers) {
            let matrix = matrices.split_off_mut(..n * n).expect("a matrix for each item");
            let record = records.split_off_mut(..2 * n + 2).expect("a record for each item");
            let side = sides.split_off_mut(..n).expect("a side for each item");
            lblt_factor(full(&mut *matrix, n), record, n, *run);
            *answer = lblt_solve(&full(&*matrix, n), record, side, n, 1, *run);
        }
        0
    }

    fn cholesky_factor(&self, a: &mut [f64], room: usize, n: usize) -> u64 {
        self.cholesky_extend(a, room, 0, n)
    }

    fn cholesky_extend(&self, a: &mut [f64], room: usize, earlier: usize, n: usize) -> u64 {
        cholesky_in_room(a, room, earlier, n, None).0
    }

    fn cholesky_factor_floored(&self, a: &mut [f64], room: usize, n: usize, floor: f64) -> (u64, u64) {
        self.cholesky_extend_floored(a, room, 0, n, floor)
    }

    fn cholesky_extend_floored(&self, a: &mut [f64], room: usize, earlier: usize, n: usize, floor: f64) -> (u64, u64) {
        cholesky_in_room(a, room, earlier, n, Some(floor))
    }

    fn cholesky_teaching(&self, a: &mut [f64], room: usize, n: usize) -> u64 {
        if n > 64 {
            return code(1, 0);
        }
        match in_room(a, room, 0, n) {
            0 => by_rows::cholesky(a, room, n),
            refused => refused,
        }
    }

    fn cholesky_solve(&self, a: &[f64], b: &mut [f64], room: usize, n: usize, columns: usize) -> u64 {
        if columns > 1024 {
            return code(1, 0);
        }
        let refused = in_room(a, room, 0, n);
        if refused != 0 {
            return refused;
        }
        if b.len() != n * columns {
            return code(4, 0);
        }
        for j in 0..columns {
            solve_triangles(&full(a, room), &mut b[j * n..(j + 1) * n]);
        }
        0
    }

    fn cholesky_l(&self, a: &[f64], l: &mut [f64], room: usize, n: usize) -> u64 {
        let refused = in_room(a, room, 0, n);
        if refused != 0 {
            return refused;
        }
        if l.len() != n * n {
            return code(4, 0);
        }
        for (at, x) in l.iter_mut().enumerate() {
            let (i, j) = (at % n, at / n);
            *x = if i < j { 0.0 } else { a[i + j * room] };
        }
        0
    }

    fn cholesky_unpack(&self, a: &mut [f64], room: usize, n: usize) -> u64 {
        let refused = in_room(a, room, 0, n);
        if refused == 0 {
            for i in 0..n {
                for j in i + 1..n {
                    a[i + j * room] = 0.0;
                }
            }
        }
        refused
    }

    fn cholesky_determinant(&self, a: &[f64], room: usize, n: usize) -> (u64, f64) {
        let refused = in_room(a, room, 0, n);
        if refused != 0 {
            return (refused, 0.0);
        }
        let product: f64 = (0..n).fold(1.0, |x, i| x * a[i + i * room]);
        (0, product * product)
    }

    fn udu_factor(&self, p: &[f64], u: &mut [f64], d: &mut [f64], n: usize) -> u64 {
        if n == 0 || n > 1024 {
            return code(1, 0);
        }
        if p.len() != n * n {
            return code(3, 0);
        }
        if u.len() != n * n || d.len() != n {
            return code(4, 0);
        }
        u.fill(0.0);
        d.fill(0.0);
        let mut u = full(u, n);
        let p = |i: usize, j: usize| p[i + j * n];
        for j in (0..n).rev() {
            let mut sum = 0.0;
            for k in j + 1..n {
                sum += d[k] * (u[(j, k)] * u[(j, k)]);
            }
            d[j] = if j + 1 == n { p(j, j) } else { p(j, j) - sum };
            if d[j] == 0.0 {
                return code(8, j);
            }
            if j + 1 == n {
                let inverse = 1.0 / d[j];
                for i in 0..n {
                    u[(i, j)] = inverse * p(i, j);
                }
                continue;
            }
            for i in 0..j {
                let mut sum = 0.0;
                for k in j + 1..n {
                    sum += (d[k] * u[(j, k)]) * u[(i, k)];
                }
                u[(i, j)] = (p(i, j) - sum) / d[j];
            }
            u[(j, j)] = 1.0;
        }
        0
    }

    fn first_twin_since(&self, a: &[f64], room: usize, earlier: usize, n: usize) -> u64 {
        let refused = in_room(a, room, earlier, n);
        if refused != 0 {
            return refused;
        }
        first_twin_since(&full(a, room), earlier, n)
    }

    fn first_twin(&self, a: &[f64], room: usize, n: usize) -> u64 {
        self.first_twin_since(a, room, 0, n)
    }

    fn pivots_from_lapack(&self, list: &[i32], info: i32, record: &mut [u32], n: usize, run: u32) -> u64 {
        if n > 1024 {
            return code(1, 0);
        }
        if list.len() != n || record.len() != 2 * n + 2 {
            return code(4, 0);
        }
        if let Some(row) = List(list).broken_at() {
            return code(12, row as usize - 1);
        }
        if !List(list).allows(info.into()) {
            return code(12, n);
        }
        for (row, &number) in list.iter().enumerate() {
            record[2 * row] = number.unsigned_abs() - 1;
            record[2 * row + 1] = if number < 0 { 2 } else { 1 };
        }
        record[2 * n] = info as u32;
        record[2 * n + 1] = run;
        0
    }

    fn pivots_to_lapack(&self, record: &[u32], list: &mut [i32], n: usize) -> (u64, i32, u32) {
        if n > 1024 {
            return (code(1, 0), 0, 0);
        }
        if record.len() != 2 * n + 2 || list.len() != n {
            return (code(4, 0), 0, 0);
        }
        if let Some(place) = Record(record).broken_at(n) {
            return (code(5, place), 0, 0);
        }
        let record = Record(record);
        for k in record.blocks() {
            let p = record.index(k) as i32 + 1;
            match record.size(k) {
                1 => list[k] = p,
                _ => list[k..k + 2].fill(-p),
            }
        }
        (0, record.0[2 * n] as i32, record.0[2 * n + 1])
    }

    fn packed_lblt_factor(&self, a: &mut [f64], record: &mut [u32], n: usize, run: u32) -> u64 {
        lblt_factor(packed(a, n), record, n, run)
    }

    fn packed_lblt_solve(&self, a: &[f64], record: &[u32], b: &mut [f64], n: usize, columns: usize, run: u32) -> u64 {
        lblt_solve(&packed(a, n), record, b, n, columns, run)
    }

    fn packed_lblt_determinant(&self, a: &[f64], record: &[u32], n: usize, run: u32) -> (u64, f64) {
        lblt_determinant(&packed(a, n), record, n, run)
    }

    fn packed_cholesky_factor(&self, a: &mut [f64], n: usize) -> u64 {
        let a = packed(a, n);
        if n > 1024 {
            return code(1, 0);
        }
        if !a.has_its_length() {
            return code(3, 0);
        }
        cholesky_rows(a, 0, n, None).0
    }

    fn packed_cholesky_extend(&self, old: &[f64], rows: &[f64], fresh: &mut [f64], earlier: usize, n: usize) -> u64 {
        let (old, mut new) = (packed(old, earlier), packed(fresh, n));
        if n > 1024 || earlier > 1024 {
            return code(1, 0);
        }
        if earlier > n {
            return code(2, 0);
        }
        if !old.has_its_length() {
            return code(3, 0);
        }
        if rows.len() != new.layout.length() - old.layout.length() || !new.has_its_length() {
            return code(4, 0);
        }
        for i in 0..n {
            for j in 0..=i {
                // all lower rows before row i have i·(i+1)/2 numbers
                new[(i, j)] = if i < earlier { old[(i, j)] } else { rows[i * (i + 1) / 2 - old.layout.length() + j] };
            }
        }
        cholesky_rows(new, earlier, n, None).0
    }

    fn packed_cholesky_solve(&self, a: &[f64], b: &mut [f64], n: usize, columns: usize) -> u64 {
        let l = packed(a, n);
        if n > 1024 || columns > 1024 {
            return code(1, 0);
        }
        if !l.has_its_length() {
            return code(3, 0);
        }
        if b.len() != n * columns {
            return code(4, 0);
        }
        for j in 0..columns {
            solve_triangles(&l, &mut b[j * n..(j + 1) * n]);
        }
        0
    }

    fn packed_first_twin(&self, a: &[f64], n: usize) -> u64 {
        let a = packed(a, n);
        if n > 1024 {
            return code(1, 0);
        }
        if !a.has_its_length() {
            return code(3, 0);
        }
        first_twin_since(&a, 0, n)
    }

    fn handheld_factor(&self, matrix: Matrix3) -> (Matrix3, Pivots3) {
        handheld::factor(matrix)
    }

    fn handheld_solve(&self, matrix: Matrix3, pivots: Pivots3, side: [f64; 3]) -> (u64, [f64; 3]) {
        handheld::solve(matrix, pivots, side)
    }
}
