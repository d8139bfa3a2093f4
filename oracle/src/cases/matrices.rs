//! Symmetric matrices of many kinds, as whole squares of which a call reads one triangle.

use super::SPECIAL;
use super::rng::Rng;

/// What stands in entries that no call may read or write: a number of its own for each place.
pub fn fill(at: usize) -> f64 {
    f64::from_bits(0x5a5a_0000_0000_0000 + at as u64)
}

pub fn filled(len: usize) -> Vec<f64> {
    (0..len).map(fill).collect()
}

/// A symmetric matrix of order n: entry (i, j) at i + j·n.
#[derive(Clone)]
pub struct Symmetric {
    pub n: usize,
    pub cells: Vec<f64>,
}

impl Symmetric {
    fn zero(n: usize) -> Symmetric {
        Symmetric { n, cells: vec![0.0; n * n] }
    }

    pub(super) fn of(n: usize, mut entry: impl FnMut(usize, usize) -> f64) -> Symmetric {
        let mut m = Symmetric::zero(n);
        for j in 0..n {
            for i in j..n {
                let x = entry(i, j);
                m.put(i, j, x);
            }
        }
        m
    }

    pub fn get(&self, i: usize, j: usize) -> f64 {
        self.cells[i + j * self.n]
    }

    pub(super) fn put(&mut self, i: usize, j: usize, x: f64) {
        self.cells[i + j * self.n] = x;
        self.cells[j + i * self.n] = x;
    }

    /// The matrix with another number in one place.
    pub(super) fn with(&self, i: usize, j: usize, x: f64) -> Symmetric {
        let mut m = self.clone();
        m.put(i, j, x);
        m
    }

    fn change(&mut self, f: impl Fn(usize, usize, f64) -> f64) {
        for j in 0..self.n {
            for i in j..self.n {
                let x = f(i, j, self.get(i, j));
                self.put(i, j, x);
            }
        }
    }

    /// In a room of `room` rows and columns, with the triangle that the call reads alone; the rest is filled.
    pub fn placed(&self, room: usize, lower: bool, rest: impl Fn(usize) -> f64) -> Vec<f64> {
        let mut out: Vec<f64> = (0..room * room).map(rest).collect();
        for j in 0..self.n {
            for i in j..self.n {
                let at = if lower { i + j * room } else { j + i * room };
                out[at] = self.get(i, j);
            }
        }
        out
    }
}

fn power_of_two(e: i64) -> f64 {
    if e < -1022 { f64::from_bits(1 << (e + 1074).clamp(0, 51)) } else { f64::from_bits(((e.min(1023) + 1023) as u64) << 52) }
}

/// A number with this exponent and any digits.
fn digits(r: &mut Rng, e: i64) -> f64 {
    let sign = r.word() & (1 << 63);
    f64::from_bits(sign | ((e + 1023) as u64) << 52 | r.word() >> 12)
}

fn subnormal(r: &mut Rng) -> f64 {
    let sign = r.word() & (1 << 63);
    let keep = r.below(52) + 1;
    f64::from_bits(sign | r.word() >> (12 + 52 - keep))
}

/// Kinds of single numbers.
#[derive(Clone, Copy)]
pub enum Numbers {
    WellScaled,
    SmallIntegers,
    Integers,
    Signs,
    Special,
    SomeSpecial,
    Subnormal,
    Huge,
    Tiny,
    WildlyMixed,
    AnyBits,
    PowersOfTwo,
    NearOne,
}

use Numbers::*;

const NUMBERS: [Numbers; 13] =
    [WellScaled, SmallIntegers, Integers, Signs, Special, SomeSpecial, Subnormal, Huge, Tiny, WildlyMixed, AnyBits, PowersOfTwo, NearOne];

pub fn number(r: &mut Rng, kind: Numbers) -> f64 {
    match kind {
        WellScaled => r.unit(),
        SmallIntegers => r.between(-3, 3) as f64,
        Integers => r.between(-1000, 1000) as f64,
        Signs => r.pick(&[0.0, -0.0, 1.0, -1.0, 0.0, 2.0]),
        Special => r.pick(&SPECIAL),
        SomeSpecial => {
            if r.one_in(8) {
                r.pick(&SPECIAL)
            } else {
                r.unit()
            }
        }
        Subnormal => subnormal(r),
        Huge => {
            let e = r.between(1000, 1023);
            digits(r, e)
        }
        Tiny => {
            let e = r.between(-1022, -1000);
            if r.one_in(3) { subnormal(r) } else { digits(r, e) }
        }
        WildlyMixed => {
            let e = r.between(-1022, 1023);
            digits(r, e)
        }
        AnyBits => f64::from_bits(r.word()),
        PowersOfTwo => power_of_two(r.between(-3, 3)) * r.pick(&[1.0, -1.0]),
        NearOne => f64::from_bits((1.0f64.to_bits() as i64 + r.between(-4, 4)) as u64) * r.pick(&[1.0, -1.0]),
    }
}

pub fn numbers(r: &mut Rng, len: usize) -> Vec<f64> {
    let kind = r.pick(&NUMBERS);
    (0..len).map(|_| number(r, kind)).collect()
}

/// Every entry of one kind.
pub(super) fn plain(r: &mut Rng, n: usize) -> Symmetric {
    let kind = r.pick(&NUMBERS);
    Symmetric::of(n, |_, _| number(r, kind))
}

pub(super) fn well_scaled(r: &mut Rng, n: usize) -> Symmetric {
    Symmetric::of(n, |_, _| r.unit())
}

/// Two equal rows and columns.
fn twin_rows(r: &mut Rng, n: usize) -> Symmetric {
    let mut m = if r.one_in(2) { plain(r, n) } else { well_scaled(r, n) };
    if n >= 2 {
        let q = r.below(n);
        let p = r.below(n);
        for i in 0..n {
            if i != p {
                let x = m.get(i, q);
                m.put(i, p, x);
            }
        }
        let x = m.get(q, q);
        m.put(p, p, x);
    }
    m
}

/// Small or zero diagonals beside larger entries: pivots of size 2.
fn indefinite(r: &mut Rng, n: usize) -> Symmetric {
    let small = r.pick(&[0.0, -0.0, 0.125, 1e-3, 1e-300]);
    let integers = r.one_in(2);
    let half = r.one_in(3);
    Symmetric::of(n, |i, j| {
        let x = if integers { r.between(-4, 4) as f64 } else { r.unit() };
        if i == j || (half && j >= n / 2) { small * x } else { x }
    })
}

/// Blocks of size 1 and 2 side by side, uncoupled or nearly so.
fn block_diagonal(r: &mut Rng, n: usize) -> Symmetric {
    let mut m = Symmetric::zero(n);
    let kind = r.pick(&[WellScaled, SmallIntegers, PowersOfTwo, Special, Huge, Tiny]);
    let coupling = r.pick(&[0.0, -0.0, 1e-20]);
    m.change(|_, _, _| coupling);
    for i in 0..n {
        let x = number(r, kind);
        m.put(i, i, x);
        if i > 0 && r.one_in(2) {
            let x = number(r, kind);
            m.put(i, i - 1, x);
        }
    }
    m
}

pub(super) fn heavy_diagonal(r: &mut Rng, n: usize) -> Symmetric {
    Symmetric::of(n, |i, j| if i == j { n as f64 + r.unit() } else { r.unit() })
}

fn low_rank(r: &mut Rng, n: usize) -> Symmetric {
    let v: Vec<f64> = (0..n).map(|_| r.between(-3, 3) as f64).collect();
    let w: Vec<f64> = (0..n).map(|_| r.between(-2, 2) as f64).collect();
    Symmetric::of(n, |i, j| v[i] * v[j] - w[i] * w[j])
}

/// L·Lᵀ with whole numbers, so that Cholesky is exact, times powers of two on both sides.
fn definite_exact(r: &mut Rng, n: usize) -> Symmetric {
    let mut l = vec![0.0; n * n];
    for j in 0..n {
        for i in j..n {
            l[i + j * n] = if i == j { r.between(1, 4) as f64 } else { r.between(-2, 2) as f64 };
        }
    }
    if n > 0 && r.one_in(3) {
        let j = r.below(n);
        l[j + j * n] = 0.0;
    }
    let spread = r.pick(&[0, 0, 3, 200, 500, 530]);
    let mid = r.pick(&[0, 0, -500, 480]);
    let e: Vec<i64> = (0..n).map(|_| (mid + r.between(-spread, spread)).clamp(-536, 505)).collect();
    Symmetric::of(n, |i, j| {
        let sum: f64 = (0..=j).map(|k| l[i + k * n] * l[j + k * n]).sum();
        sum * power_of_two(e[i]) * power_of_two(e[j])
    })
}

/// L·Lᵀ with small whole numbers: the roots and quotients of its Cholesky are exact.
pub(super) struct Exact {
    pub matrix: Symmetric,
    /// What the columns before it take off the diagonal of each row.
    taken: Vec<f64>,
}

pub(super) fn exact(r: &mut Rng, n: usize) -> Exact {
    let l = Symmetric::of(n, |i, j| if i == j { r.between(1, 4) } else { r.between(-2, 2) } as f64);
    let matrix = Symmetric::of(n, |i, j| (0..=j).map(|k| l.get(i, k) * l.get(j, k)).sum());
    let taken = (0..n).map(|row| (0..row).map(|k| l.get(row, k) * l.get(row, k)).sum()).collect();
    Exact { matrix, taken }
}

impl Exact {
    /// What is left of the diagonal of this row is zero, below zero, NaN.
    pub(super) fn refused_at(&self, row: usize) -> [Symmetric; 3] {
        [self.taken[row], self.taken[row] - 1.0, f64::NAN].map(|x| self.matrix.with(row, row, x))
    }
}

/// Row and column q are those of p.
pub(super) fn again(m: &Symmetric, p: usize, q: usize) -> Symmetric {
    let source = |row: usize| if row == q { p } else { row };
    Symmetric::of(m.n, |i, j| m.get(source(i), source(j)))
}

/// B·Bᵀ and some of the identity: positive definite with rounding everywhere.
fn definite(r: &mut Rng, n: usize) -> Symmetric {
    let columns = if r.one_in(4) { n.saturating_sub(r.below(3)) } else { n };
    let b: Vec<f64> = (0..n * columns).map(|_| r.unit()).collect();
    let shift = r.pick(&[0.0, 1.0, 1e-3, 1e-17]);
    let scale = r.pick(&[1.0, 1.0, 1e-300, 1e300, 1e-310]);
    Symmetric::of(n, |i, j| {
        let sum: f64 = (0..columns).map(|k| b[i + k * n] * b[j + k * n]).sum();
        (sum + if i == j { shift } else { 0.0 }) * scale
    })
}

/// Hilbert's matrix or one like it: nearly singular from order 10 or so on.
fn hilbert(r: &mut Rng, n: usize) -> Symmetric {
    let first = r.between(1, 4) as usize;
    Symmetric::of(n, |i, j| 1.0 / (first + i + j) as f64)
}

/// Rows and columns that grow or shrink by a power of two from one to the next.
fn graded(r: &mut Rng, n: usize) -> Symmetric {
    let by = r.pick(&[-40, -9, -1, 1, 9, 40]);
    let mut m = heavy_diagonal(r, n);
    m.change(|i, j, x| x * power_of_two(by * i as i64) * power_of_two(by * j as i64));
    m
}

/// U·D·Uᵀ with whole numbers and a zero in D now and then.
fn udu_exact(r: &mut Rng, n: usize) -> Symmetric {
    let mut u = vec![0.0; n * n];
    for j in 0..n {
        for i in 0..j {
            u[i + j * n] = r.between(-2, 2) as f64;
        }
        u[j + j * n] = 1.0;
    }
    let mut d: Vec<f64> = (0..n).map(|_| r.pick(&[1.0, -1.0, 2.0, -4.0, 0.5, 3.0])).collect();
    if n > 0 && r.one_in(2) {
        let j = r.below(n);
        d[j] = r.pick(&[0.0, -0.0]);
    }
    Symmetric::of(n, |i, j| (i..n).map(|k| u[j + k * n] * d[k] * u[i + k * n]).sum())
}

fn step(x: f64, by: i64) -> f64 {
    f64::from_bits((x.to_bits() as i64 + by) as u64)
}

/// At one of the comparisons with α: equality, or one unit beside it. Rows before the block are uncoupled, so that it is met as written.
pub fn alpha_edge(r: &mut Rng, n: usize) -> Symmetric {
    const ALPHA: f64 = 0.6403882032022076;
    if n < 2 {
        return well_scaled(r, n);
    }
    let k = if n > 2 { r.below(n - 2) } else { 0 };
    let mut m = well_scaled(r, n);
    m.change(|i, j, x| if i < k || j < k { if i == j { 1.0 } else { 0.0 } } else { x * 0.25 });
    let sign = |r: &mut Rng| r.pick(&[1.0, -1.0]);
    let beside = r.between(-1, 1);
    let imax = k + 1 + r.below(n - k - 1);
    let colmax = r.pick(&[0.5, 0.75, 1.0]) + r.unit() * 0.125;
    let s = sign(r);
    m.put(imax, k, colmax * s);
    let which = r.below(4);
    if which == 0 {
        let diag = step(ALPHA * colmax, beside) * sign(r);
        m.put(k, k, diag);
        return m;
    }
    let others: Vec<usize> = (k + 1..n).filter(|&j| j != imax).collect();
    let mut rowmax = colmax;
    if !others.is_empty() && !r.one_in(4) {
        rowmax = colmax * (1.0 + r.unit().abs());
        let j = r.pick(&others);
        let s = sign(r);
        m.put(imax, j, rowmax * s);
    }
    let bound = (ALPHA * colmax) * (colmax / rowmax);
    let diag = if which == 1 { step(bound, beside) } else { bound * 0.5 };
    let s = sign(r);
    m.put(k, k, diag * s);
    let candidate = ALPHA * rowmax;
    let on_diagonal = if which == 1 { candidate * r.pick(&[0.5, 2.0]) } else { step(candidate, beside) };
    let s = sign(r);
    m.put(imax, imax, on_diagonal * s);
    m
}

/// Equal maxima with either sign, zeros of either sign among them.
fn ties(r: &mut Rng, n: usize) -> Symmetric {
    let top = r.pick(&[1.0, 3.0, 0.1, 1e300, 5e-324]);
    Symmetric::of(n, |i, j| {
        let x = r.pick(&[top, -top, 0.0, -0.0]);
        if i == j && r.one_in(2) { 0.0 } else { x }
    })
}

/// Small whole numbers beside powers of two on the diagonal: a solve by it is exact as long as its numbers have room.
fn whole_triangle(r: &mut Rng, n: usize) -> Symmetric {
    Symmetric::of(n, |i, j| if i == j { r.pick(&[1.0, -1.0, 2.0, 0.5, -4.0]) } else { r.between(-2, 2) as f64 })
}

/// Rows that grow or shrink by a power of two from one to the next.
fn graded_rows(r: &mut Rng, n: usize) -> Symmetric {
    let by = r.pick(&[-200, -30, -3, 3, 30, 200]);
    let mut m = well_scaled(r, n);
    m.change(|i, _, x| x * power_of_two(by * i as i64));
    m
}

/// A special number in one place.
fn planted(r: &mut Rng, mut m: Symmetric) -> Symmetric {
    if m.n > 0 {
        let (i, j) = (r.below(m.n), r.below(m.n));
        let at = if r.one_in(2) { (i, i) } else { (i, j) };
        let x = r.pick(&SPECIAL);
        m.put(at.0, at.1, x);
    }
    m
}

/// A power of two for each row and column: exact while nothing leaves the range.
fn rescaled(r: &mut Rng, mut m: Symmetric) -> Symmetric {
    let most = r.pick(&[20, 300, 540]);
    let e: Vec<i64> = (0..m.n).map(|_| r.between(-most, most)).collect();
    m.change(|i, j, x| x * power_of_two(e[i]) * power_of_two(e[j]));
    m
}

type Maker = fn(&mut Rng, usize) -> Symmetric;

pub const FOR_LBLT: [Maker; 14] = [
    plain,
    plain,
    plain,
    well_scaled,
    twin_rows,
    indefinite,
    indefinite,
    block_diagonal,
    heavy_diagonal,
    low_rank,
    definite,
    alpha_edge,
    alpha_edge,
    ties,
];

pub const FOR_CHOLESKY: [Maker; 9] =
    [plain, heavy_diagonal, heavy_diagonal, definite, definite, definite_exact, definite_exact, twin_rows, low_rank];

pub const FOR_UDU: [Maker; 10] =
    [plain, plain, well_scaled, heavy_diagonal, definite, definite_exact, udu_exact, udu_exact, twin_rows, indefinite];

/// To be factored and solved by.
pub const FOR_SOLVE: [Maker; 10] =
    [plain, heavy_diagonal, heavy_diagonal, definite, definite, definite_exact, definite_exact, twin_rows, hilbert, graded];

/// To be solved by as they are, their lower part a factor of nothing.
pub const FOR_FACTOR: [Maker; 6] = [plain, plain, plain, whole_triangle, whole_triangle, graded_rows];

/// To be factored with a floor.
pub const FOR_FLOOR: [Maker; 11] =
    [plain, well_scaled, twin_rows, indefinite, block_diagonal, heavy_diagonal, low_rank, definite, definite_exact, hilbert, graded];

pub fn symmetric(r: &mut Rng, makers: &[Maker], n: usize) -> Symmetric {
    let make = r.pick(makers);
    let mut m = make(r, n);
    if r.one_in(6) {
        m = planted(r, m);
    }
    if r.one_in(8) {
        m = rescaled(r, m);
    }
    m
}
