//! Matrices that are factored, and how they and what comes of them are measured and shown.

use oracle::call::{mark, pairs, words};
use oracle::cases::{Rng, filled};

use crate::fortran::List;

/// The lower triangle from a function of (i, j), column by column; the rest is filled.
pub fn lower(n: usize, mut entry: impl FnMut(usize, usize) -> f64) -> Vec<f64> {
    let mut a = filled(n * n);
    for j in 0..n {
        for i in j..n {
            a[i + j * n] = entry(i, j);
        }
    }
    a
}

/// From the lower rows.
pub fn placed(rows: &[f64]) -> (Vec<f64>, usize) {
    let n = (1..).find(|n| n * (n + 1) / 2 >= rows.len()).expect("some order");
    (lower(n, |i, j| rows[i * (i + 1) / 2 + j]), n)
}

/// Entries between −1 and 1, with a diagonal of some weight; or a heavy diagonal whose rows and columns are scaled by powers of two.
pub fn weighted(r: &mut Rng, n: usize) -> Vec<f64> {
    let weight = r.pick(&[0.0, 0.1, 1.0, 1.0, 4.0, n as f64]);
    if !r.one_in(6) {
        return lower(n, |i, j| r.unit() * if i == j { weight } else { 1.0 });
    }
    let scale: Vec<f64> = (0..n).map(|_| r.pick(&[0.125, 0.5, 1.0, 2.0, 8.0])).collect();
    lower(n, |i, j| scale[i] * scale[j] * (r.unit() + if i == j { n as f64 } else { 0.0 }))
}

/// Both triangles from the lower one.
pub fn both_triangles(a: &[f64], n: usize) -> Vec<f64> {
    (0..n * n).map(|at| (at % n, at / n)).map(|(i, j)| a[i.max(j) + i.min(j) * n]).collect()
}

/// The matrix of a lower triangle times each of its columns.
pub fn times(a: &[f64], x: &[f64], n: usize) -> Vec<f64> {
    let mut y = vec![0.0; x.len()];
    for (y, x) in y.chunks_exact_mut(n).zip(x.chunks_exact(n)) {
        for j in 0..n {
            y[j] += a[j + j * n] * x[j];
            for i in j + 1..n {
                y[i] += a[i + j * n] * x[j];
                y[j] += a[i + j * n] * x[i];
            }
        }
    }
    y
}

fn greatest(s: impl IntoIterator<Item = f64>) -> f64 {
    s.into_iter().fold(0.0, |most, x| if x.is_nan() { f64::INFINITY } else { x.abs().max(most) })
}

/// |A·x − b| / (|A|·|x| + |b|) in the maximum norm, the greatest of the columns; infinity where a number is not finite.
pub fn residual(a: &[f64], x: &[f64], b: &[f64], n: usize) -> f64 {
    let mut sums = vec![0.0; n];
    for j in 0..n {
        sums[j] += a[j + j * n].abs();
        for i in j + 1..n {
            sums[i] += a[i + j * n].abs();
            sums[j] += a[i + j * n].abs();
        }
    }
    let (norm, y) = (greatest(sums), times(a, x, n));
    let columns = y.chunks_exact(n).zip(x.chunks_exact(n)).zip(b.chunks_exact(n));
    greatest(columns.map(|((y, x), b)| {
        let part = greatest(y.iter().zip(b).map(|(y, b)| y - b)) / (norm * greatest(x.iter().copied()) + greatest(b.iter().copied()));
        if x.iter().all(|x| x.is_finite()) && part.is_finite() { part } else { f64::INFINITY }
    }))
}

/// The greatest difference over the greatest number of the second; infinity where a number is not finite.
pub fn relative(x: &[f64], y: &[f64]) -> f64 {
    let part = greatest(x.iter().zip(y).map(|(x, y)| x - y)) / greatest(y.iter().copied()).max(f64::MIN_POSITIVE);
    if part.is_nan() { f64::INFINITY } else { part }
}

pub fn lower_entries(a: &[f64], n: usize) -> Vec<f64> {
    (0..n).flat_map(|j| &a[j + j * n..(j + 1) * n]).copied().collect()
}

/// The greatest difference of two factors over the greatest entry.
pub fn apart(x: &[f64], y: &[f64], n: usize) -> f64 {
    relative(&lower_entries(y, n), &lower_entries(x, n))
}

pub fn same_bits(x: &[f64], y: &[f64]) -> bool {
    words(x) == words(y)
}

/// By lower rows.
pub fn shown(a: &[f64], n: usize) -> String {
    let rows: Vec<String> = (0..n).map(|i| (0..=i).map(|j| format!("{:?}", a[i + j * n])).collect::<Vec<_>>().join(" ")).collect();
    format!("[{}]", rows.join(" / "))
}

pub fn shown_record(record: &[u32]) -> String {
    let shown: Vec<String> = pairs(record).map(|p| format!("({},{})", p[0], p[1])).collect();
    let mark = match mark(record) {
        0 => "no mark".into(),
        m => format!("mark {}", m - 1),
    };
    format!("{} {mark}", shown.join(","))
}

pub fn shown_list(list: &List) -> String {
    let numbers: Vec<String> = list.ipiv.iter().map(i32::to_string).collect();
    format!("list {}, INFO {}", numbers.join(" "), list.info)
}

/// Code and place of an answer.
pub fn shown_answer(answer: u64) -> String {
    match answer {
        0 => "0".into(),
        _ => format!("{} at {}", answer >> 12, answer % 4096),
    }
}
