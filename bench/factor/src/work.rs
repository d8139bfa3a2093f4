//! What is timed.

use std::hint::black_box;

use oracle::call::{Calls, record_length};
use oracle::cases::Rng;
use oracle::linalg::cholesky::Cholesky;
use oracle::linalg::lblt::LBLT;
use oracle::linalg::udu::UDU;
use oracle::text::square;
use oracle::{Dyn, OMatrix};
use port::Port;

use crate::handheld::{self, Column3, Matrix3};
use crate::measure::{Pair, pair, timed, timed_in_place};
use crate::plain;

pub struct Work {
    pub name: &'static str,
    pub measure: fn(n: usize, seconds: f64) -> Pair,
}

pub const WORKS: [Work; 15] = [
    Work { name: "cholesky factor", measure: cholesky },
    Work { name: "lblt factor, random symmetric", measure: |n, s| lblt(n, s, 0.0) },
    Work { name: "lblt factor, heavy diagonal", measure: |n, s| lblt(n, s, n as f64) },
    Work { name: "lblt solve, 1 column", measure: |n, s| solve(n, s, 1) },
    Work { name: "lblt solve, 64 columns", measure: |n, s| solve(n, s, 64) },
    Work { name: "lblt solve_bench, 1 column of 2, against the port's lblt solve", measure: |n, s| bench_solve(n, s, 1, side_by_side) },
    Work { name: "lblt solve_bench, 32 of 64 side by side, against the port's lblt solve", measure: |n, s| bench_solve(n, s, 32, side_by_side) },
    Work { name: "lblt solve_bench, 32 of 64 in turn, against the port's lblt solve", measure: |n, s| bench_solve(n, s, 32, in_turn) },
    Work { name: "cholesky solve, 1 column, against plain Rust", measure: |n, s| cholesky_solve(n, s, 1) },
    Work { name: "cholesky solve, 64 columns, against plain Rust", measure: |n, s| cholesky_solve(n, s, 64) },
    Work { name: "cholesky solve, 1 column, against the port's lblt solve", measure: |n, s| beside_lblt(n, s, 1) },
    Work { name: "cholesky solve, 64 columns, against the port's lblt solve", measure: |n, s| beside_lblt(n, s, 64) },
    Work { name: "lblt l_permuted", measure: l_permuted },
    Work { name: "lblt l_permuted, heavy diagonal", measure: l_permuted_heavy },
    Work { name: "udu factor", measure: udu },
];

/// What has order 3 alone.
pub const OF_ORDER_3: [Work; 2] = [
    Work { name: "handheld factor and solve, random symmetric", measure: |_, s| by_value(s, 0.0) },
    Work { name: "handheld factor and solve, heavy diagonal", measure: |_, s| by_value(s, 3.0) },
];

/// The run number of all records.
const RUN: u32 = 1;

/// Both triangles alike.
fn symmetric(n: usize, on_diagonal: f64) -> Vec<f64> {
    let r = &mut Rng::new(n as u64);
    let mut a = vec![0.0; n * n];
    for j in 0..n {
        for i in j..n {
            let x = r.unit() + if i == j { on_diagonal } else { 0.0 };
            a[i + j * n] = x;
            a[j + i * n] = x;
        }
    }
    a
}

fn copies(a: &[f64], many: usize) -> Vec<Vec<f64>> {
    vec![a.to_vec(); many]
}

fn squares(a: &[f64], n: usize, many: usize) -> Vec<OMatrix<f64, Dyn, Dyn>> {
    vec![square(n, a.to_vec()); many]
}

fn cholesky(n: usize, seconds: f64) -> Pair {
    let a = symmetric(n, n as f64);
    pair(seconds, &mut |many| timed(squares(&a, n, many), Cholesky::new), &mut |many| {
        timed(copies(&a, many), |mut a| {
            black_box(Port.cholesky_factor(&mut a, n, n));
            a
        })
    })
}

fn lblt(n: usize, seconds: f64, on_diagonal: f64) -> Pair {
    let a = symmetric(n, on_diagonal);
    pair(seconds, &mut |many| timed(squares(&a, n, many), LBLT::new), &mut |many| {
        let items = copies(&a, many).into_iter().map(|a| (a, vec![0; record_length(n)])).collect();
        timed(items, |(mut a, mut record)| {
            black_box(Port.lblt_factor(&mut a, &mut record, n, RUN));
            (a, record)
        })
    })
}

/// The factor of a random symmetric matrix, for the text and for the port.
fn factored(n: usize, on_diagonal: f64) -> (LBLT<f64, Dyn>, Vec<f64>, Vec<u32>) {
    let mut a = symmetric(n, on_diagonal);
    let text = LBLT::new(square(n, a.clone()));
    let mut record = vec![0; record_length(n)];
    assert_eq!(Port.lblt_factor(&mut a, &mut record, n, RUN), 0);
    (text, a, record)
}

fn sides(n: usize, columns: usize) -> Vec<f64> {
    let r = &mut Rng::new(columns as u64);
    (0..n * columns).map(|_| r.unit()).collect()
}

fn solve(n: usize, seconds: f64, columns: usize) -> Pair {
    let (text, a, record) = factored(n, 0.0);
    let b = sides(n, columns);
    pair(
        seconds,
        &mut |many| {
            timed_in_place(vec![OMatrix::from_vec(Dyn(n), Dyn(columns), b.clone()); many], |b| {
                black_box(text.solve_mut(b));
            })
        },
        &mut |many| {
            timed_in_place(copies(&b, many), |b| {
                black_box(Port.lblt_solve(&a, &record, b, n, columns, RUN));
            })
        },
    )
}

/// The bench number of a column, of twice `own` columns.
type Benches = fn(column: usize, own: usize) -> u32;

fn side_by_side(column: usize, own: usize) -> u32 {
    if column < own { LEFT } else { RIGHT }
}

fn in_turn(column: usize, _own: usize) -> u32 {
    if column % 2 == 0 { LEFT } else { RIGHT }
}

const LEFT: u32 = 1;
const RIGHT: u32 = 2;

/// A bench's own columns of twice as many, beside the port's solve of as many columns in the same buffer.
fn bench_solve(n: usize, seconds: f64, own: usize, bench: Benches) -> Pair {
    let (_, a, record) = factored(n, 0.0);
    let b = sides(n, 2 * own);
    let benches: Vec<u32> = (0..2 * own).map(|column| bench(column, own)).collect();
    pair(
        seconds,
        &mut |many| {
            timed_in_place(copies(&b, many), |b| {
                black_box(Port.lblt_solve(&a, &record, &mut b[..n * own], n, own, RUN));
            })
        },
        &mut |many| {
            timed_in_place(copies(&b, many), |b| {
                black_box(Port.lblt_solve_bench(&a, &record, b, &benches, n, 2 * own, LEFT, RUN));
            })
        },
    )
}

/// The Cholesky factor of a symmetric matrix with a heavy diagonal.
fn cholesky_factored(n: usize) -> Vec<f64> {
    let mut a = symmetric(n, n as f64);
    assert_eq!(Port.cholesky_factor(&mut a, n, n), 0);
    a
}

fn cholesky_solve(n: usize, seconds: f64, columns: usize) -> Pair {
    let a = cholesky_factored(n);
    let b = sides(n, columns);
    let (mut plain, mut port) = (b.clone(), b.clone());
    plain::cholesky_solve(&a, &mut plain, n, n, columns);
    assert_eq!(Port.cholesky_solve(&a, &mut port, n, n, columns), 0);
    assert_eq!(plain, port);
    pair(seconds, &mut |many| timed_in_place(copies(&b, many), |b| plain::cholesky_solve(black_box(&a), b, n, n, columns)), &mut |many| {
        timed_in_place(copies(&b, many), |b| {
            black_box(Port.cholesky_solve(&a, b, n, n, columns));
        })
    })
}

/// Both solves of one matrix, each by its own factor.
fn beside_lblt(n: usize, seconds: f64, columns: usize) -> Pair {
    let (_, lblt, record) = factored(n, n as f64);
    let a = cholesky_factored(n);
    let b = sides(n, columns);
    pair(
        seconds,
        &mut |many| {
            timed_in_place(copies(&b, many), |b| {
                black_box(Port.lblt_solve(&lblt, &record, b, n, columns, RUN));
            })
        },
        &mut |many| {
            timed_in_place(copies(&b, many), |b| {
                black_box(Port.cholesky_solve(&a, b, n, n, columns));
            })
        },
    )
}

fn l_permuted(n: usize, seconds: f64) -> Pair {
    l_permuted_of(n, seconds, 0.0)
}

fn l_permuted_heavy(n: usize, seconds: f64) -> Pair {
    l_permuted_of(n, seconds, n as f64)
}

fn l_permuted_of(n: usize, seconds: f64, on_diagonal: f64) -> Pair {
    let (text, a, record) = factored(n, on_diagonal);
    pair(seconds, &mut |many| timed(vec![(); many], |()| text.l_permuted()), &mut |many| {
        timed(copies(&vec![0.0; n * n], many), |mut l| {
            black_box(Port.lblt_l_permuted(&a, &record, &mut l, n, RUN));
            l
        })
    })
}

fn udu(n: usize, seconds: f64) -> Pair {
    let p = symmetric(n, n as f64);
    pair(seconds, &mut |many| timed(squares(&p, n, many), UDU::new), &mut |many| {
        let items = vec![(vec![0.0; n * n], vec![0.0; n]); many];
        timed(items, |(mut u, mut d)| {
            black_box(Port.udu_factor(&p, &mut u, &mut d, n));
            (u, d)
        })
    })
}

fn matrix3(a: &[f64]) -> Matrix3 {
    Matrix3 { column: std::array::from_fn(|j| std::array::from_fn(|i| a[i + 3 * j])) }
}

fn side3() -> Column3 {
    Column3 { row: sides(3, 1).try_into().expect("three numbers") }
}

/// A matrix is factored, and one side is solved. The text's side is solved in place.
fn by_value(seconds: f64, on_diagonal: f64) -> Pair {
    let (a, b) = (symmetric(3, on_diagonal), side3());
    pair(
        seconds,
        &mut |many| {
            let sides = vec![OMatrix::from_vec(Dyn(3), Dyn(1), b.row.to_vec()); many];
            timed(squares(&a, 3, many).into_iter().zip(sides).collect(), |(a, mut b)| {
                black_box(LBLT::new(a).solve_mut(&mut b));
                b
            })
        },
        &mut |many| timed(vec![(matrix3(&a), b); many], |(a, b)| handheld::solve(&handheld::factor(a), b)),
    )
}
