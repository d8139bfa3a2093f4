//! How often the factors notice a row that came twice: random symmetric positive matrices with one row and column repeated.
//!
//! `twins [MATRICES [FIRST SEED]]` prints, for each order, the share that each factor refuses or marks, Cholesky's also by code.

use std::collections::BTreeMap;

use oracle::call::Calls;
use oracle::cases::Rng;
use oracle::linalg::lblt::LBLT;
use oracle::linalg::lblt::parts::apart;
use oracle::linalg::udu::UDU;
use oracle::text::{Text, square};

/// G·Gᵀ of order n − 1, G with two columns more than rows and entries in −1..1; then row and column `from` again, at the place `to` behind it.
fn twin_matrix(r: &mut Rng, n: usize) -> Vec<f64> {
    let m = n - 1;
    let wide = m + 2;
    let g: Vec<f64> = (0..m * wide).map(|_| 2.0 * r.unit() - 1.0).collect();
    let from = r.below(m);
    let to = from + 1 + r.below(m - from);
    let source = |i: usize| {
        if i < to {
            i
        } else if i == to {
            from
        } else {
            i - 1
        }
    };
    let mut a = vec![0.0; n * n];
    for j in 0..n {
        for i in 0..n {
            let (p, q) = (source(i).max(source(j)), source(i).min(source(j)));
            a[i + j * n] = (0..wide).map(|k| g[p + k * m] * g[q + k * m]).sum();
        }
    }
    a
}

fn main() {
    let mut words = std::env::args().skip(1).map(|w| w.parse::<u64>().expect("a number"));
    let (matrices, first) = (words.next().unwrap_or(10_000), words.next().unwrap_or(1));
    println!("{matrices} matrices of each order, seeds from {first}");
    println!("order  Cholesky refuses      by 7     by 10     by 11  UDU refuses  LBLT marks");
    for n in [2, 4, 8, 16, 32] {
        let mut cholesky = BTreeMap::<u64, u64>::new();
        let [mut udu, mut lblt] = [0u64; 2];
        for seed in first..first + matrices {
            let a = twin_matrix(&mut Rng::new(seed), n);
            *cholesky.entry(Text.cholesky_factor(&mut a.clone(), n, n) / 4096).or_default() += 1;
            udu += UDU::new(square(n, a.clone())).is_none() as u64;
            lblt += apart(LBLT::new(square(n, a))).2.is_some() as u64;
        }
        let share = |c: u64| 100.0 * c as f64 / matrices as f64;
        let by = |code| cholesky.get(&code).copied().unwrap_or(0);
        println!(
            "{n:5}  {:15.1}%  {:7.1}%  {:7.1}%  {:7.1}%  {:10.1}%  {:9.1}%",
            share(matrices - by(0)),
            share(by(7)),
            share(by(10)),
            share(by(11)),
            share(udu),
            share(lblt)
        );
    }
}
