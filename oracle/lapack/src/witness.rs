//! `dsytf2` and `dpotf2` beside the text, on well-scaled random matrices, and on the small inputs where they differ by what they are.

use oracle::call::{Call, Calls, Case, pairs, record_length};
use oracle::cases::Rng;
use oracle::text::Text;

use crate::fortran::{Uplo::Lower, dpotf2, dsytf2};
use crate::lists::{RUN, read};
use crate::matrix::{apart, lower, placed, same_bits, shown, shown_answer, shown_record};

fn random(r: &mut Rng, n: usize, on_diagonal: f64) -> Vec<f64> {
    lower(n, |i, j| r.unit() + if i == j { on_diagonal } else { 0.0 })
}

pub fn symmetric(ours: &dyn Calls, matrices: u64, first: u64) -> bool {
    let (mut same, mut equal, mut twos, mut rows, mut worst) = (0, 0, 0, 0, 0.0f64);
    for seed in first..first + matrices {
        let r = &mut Rng::new(seed);
        let n = 1 + r.below(64);
        let a = random(r, n, 0.0);
        let (mut text, mut record) = (a.clone(), vec![0; record_length(n)]);
        Text.lblt_factor(&mut text, &mut record, n, RUN);
        let mut other = a.clone();
        rows += n;
        twos += pairs(&record).filter(|pair| pair[1] == 2).count() / 2;
        if read(ours, &dsytf2(Lower, &mut other, n, n)).as_ref() == Ok(&record) {
            same += 1;
            worst = worst.max(apart(&text, &other, n));
            equal += same_bits(&text, &other) as u64;
        } else {
            println!("! other pivots: seed {seed}, order {n}");
        }
    }
    println!(
        "dsytf2: {matrices} matrices of orders 1 to 64, {rows} rows, {twos} blocks of size 2: the same pivots and mark in {same}; \
         factors apart by at most {worst:.1e} of the greatest entry, equal bits in {equal}"
    );
    same == matrices
}

pub fn definite(matrices: u64, first: u64) -> bool {
    let (mut same, mut equal, mut refused, mut worst) = (0, 0, 0, 0.0f64);
    for seed in first..first + matrices {
        let r = &mut Rng::new(seed);
        let n = 1 + r.below(64);
        // the smaller diagonals are refused somewhere
        let on_diagonal = r.pick(&[n as f64, (n as f64).sqrt(), 1.0]);
        let a = random(r, n, on_diagonal);
        let mut text = a.clone();
        let answer = Text.cholesky_factor(&mut text, n, n);
        let mut other = a.clone();
        let info = dpotf2(&mut other, n);
        // INFO names the row alone, from 1
        let wanted = if answer == 0 { 0 } else { answer as usize % 4096 + 1 };
        refused += (wanted != 0) as u64;
        if info == wanted {
            same += 1;
            if info == 0 {
                worst = worst.max(apart(&text, &other, n));
                equal += same_bits(&text, &other) as u64;
            }
        } else {
            println!("! other answer: seed {seed}, order {n}: {wanted} and {info}");
        }
    }
    println!(
        "dpotf2: {matrices} matrices of orders 1 to 64: the same answer in {same} ({refused} refused, at the same row); \
         factors apart by at most {worst:.1e} of the greatest entry, equal bits in {equal}"
    );
    same == matrices
}

const NAN: f64 = f64::NAN;

/// Whether every list was read.
pub fn small(ours: &dyn Calls) -> bool {
    println!("small inputs by lower rows; factor by lower rows, pivots, mark");
    let (far, near) = (f64::from_bits((1023 + 600) << 52), f64::from_bits((1023 - 600) << 52));
    #[rustfmt::skip]
    let lblt: [(&str, &[f64]); 12] = [
        ("a NaN diagonal", &[NAN, 1.0, 2.0]),
        ("a NaN first below a zero diagonal", &[0.0, NAN, 5.0]),
        ("a NaN first below another diagonal", &[1.0, NAN, 5.0]),
        ("a NaN on the candidate's diagonal", &[0.0, 1.0, NAN]),
        ("a NaN in the candidate's row", &[0.5, 1.0, 1.0, 0.0, NAN, 1.0]),
        ("a zero multiplier and -0", &[-1.0, 0.0, -0.0]),
        ("a zero multiplier and an infinite inverse", &[5e-324, 0.0, 2.0]),
        ("a zero multiplier and NaN", &[1.0, 0.0, 2.0, NAN, 3.0, 4.0]),
        ("the order of the products, size 1", &[0.0, 0.0, 0.0, 3.0, 5.0, 7.0]),
        ("the same, and the mark with it", &[0.0, 0.0, 0.0, 3.0, 5.0, 5.0]),
        ("a ratio that underflows", &[0.0, near, 0.0, 0.0, far, 0.0]),
        ("the order of the products, size 2", &[1.0, 0.0, 0.0, 3.0, 5.0, 3.0]),
    ];
    let mut held = true;
    for (what, lower) in lblt {
        let (a, n) = placed(lower);
        let (mut text, mut record) = (a.clone(), vec![0; record_length(n)]);
        Text.lblt_factor(&mut text, &mut record, n, RUN);
        let mut other = a.clone();
        let pivots = match read(ours, &dsytf2(Lower, &mut other, n, n)) {
            Ok(record) => shown_record(&record),
            Err(refused) => {
                held = false;
                format!("! its list is refused: {}", shown_answer(refused))
            }
        };
        println!("{what}: {}", shown(&a, n));
        println!("  text   {} {}", shown(&text, n), shown_record(&record));
        println!("  dsytf2 {} {pivots}", shown(&other, n));
    }
    #[rustfmt::skip]
    let cholesky: [(&str, &[f64]); 4] = [
        ("division, and product with the inverse", &[9.0, 5.0, 9.0]),
        ("the sum of the products", &[1.0, 0.0, 1.0, 0.1, 0.1, 2.2]),
        ("the same, and the answer with it", &[1.0, 0.0, 1.0, 0.3, 0.1, 0.1]),
        ("a refused column", &[1.0, 2.0, 1.0, 3.0, 4.0, 1.0]),
    ];
    for (what, lower) in cholesky {
        let (a, n) = placed(lower);
        let case = Case { x: n, ..Case::new(Call::CholeskyFactor, n, a.clone()) };
        let mut text = case.clone();
        let (answer, _) = text.run_in_place(&Text);
        let mut other = a.clone();
        let info = dpotf2(&mut other, n);
        println!("{what}: {}", shown(&a, n));
        println!("  text   {} answer {answer}", shown(&text.a, n));
        println!("  dpotf2 {} INFO {info}", shown(&other, n));
    }
    held
}
