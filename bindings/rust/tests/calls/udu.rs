use crate::numbers::{apart, product, transposed, Numbers};
use urgyelpat::{udu, Refusal, LARGEST, UDU};

#[test]
fn the_last_diagonal_can_be_below_1() {
    let factor = UDU::new(&[49.0], 1).unwrap();
    assert!(factor.u[0] < 1.0);
    assert_eq!(factor.d, [49.0]);
}

/// U·D·Uᵀ.
fn multiplied(u: &[f64], d: &[f64]) -> Vec<f64> {
    let n = d.len();
    let mut ud = u.to_vec();
    for (column, d) in ud.chunks_mut(n).zip(d) {
        column.iter_mut().for_each(|entry| *entry *= d);
    }
    product(&ud, &transposed(u, n), n)
}

#[test]
fn the_factors_multiply_back() {
    for n in 1..=16 {
        let p = Numbers(n as u64).positive(n);
        let factor = UDU::new(&p, n).unwrap();
        assert!(
            apart(&multiplied(&factor.u, &factor.d), &p) < 1e-12 * n as f64,
            "order {n}"
        );
    }
}

/// What a call answers and leaves; all NaNs as one.
fn factored(p: &[f64], n: usize) -> (Option<usize>, Vec<u64>, Vec<u64>) {
    let (mut u, mut d) = (vec![9.0; n * n], vec![9.0; n]);
    let refused = match udu::factor(p, &mut u, &mut d, n) {
        Ok(()) => None,
        Err(Refusal::ZeroDiagonal { column }) => Some(column),
        Err(other) => panic!("{other}"),
    };
    let words = |numbers: Vec<f64>| {
        numbers
            .iter()
            .map(|x| if x.is_nan() { f64::NAN } else { *x }.to_bits())
            .collect()
    };
    (refused, words(u), words(d))
}

/// Rows and columns from m on.
fn block<T: Copy>(a: &[T], n: usize, m: usize) -> Vec<T> {
    (m..n).flat_map(|k| &a[m + k * n..n + k * n]).copied().collect()
}

/// U·D·Uᵀ of small whole numbers, with this D.
fn exact(numbers: &mut Numbers, d: &[f64]) -> Vec<f64> {
    let n = d.len();
    let mut u = vec![0.0; n * n];
    for k in 0..n {
        (0..k).for_each(|i| u[i + k * n] = (2.0 * numbers.next()).round());
        u[k + k * n] = 1.0;
    }
    multiplied(&u, d)
}

#[test]
fn a_block_is_the_tail_of_the_whole() {
    let hard = [
        0.0,
        -0.0,
        1.0,
        -1.0,
        3.0,
        0.1,
        5e-324,
        f64::MAX,
        f64::INFINITY,
        f64::NAN,
    ];
    let (mut accepted, mut before, mut within, mut last) = (0, 0, 0, 0);
    for n in (1..=20).chain([33]) {
        let mut numbers = Numbers(n as u64);
        let mut matrices = vec![numbers.positive(n), numbers.symmetric(n)];
        for _ in 0..8 {
            matrices.push(
                (0..n * n)
                    .map(|_| hard[(5.0 * (1.0 + numbers.next())) as usize % hard.len()])
                    .collect(),
            );
        }
        for zero in 0..n {
            let d: Vec<f64> = (0..n)
                .map(|k| if k == zero { 0.0 } else { 1.0 + (k % 4) as f64 })
                .collect();
            matrices.push(exact(&mut numbers, &d));
        }
        for p in matrices {
            let (refused, u, d) = factored(&p, n);
            for m in 0..n {
                match refused {
                    None => accepted += 1,
                    Some(j) if j < m => before += 1,
                    Some(j) if j + 1 == n => last += 1,
                    Some(_) => within += 1,
                }
                let kept = (refused.and_then(|j| j.checked_sub(m)), block(&u, n, m), d[m..].to_vec());
                assert_eq!(factored(&block(&p, n, m), n - m), kept, "order {n}, from {m} on");
            }
        }
    }
    assert!([accepted, before, within, last].iter().all(|&blocks| blocks > 500));
}

#[test]
fn what_does_not_fit_is_refused() {
    assert_eq!(UDU::new(&[], 0), Err(Refusal::OutOfRange));
    assert_eq!(UDU::new(&[1.0], LARGEST + 1), Err(Refusal::OutOfRange));
    assert_eq!(UDU::new(&[], usize::MAX), Err(Refusal::OutOfRange));
    assert_eq!(UDU::new(&[1.0; 3], 2), Err(Refusal::MatrixLength));
    assert_eq!(
        UDU::new(&[4.0, 0.0, 2.0, 0.0], 2),
        Err(Refusal::ZeroDiagonal { column: 1 })
    );
}
