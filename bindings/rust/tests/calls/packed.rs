//! The packed layout: its places, its lengths, and matrices to compare the two layouts with.

use crate::numbers::{bits, repeat_row, strange, Numbers};
use std::panic::catch_unwind;
use urgyelpat::packed::{self, length, pack, place, unpack};
use urgyelpat::{Refusal, LARGEST};

/// Orders above the largest, some of them such that n(n + 1)/2 or 2n + 2 would not fit a word.
pub const TOO_LARGE: [usize; 6] = [
    LARGEST + 1,
    1 << 32,
    1 << 33,
    usize::MAX / 2,
    usize::MAX - 1,
    usize::MAX,
];

/// What stands in a slice before a call that may be refused.
pub fn old_numbers(count: usize) -> Vec<f64> {
    strange(count, count)
}

/// A matrix of whole numbers from -2 to 2, in which there are ties, zeros and twins.
fn small_numbers(numbers: &mut Numbers, n: usize) -> Vec<f64> {
    numbers.symmetric(n).iter().map(|x| (2.4 * x).round()).collect()
}

/// Matrices of one order, by their n·n numbers, of which the upper part is to be read by nobody.
pub fn matrices(n: usize) -> Vec<Vec<f64>> {
    let mut numbers = Numbers(n as u64);
    let mut all = vec![vec![0.0; n * n], vec![-0.0; n * n], strange(n * n, n)];
    for seed in 0..4 {
        let symmetric = numbers.symmetric(n);
        let positive = numbers.positive(n);
        all.push(small_numbers(&mut numbers, n));
        if n > 0 {
            // strange numbers in a few places, on a diagonal that should be positive, and a row that came twice
            let (mut few, mut broken, mut twice) = (symmetric.clone(), positive.clone(), positive.clone());
            for _ in 0..=n / 4 {
                few[numbers.below(n * n)] = strange(1, numbers.below(11))[0];
            }
            let row = numbers.below(n);
            broken[row + row * n] = [0.0, -1.0, f64::NAN, f64::INFINITY][seed];
            let q = numbers.below(n);
            repeat_row(&mut twice, n, numbers.below(q + 1), q);
            all.extend([few, broken, twice]);
        }
        all.extend([symmetric, positive]);
    }
    for a in &mut all {
        for at in (0..n * n).filter(|at| at % n < at / n) {
            a[at] = f64::NAN;
        }
    }
    all
}

/// The refusal at a column.
pub type Refuses = fn(usize) -> Refusal;

/// Diagonals that Cholesky turns down where nothing stands left of them, and by which refusal.
pub const TURNED_DOWN: [(f64, Refuses); 5] = [
    (0.0, |column| Refusal::CholeskyZero { column }),
    (-0.0, |column| Refusal::CholeskyZero { column }),
    (-1.0, |column| Refusal::CholeskyBelowZero { column }),
    (f64::NEG_INFINITY, |column| Refusal::CholeskyBelowZero { column }),
    (f64::NAN, |column| Refusal::CholeskyNan { column }),
];

/// A matrix with this diagonal in a row, and zeros left of it.
pub fn turned_down(a: &[f64], n: usize, row: usize, diagonal: f64) -> Vec<f64> {
    let mut broken = a.to_vec();
    for j in 0..row {
        broken[row + j * n] = 0.0;
    }
    broken[row + row * n] = diagonal;
    broken
}

/// All orders up to 24, and 64, each with its matrices.
pub fn every_matrix(mut case: impl FnMut(usize, &[f64])) {
    for n in (0..=24).chain([64]) {
        for a in matrices(n) {
            case(n, &a);
        }
    }
}

#[test]
fn places_go_through_the_columns_from_the_diagonal_down() {
    for n in (0..=24).chain([64, LARGEST]) {
        let mut next = 0;
        for j in 0..n {
            for i in j..n {
                assert_eq!(place(n, i, j), next, "order {n}, entry ({i}, {j})");
                next += 1;
            }
        }
        assert_eq!(length(n), next, "order {n}");
    }
    assert_eq!(length(LARGEST), 524_800);
}

#[test]
fn a_length_that_is_no_word_is_the_largest_word() {
    assert_eq!(length(1 << 31), (1 << 30) * ((1 << 31) + 1));
    assert_eq!(length((1 << 31) + 1), ((1 << 31) + 1) * ((1 << 30) + 1));
    // the square root of 2^65, and its neighbours
    assert_eq!(length(6_074_000_999), 18_446_744_070_963_499_500);
    for n in [6_074_001_000, 6_074_001_001, 1 << 33, usize::MAX - 1, usize::MAX] {
        assert_eq!(length(n), usize::MAX, "order {n}");
    }
}

#[test]
fn an_entry_that_is_not_there_has_no_place() {
    for (n, i, j) in [
        (0, 0, 0),
        (3, 3, 0),
        (3, 3, 3),
        (3, 0, 1),
        (3, 1, 2),
        (3, usize::MAX, 0),
    ] {
        assert!(catch_unwind(|| place(n, i, j)).is_err(), "order {n}, entry ({i}, {j})");
    }
    for n in TOO_LARGE {
        assert!(catch_unwind(|| place(n, 1, 0)).is_err(), "order {n}");
    }
}

#[test]
fn packed_and_unpacked_again_it_is_the_lower_part() {
    every_matrix(|n, a| {
        let packed = pack(a, n).unwrap();
        for j in 0..n {
            for i in j..n {
                assert_eq!(packed[place(n, i, j)].to_bits(), a[i + j * n].to_bits(), "order {n}");
            }
        }
        let full = unpack(&packed, n).unwrap();
        for (at, (entry, kept)) in a.iter().zip(&full).enumerate() {
            let expected = if at % n < at / n { 0 } else { entry.to_bits() };
            assert_eq!(kept.to_bits(), expected, "order {n}");
        }
        assert_eq!(bits(&pack(&full, n).unwrap()), bits(&packed), "order {n}");
    });
}

#[test]
fn a_matrix_of_another_length_is_neither_packed_nor_unpacked() {
    for n in 0..=9 {
        for wrong in (0..=n * n + 2).filter(|&wrong| wrong != n * n) {
            assert_eq!(pack(&old_numbers(wrong), n), Err(Refusal::MatrixLength));
        }
        for wrong in (0..=n * n + 2).filter(|&wrong| wrong != length(n)) {
            assert_eq!(unpack(&old_numbers(wrong), n), Err(Refusal::MatrixLength));
        }
    }
    for n in TOO_LARGE {
        for numbers in 0..=1 {
            assert_eq!(pack(&old_numbers(numbers), n), Err(Refusal::OutOfRange));
            assert_eq!(unpack(&old_numbers(numbers), n), Err(Refusal::OutOfRange));
        }
    }
}

/// The unit matrix, packed.
fn unit(n: usize) -> Vec<f64> {
    (0..n).flat_map(|j| (j..n).map(move |i| f64::from(i == j))).collect()
}

#[test]
fn the_largest_order_is_accepted() {
    let n = LARGEST;
    let (mut a, mut record) = (unit(n), vec![99; 2 * n + 2]);
    assert_eq!(packed::first_twin(&a, n), Ok(None));
    packed::lblt_factor(&mut a, &mut record, n, 7).unwrap();
    assert_eq!(bits(&a), bits(&unit(n)));
    assert_eq!(packed::lblt_determinant(&a, &record, n, 7), Ok(1.0));
    let mut b = vec![2.0; 3 * n];
    packed::lblt_solve(&a, &record, &mut b, n, 3, 7).unwrap();
    packed::cholesky_factor(&mut a, n).unwrap();
    packed::cholesky_solve(&a, &mut b, n, 3).unwrap();
    assert_eq!(b, vec![2.0; 3 * n]);

    let (mut row, mut fresh) = (vec![0.0; n], old_numbers(length(n)));
    row[n - 1] = 1.0;
    packed::cholesky_extend(&unit(n - 1), &row, &mut fresh, n - 1, n).unwrap();
    assert_eq!(bits(&fresh), bits(&unit(n)));
}
