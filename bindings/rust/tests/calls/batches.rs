//! Batches that bring a row which has come already.

use crate::numbers::{bits, repeat_row, rows, Numbers};
use urgyelpat::{first_twin, BatchRefusal, Cholesky, Refusal, Twins};

fn twins(p: usize, q: usize) -> BatchRefusal {
    BatchRefusal::Twins(Twins { p, q })
}

/// A factor that took these rows as one batch.
fn with(batch: &[f64]) -> Cholesky {
    let mut factor = Cholesky::default();
    factor.extend(batch).unwrap();
    factor
}

/// What can be seen of a factor but for its room.
fn seen(factor: &Cholesky) -> (usize, Vec<u64>, u64) {
    (factor.order(), bits(&factor.l()), factor.determinant().to_bits())
}

/// The matrix without row and column q.
fn without_row(a: &[f64], n: usize, q: usize) -> Vec<f64> {
    let left = (0..n * n).filter(|at| at % n != q && at / n != q);
    left.map(|at| a[at]).collect()
}

/// Hands a batch in until it is taken, each told row left out, and gives what was told.
fn extend_dropping(factor: &mut Cholesky, batch: &[f64]) -> Vec<(usize, usize)> {
    let mut batch = batch.to_vec();
    let mut told = vec![];
    while let Err(refusal) = factor.extend(&batch) {
        let BatchRefusal::Twins(Twins { p, q }) = refusal else {
            panic!("{refusal}");
        };
        told.push((p, q));
        batch = factor.batch_without(&batch, q).unwrap();
    }
    told
}

#[test]
fn twins_that_the_factor_hides_are_told() {
    let mut factor = with(&[2.0]);
    assert_eq!(first_twin(&[factor.l()[0], 2.0, 0.0, 2.0], 2, 2), Ok(None));
    assert_eq!(factor.extend(&[2.0, 2.0]), Err(twins(0, 1)));
    assert_eq!(seen(&factor), seen(&with(&[2.0])));

    factor.extend_insisting(&[2.0, 2.0]).unwrap();
    let l = factor.l();
    assert!(0.0 < l[3] && l[3] < 1e-7, "{l:?}");
}

#[test]
fn twins_that_the_factor_would_invent_are_not_told() {
    let mut factor = with(&[4.0]);
    let invented = Some(Twins { p: 0, q: 1 });
    assert_eq!(first_twin(&[factor.l()[0], 2.0, 0.0, 2.0], 2, 2), Ok(invented));
    factor.extend(&[2.0, 2.0]).unwrap();
    assert_eq!(factor.l(), [2.0, 1.0, 0.0, 1.0]);
}

#[test]
fn every_pair_is_told_at_every_cut_and_its_row_can_be_left_out() {
    let n = 6;
    for q in 1..n {
        for p in 0..q {
            let mut a = Numbers((p * n + q) as u64).positive(n);
            repeat_row(&mut a, n, p, q);
            let left = without_row(&a, n, q);
            let whole = seen(&Cholesky::new(left.clone(), n - 1).unwrap());
            assert_eq!(Cholesky::new(a.clone(), n).unwrap_err(), twins(p, q));
            for first in 0..=n {
                for second in first..=n {
                    let mut factor = Cholesky::default();
                    for (from, to) in [(0, first), (first, second), (second, n)] {
                        if to <= q {
                            factor.extend(&rows(&a, n, from, to)).unwrap();
                        } else if from <= q {
                            let before = seen(&factor);
                            let batch = rows(&a, n, from, to);
                            assert_eq!(factor.extend(&batch), Err(twins(p, q)));
                            assert_eq!(seen(&factor), before);
                            let shorter = factor.batch_without(&batch, q).unwrap();
                            assert_eq!(bits(&shorter), bits(&rows(&left, n - 1, from, to - 1)));
                            factor.extend(&shorter).unwrap();
                        } else {
                            factor.extend(&rows(&left, n - 1, from - 1, to - 1)).unwrap();
                        }
                    }
                    assert_eq!(seen(&factor), whole);
                }
            }
        }
    }
}

#[test]
fn a_batch_that_came_twice_is_left_out_row_by_row() {
    let (n, sent) = (9, 3);
    let mut a = Numbers(5).positive(n);
    for row in 0..sent {
        repeat_row(&mut a, n, 2 + row, 5 + row);
    }
    let mut factor = with(&rows(&a, n, 0, 5));
    let before = seen(&factor);
    assert_eq!(
        extend_dropping(&mut factor, &rows(&a, n, 5, 8)),
        [(2, 5), (3, 5), (4, 5)]
    );
    assert_eq!(seen(&factor), before);

    // the same three, and one that is new behind them
    assert_eq!(
        extend_dropping(&mut factor, &rows(&a, n, 5, 9)),
        [(2, 5), (3, 5), (4, 5)]
    );
    let left = (0..sent).fold((a, n), |(a, n), _| (without_row(&a, n, 5), n - 1));
    assert_eq!(seen(&factor), seen(&Cholesky::new(left.0, left.1).unwrap()));
}

#[test]
fn a_pair_that_was_insisted_on_is_not_told_again() {
    let mut factor = with(&[2.0]);
    assert_eq!(factor.extend(&[2.0, 2.0]), Err(twins(0, 1)));
    factor.extend_insisting(&[2.0, 2.0]).unwrap();
    factor.extend(&[]).unwrap();
    factor.extend(&[1.0, 1.0, 3.0]).unwrap();
    assert_eq!(factor.order(), 3);
    assert_eq!(factor.extend(&[2.0, 2.0, 1.0, 2.0]), Err(twins(0, 3)));
    assert_eq!(factor.extend(&[1.0, 1.0, 3.0, 3.0]), Err(twins(2, 3)));

    let mut whole = Cholesky::new_insisting(vec![2.0, 2.0, 0.0, 2.0], 2).unwrap();
    whole.extend(&[1.0, 1.0, 3.0]).unwrap();
    assert_eq!(seen(&whole), seen(&factor));
}

#[test]
fn insisted_batches_at_every_cut_give_what_one_call_gives() {
    let n = 5;
    let mut a = Numbers(3).positive(n);
    for k in 0..=3 {
        a[3 + k * n] = if k < 3 { 0.0 } else { 2.0 };
    }
    repeat_row(&mut a, n, 3, 4);
    let whole = Cholesky::new_insisting(a.clone(), n).unwrap();
    assert_eq!(Cholesky::new(a.clone(), n).unwrap_err(), twins(3, 4));
    for cut in 0..=n {
        let mut grown = Cholesky::default();
        grown.extend_insisting(&rows(&a, n, 0, cut)).unwrap();
        grown.extend_insisting(&rows(&a, n, cut, n)).unwrap();
        assert_eq!(seen(&grown), seen(&whole));
    }
}

#[test]
fn nan_is_nan_and_the_zeros_are_two() {
    let nan = Refusal::CholeskyNan { column: 0 };
    let batch = [f64::NAN, -f64::NAN, f64::from_bits(0x7ff0_0000_0000_0001)];
    assert_eq!(Cholesky::default().extend(&batch), Err(twins(0, 1)));
    assert_eq!(Cholesky::default().extend_insisting(&batch), Err(nan));
    let apart = [f64::NAN, f64::NAN, 1.0];
    assert_eq!(Cholesky::default().extend(&apart), Err(BatchRefusal::Refused(nan)));

    assert_eq!(with(&[4.0, 0.0, 2.0]).extend(&[0.0, 2.0, 2.0]), Err(twins(1, 2)));
    assert_eq!(with(&[4.0, 0.0, 2.0]).extend(&[-0.0, 2.0, 2.0]), Ok(()));
}

#[test]
fn rows_are_kept_whichever_call_took_them() {
    let n = 5;
    for p in 0..n - 1 {
        let mut a = Numbers(p as u64).positive(n);
        repeat_row(&mut a, n, p, n - 1);
        let first = without_row(&a, n, n - 1);
        let mut insisted = Cholesky::with_room(n).unwrap();
        insisted.extend_insisting(&rows(&a, n, 0, n - 1)).unwrap();
        for mut factor in [
            Cholesky::new(first.clone(), n - 1).unwrap(),
            Cholesky::new_insisting(first, n - 1).unwrap(),
            insisted,
        ] {
            assert_eq!(factor.extend(&rows(&a, n, n - 1, n)), Err(twins(p, n - 1)));
        }
    }
}

#[test]
fn rows_of_a_refused_batch_are_not_kept() {
    let mut factor = with(&[4.0]);
    let below_zero = BatchRefusal::Refused(Refusal::CholeskyBelowZero { column: 2 });
    assert_eq!(factor.extend(&[2.0, 5.0, 1.0, 1.0, -1.0]), Err(below_zero));
    assert_eq!(factor.extend(&[2.0, 5.0, 2.0, 5.0, 5.0]), Err(twins(1, 2)));
    factor.extend(&[2.0, 5.0]).unwrap();
    assert_eq!(seen(&factor), seen(&with(&[4.0, 2.0, 5.0])));
    assert_eq!(factor.extend(&[2.0, 5.0, 5.0]), Err(twins(1, 2)));
}

#[test]
fn rows_move_with_the_factor_into_a_larger_room() {
    let n = 9;
    let a = Numbers(9).positive(n);
    let mut factor = Cholesky::with_room(2).unwrap();
    let mut rooms = vec![factor.room()];
    for i in 0..n {
        // each earlier row once more
        for p in 0..i {
            let mut again = a.clone();
            repeat_row(&mut again, n, p, i);
            assert_eq!(factor.extend(&rows(&again, n, i, i + 1)), Err(twins(p, i)));
        }
        factor.extend(&rows(&a, n, i, i + 1)).unwrap();
        rooms.push(factor.room());
    }
    rooms.dedup();
    assert_eq!(rooms, [2, 4, 8, 16]);
    assert_eq!(seen(&factor), seen(&Cholesky::new(a, n).unwrap()));
}

#[test]
fn a_row_that_is_not_in_the_batch_cannot_be_left_out() {
    let factor = with(&[4.0, 2.0, 5.0]);
    let batch = [6.0, 5.0, 14.0, 1.0, 2.0, 3.0, 9.0]; // rows 2 and 3
    assert_eq!(factor.batch_without(&batch, 2).unwrap(), [1.0, 2.0, 9.0]);
    assert_eq!(factor.batch_without(&batch, 3).unwrap(), [6.0, 5.0, 14.0]);
    for q in [0, 1, 4, usize::MAX] {
        assert_eq!(factor.batch_without(&batch, q), Err(Refusal::SliceLength));
    }
    assert_eq!(factor.batch_without(&[], 2), Err(Refusal::SliceLength));
}

#[test]
fn the_refusal_says_which_rows_and_what_to_do() {
    let told: Box<dyn std::error::Error> = Box::new(twins(3, 8));
    let sentence = told.to_string();
    for part in ["row 3", "row 8", "came twice", "Leave row 8 out", "insist"] {
        assert!(sentence.contains(part), "{sentence}");
    }
    let refusal = Refusal::CholeskyNan { column: 4 };
    assert_eq!(BatchRefusal::from(refusal), BatchRefusal::Refused(refusal));
    assert_eq!(BatchRefusal::Refused(refusal).to_string(), refusal.to_string());
}
