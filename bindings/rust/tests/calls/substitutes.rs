//! The Cholesky that grows by batches, with a substitute for diagonals that fail: what it takes and counts, the twins that it
//! tells before, and what a refusal leaves.

use crate::floored::{floors, FAILING, PASSING};
use crate::numbers::{apart, one_nan, product, repeat_row, rows, transposed, Numbers};
use crate::packed::{every_matrix, matrices, turned_down, TURNED_DOWN};
use crate::packed_cholesky::cuts;
use urgyelpat::{cholesky, first_twin, first_twin_since, BatchRefusal, Cholesky, Refusal, Twins, LARGEST};

fn twins(p: usize, q: usize) -> BatchRefusal {
    BatchRefusal::Twins(Twins { p, q })
}

/// What can be seen of a factor but for its room: its order, the columns that used a substitute, itself, its determinant and a
/// solution.
fn seen(factor: &Cholesky) -> (usize, usize, Vec<u64>, Vec<u64>) {
    let n = factor.order();
    let sides: Vec<f64> = (0..2 * n).map(|row| row as f64 - 1.5).collect();
    let numbers = [factor.solve(&sides).unwrap(), vec![factor.determinant()]].concat();
    (n, factor.substituted(), one_nan(&factor.l()), one_nan(&numbers))
}

/// A matrix all of whose diagonals fail.
fn negative(seed: u64, n: usize) -> Vec<f64> {
    Numbers(seed).positive(n).iter().map(|entry| -entry).collect()
}

#[test]
fn a_whole_matrix_is_factored_as_by_the_call_with_a_floor() {
    let (mut counted, mut told) = (0, 0);
    every_matrix(|n, a| {
        for substitute in floors() {
            let mut factored = a.to_vec();
            let answer = cholesky::factor_floored(&mut factored, n, n, substitute);
            let insisted = Cholesky::new_insisting_with_substitute(a.to_vec(), n, substitute);
            match (&insisted, answer) {
                (Ok(factor), Ok(count)) => {
                    assert_eq!((factor.order(), factor.room()), (n, n));
                    assert_eq!(factor.substituted(), count);
                    assert_eq!(one_nan(&rows(&factor.l(), n, 0, n)), one_nan(&rows(&factored, n, 0, n)));
                    counted += count;
                }
                (Err(refusal), Err(by_call)) => assert_eq!(*refusal, by_call),
                other => panic!("order {n}, substitute {substitute:e}: {other:?}"),
            }

            let asked = Cholesky::new_with_substitute(a.to_vec(), n, substitute);
            match first_twin(a, n, n).unwrap() {
                Some(pair) => {
                    assert_eq!(asked.unwrap_err(), BatchRefusal::Twins(pair));
                    told += 1;
                }
                None => assert_eq!(
                    asked.as_ref().map(seen).map_err(|&refusal| refusal),
                    insisted.as_ref().map(seen).map_err(|&refusal| refusal.into()),
                ),
            }
        }
    });
    assert!(counted > 5000 && told > 500, "{counted}, {told}");
}

#[test]
fn where_no_diagonal_fails_every_substitute_gives_the_factor_of_new() {
    for n in 0..=12 {
        let a = Numbers(n as u64).positive(n);
        let whole = seen(&Cholesky::new(a.clone(), n).unwrap());
        assert_eq!(whole.1, 0);
        for substitute in floors() {
            let factor = Cholesky::new_with_substitute(a.clone(), n, substitute).unwrap();
            assert_eq!(seen(&factor), whole, "substitute {substitute:e}");
            let mut grown = Cholesky::default();
            for row in 0..n {
                let batch = rows(&a, n, row, row + 1);
                assert_eq!(grown.extend_with_substitute(&batch, substitute), Ok(0));
            }
            assert_eq!(seen(&grown), whole, "substitute {substitute:e}");
        }
    }
}

/// Hands the rows of a matrix in by batches that end at these orders, insisting on twins or not, until one is refused, which
/// changes nothing. Twins that a batch brings are told, whatever the substitute, unless they are insisted on.
fn grown(a: &[f64], n: usize, ends: &[usize], substitute: f64, insisting: bool) -> Result<Cholesky, BatchRefusal> {
    let case = format!("ends {ends:?}, substitute {substitute:e}");
    let mut factor = Cholesky::default();
    for &end in ends {
        let (order, before) = (factor.order(), seen(&factor));
        let batch = rows(a, n, order, end);
        let (answer, pair) = if insisting {
            let answer = factor.extend_insisting_with_substitute(&batch, substitute);
            (answer.map_err(BatchRefusal::Refused), None)
        } else {
            let answer = factor.extend_with_substitute(&batch, substitute);
            (answer, first_twin_since(a, n, order, end).unwrap())
        };
        if let Some(pair) = pair {
            assert_eq!(answer, Err(BatchRefusal::Twins(pair)), "{case}");
        }
        match answer {
            Ok(count) => {
                assert_eq!(factor.order(), end, "{case}");
                assert_eq!(factor.substituted(), before.1 + count, "{case}");
            }
            Err(refusal) => {
                assert_eq!(matches!(refusal, BatchRefusal::Twins(_)), pair.is_some(), "{case}");
                assert_eq!(seen(&factor), before, "{case}");
                return Err(refusal);
            }
        }
    }
    Ok(factor)
}

#[test]
fn batches_at_every_cut_give_what_one_call_gives_with_twins_or_without() {
    let (mut counted, mut told, mut refused) = (0, 0, 0);
    for n in 0..=5 {
        for a in matrices(n) {
            for substitute in floors() {
                let whole = Cholesky::new_insisting_with_substitute(a.clone(), n, substitute);
                let whole = whole.as_ref().map(seen).map_err(|&refusal| refusal.into());
                for ends in cuts(n) {
                    let insisted = grown(&a, n, &ends, substitute, true);
                    assert_eq!(insisted.as_ref().map(seen).map_err(|&refusal| refusal), whole);
                    let asked = grown(&a, n, &ends, substitute, false);
                    if let Err(BatchRefusal::Twins(_)) = asked {
                        told += 1;
                        continue;
                    }
                    assert_eq!(asked.as_ref().map(seen).map_err(|&refusal| refusal), whole);
                    match asked {
                        Ok(factor) => counted += factor.substituted(),
                        Err(_) => refused += 1,
                    }
                }
            }
        }
    }
    assert!(
        counted > 5000 && told > 500 && refused > 500,
        "{counted}, {told}, {refused}"
    );
}

#[test]
fn every_pair_is_told_at_every_cut_whatever_the_substitute() {
    let n = 6;
    for q in 1..n {
        for p in 0..q {
            let mut a = Numbers((p * n + q) as u64).positive(n);
            repeat_row(&mut a, n, p, q);
            for substitute in floors() {
                let whole = Cholesky::new_with_substitute(a.clone(), n, substitute);
                assert_eq!(whole.unwrap_err(), twins(p, q));
                for earlier in 0..=q {
                    let mut factor = Cholesky::default();
                    factor.extend(&rows(&a, n, 0, earlier)).unwrap();
                    let before = seen(&factor);
                    let batch = rows(&a, n, earlier, n);
                    assert_eq!(factor.extend_with_substitute(&batch, substitute), Err(twins(p, q)));
                    assert_eq!(seen(&factor), before);
                    let shorter = factor.batch_without(&batch, q).unwrap();
                    assert_eq!(factor.extend_with_substitute(&shorter, substitute), Ok(0));
                }
            }
        }
    }
}

#[test]
fn twins_that_were_insisted_on_are_let_through_and_not_told_again() {
    for substitute in PASSING {
        let mut factor = Cholesky::default();
        assert_eq!(factor.extend_with_substitute(&[1.0], substitute), Ok(0));
        assert_eq!(factor.extend_with_substitute(&[1.0, 1.0], substitute), Err(twins(0, 1)));
        assert_eq!(factor.extend_insisting_with_substitute(&[1.0, 1.0], substitute), Ok(1));
        assert_eq!(factor.substituted(), 1);
        let row = [1e-300, 1e-300, 3.0];
        assert_eq!(factor.extend_with_substitute(&row, substitute), Ok(0), "{substitute:e}");
        let again = [&row[..], &[3.0]].concat();
        assert_eq!(factor.extend_with_substitute(&again, substitute), Err(twins(2, 3)));
        assert_eq!(factor.extend(&again), Err(twins(2, 3)));
        assert_eq!((factor.order(), factor.substituted()), (3, 1));
    }
}

#[test]
fn rows_are_kept_whichever_call_took_them() {
    let n = 5;
    for p in 0..n - 1 {
        let mut a = negative(p as u64, n);
        repeat_row(&mut a, n, p, n - 1);
        let first: Vec<f64> = (0..(n - 1) * (n - 1))
            .map(|at| a[at % (n - 1) + at / (n - 1) * n])
            .collect();
        let batch = rows(&a, n, 0, n - 1);
        let mut asked = Cholesky::with_room(2).unwrap();
        assert_eq!(asked.extend_with_substitute(&batch, 4.0), Ok(n - 1));
        let mut insisted = Cholesky::default();
        assert_eq!(insisted.extend_insisting_with_substitute(&batch, 4.0), Ok(n - 1));
        for mut factor in [
            Cholesky::new_with_substitute(first.clone(), n - 1, 4.0).unwrap(),
            Cholesky::new_insisting_with_substitute(first, n - 1, 4.0).unwrap(),
            asked,
            insisted,
        ] {
            assert_eq!(seen(&factor).1, n - 1);
            let again = rows(&a, n, n - 1, n);
            assert_eq!(factor.extend(&again), Err(twins(p, n - 1)));
            assert_eq!(factor.extend_with_substitute(&again, 4.0), Err(twins(p, n - 1)));
            assert_eq!(factor.extend_insisting_with_substitute(&again, 4.0), Ok(1));
            assert_eq!(factor.substituted(), n);
        }
    }
}

#[test]
fn a_refused_batch_leaves_all_as_it_was_and_another_may_follow() {
    let n = 6;
    for earlier in 0..n {
        // the rows before the batch take a substitute, and those of the batch pass
        let mut a = Numbers(6).positive(n);
        for row in 0..earlier {
            a[row + row * n] *= -1.0;
        }
        let mut factor = Cholesky::default();
        assert_eq!(
            factor.extend_with_substitute(&rows(&a, n, 0, earlier), 9.0),
            Ok(earlier)
        );
        let before = seen(&factor);
        let batch = rows(&a, n, earlier, n);
        for row in earlier..n {
            for (diagonal, refusal) in TURNED_DOWN {
                let refused = refusal(row);
                let batch = rows(&turned_down(&a, n, row, diagonal), n, earlier, n);
                for substitute in FAILING {
                    let answer = factor.extend_with_substitute(&batch, substitute);
                    assert_eq!(answer, Err(BatchRefusal::Refused(refused)), "{earlier}, {row}");
                    assert_eq!(seen(&factor), before);
                    let answer = factor.extend_insisting_with_substitute(&batch, substitute);
                    assert_eq!(answer, Err(refused), "{earlier}, {row}");
                    assert_eq!(seen(&factor), before);
                }
                assert_eq!(factor.extend(&batch), Err(BatchRefusal::Refused(refused)));
                assert_eq!(factor.extend_insisting(&batch), Err(refused));
                assert_eq!(seen(&factor), before);
            }
        }
        // a number too few, and one too many
        for broken in [&batch[1..], &[&batch[..], &[1.0]].concat()] {
            let refused = Refusal::SliceLength;
            let answer = factor.extend_with_substitute(broken, 9.0);
            assert_eq!(answer, Err(BatchRefusal::Refused(refused)));
            assert_eq!(factor.extend_insisting_with_substitute(broken, 9.0), Err(refused));
            assert_eq!(seen(&factor), before);
        }
        // the rows that stand are asked as before, and those of a refused batch are not
        for p in 0..earlier {
            let mut again = a.clone();
            repeat_row(&mut again, n, p, earlier);
            let batch = rows(&again, n, earlier, n);
            assert_eq!(factor.extend_with_substitute(&batch, 9.0), Err(twins(p, earlier)));
            assert_eq!(seen(&factor), before);
        }
        assert_eq!(factor.extend_with_substitute(&batch, 9.0), Ok(0));
        let whole = Cholesky::new_with_substitute(a, n, 9.0).unwrap();
        assert_eq!(seen(&factor), seen(&whole));
        assert_eq!(whole.substituted(), earlier);
    }
}

#[test]
fn rows_and_count_move_with_the_factor_into_a_larger_room() {
    let n = 9;
    let a = negative(9, n);
    let mut factor = Cholesky::with_room(2).unwrap();
    assert_eq!(factor.substituted(), 0);
    let mut rooms = vec![factor.room()];
    for row in 0..n {
        for p in 0..row {
            let mut again = a.clone();
            repeat_row(&mut again, n, p, row);
            let batch = rows(&again, n, row, row + 1);
            assert_eq!(factor.extend_with_substitute(&batch, 4.0), Err(twins(p, row)));
        }
        assert_eq!(factor.extend_with_substitute(&rows(&a, n, row, row + 1), 4.0), Ok(1));
        assert_eq!((factor.order(), factor.substituted()), (row + 1, row + 1));
        rooms.push(factor.room());
    }
    rooms.dedup();
    assert_eq!(rooms, [2, 4, 8, 16]);
    let whole = Cholesky::new_with_substitute(a, n, 4.0).unwrap();
    assert_eq!(seen(&factor), seen(&whole));
    assert_eq!(seen(&factor.clone()), seen(&whole));
    assert_eq!(one_nan(&factor.unpack()), one_nan(&whole.unpack()));
}

#[test]
fn batches_with_a_substitute_and_without_one_stand_beside_each_other() {
    let n = 5;
    for row in 0..n {
        for (diagonal, refusal) in TURNED_DOWN {
            let a = turned_down(&Numbers(row as u64).positive(n), n, row, diagonal);
            let whole = Cholesky::new_with_substitute(a.clone(), n, 4.0).unwrap();
            assert_eq!(whole.substituted(), 1);
            let mut factor = Cholesky::default();
            for i in 0..n {
                let batch = rows(&a, n, i, i + 1);
                if i == row {
                    assert_eq!(factor.extend(&batch), Err(BatchRefusal::Refused(refusal(row))));
                    assert_eq!(factor.extend_with_substitute(&batch, 4.0), Ok(1));
                } else if i % 2 == 0 {
                    factor.extend(&batch).unwrap();
                } else {
                    factor.extend_insisting(&batch).unwrap();
                }
                assert_eq!(factor.substituted(), usize::from(row <= i));
            }
            assert_eq!(seen(&factor), seen(&whole));
        }
    }
}

#[test]
fn each_batch_may_have_a_substitute_of_its_own() {
    let mut factor = Cholesky::new_with_substitute(vec![-1.0], 1, 4.0).unwrap();
    assert_eq!(factor.extend_with_substitute(&[0.0, -2.0], 9.0), Ok(1));
    assert_eq!(factor.extend_insisting_with_substitute(&[6.0, 3.0, 1.0], 0.25), Ok(1));
    let one_more = [0.0, 0.0, 1.0, f64::NAN];
    let nan = Refusal::CholeskyNan { column: 3 };
    assert_eq!(
        factor.extend_with_substitute(&one_more, f64::NAN),
        Err(BatchRefusal::Refused(nan))
    );
    assert_eq!(factor.l(), [2.0, 0.0, 3.0, 0.0, 3.0, 1.0, 0.0, 0.0, 0.5]);
    assert_eq!(factor.substituted(), 3);
}

#[test]
fn what_is_solved_is_the_other_matrix() {
    // the lower rows 1 / 2 1, factored as 1 / 2 8
    let factor = Cholesky::new_with_substitute(vec![1.0, 2.0, 7.0, 1.0], 2, 4.0).unwrap();
    assert_eq!(factor.solve(&[3.0, 10.0]), Ok(vec![1.0, 1.0]));
    assert_eq!(factor.determinant(), 4.0);

    // multiplied back it is the matrix with a larger diagonal where a substitute was used
    for n in 1..=24 {
        let mut numbers = Numbers(n as u64);
        let mut a = numbers.positive(n);
        for i in (0..n).step_by(1 + numbers.below(3)) {
            a[i + i * n] *= -1.0;
        }
        let substitute = n as f64;
        let factor = Cholesky::new_with_substitute(a.clone(), n, substitute).unwrap();
        let l = factor.l();
        let mut raised = product(&l, &transposed(&l, n), n);
        let mut columns = 0;
        for i in 0..n {
            if raised[i + i * n] - a[i + i * n] > substitute {
                raised[i + i * n] = a[i + i * n];
                columns += 1;
            }
        }
        assert!(apart(&raised, &a) < 1e-12 * n as f64, "order {n}");
        assert_eq!(factor.substituted(), columns, "order {n}");
        assert!(columns >= n / 3, "order {n}");
    }
}

#[test]
fn nan_in_a_row_stays_in_the_factor_and_is_counted() {
    let n = 4;
    for row in 0..n {
        for column in 0..=row {
            let mut a = Numbers(4).positive(n);
            a[row + column * n] = f64::NAN;
            let factor = Cholesky::new_with_substitute(a, n, 4.0).unwrap();
            assert!(factor.substituted() > 0, "({row}, {column})");
            let l = factor.l();
            assert_eq!(l.iter().any(|entry| entry.is_nan()), column < row, "({row}, {column})");
            assert_eq!(l[row + row * n], 2.0, "({row}, {column})");
        }
    }
}

#[test]
fn calls_without_a_substitute_count_nothing() {
    let a = Numbers(5).positive(5);
    let mut grown = Cholesky::with_room(3).unwrap();
    grown.extend(&rows(&a, 5, 0, 2)).unwrap();
    grown.extend_insisting(&rows(&a, 5, 2, 5)).unwrap();
    for factor in [
        grown,
        Cholesky::default(),
        Cholesky::new(a.clone(), 5).unwrap(),
        Cholesky::new_insisting(a, 5).unwrap(),
        Cholesky::new_insisting(vec![2.0, 2.0, 0.0, 2.0], 2).unwrap(),
    ] {
        assert_eq!(factor.substituted(), 0);
    }
}

#[test]
fn sizes_that_do_not_fit_are_refused() {
    for substitute in floors() {
        for (matrix, n, refusal) in [
            (vec![], LARGEST + 1, Refusal::OutOfRange),
            (vec![], usize::MAX, Refusal::OutOfRange),
            (vec![1.0; 3], 2, Refusal::MatrixLength),
            (vec![1.0], 0, Refusal::MatrixLength),
        ] {
            let whole = Cholesky::new_with_substitute(matrix.clone(), n, substitute).unwrap_err();
            assert_eq!(whole, BatchRefusal::Refused(refusal));
            let insisted = Cholesky::new_insisting_with_substitute(matrix, n, substitute);
            assert_eq!(insisted.unwrap_err(), refusal);
        }
        let empty = Cholesky::new_with_substitute(vec![], 0, substitute).unwrap();
        assert_eq!(seen(&empty), seen(&Cholesky::default()));

        let mut factor = Cholesky::new(vec![4.0], 1).unwrap();
        for broken in [&[2.0][..], &[2.0, 5.0, 1.0]] {
            let refused = Refusal::SliceLength;
            let answer = factor.extend_with_substitute(broken, substitute);
            assert_eq!(answer, Err(BatchRefusal::Refused(refused)));
            let answer = factor.extend_insisting_with_substitute(broken, substitute);
            assert_eq!(answer, Err(refused));
        }
        assert_eq!(factor.extend_with_substitute(&[], substitute), Ok(0));
        assert_eq!(factor.extend_insisting_with_substitute(&[], substitute), Ok(0));
        assert_eq!(seen(&factor), seen(&Cholesky::new(vec![4.0], 1).unwrap()));
    }
}

#[test]
fn it_grows_to_the_largest_order_and_no_further() {
    let minus_unit = |i: usize| (0..=i).map(move |j| if i == j { -1.0 } else { 0.0 });
    let mut factor = Cholesky::default();
    let batch: Vec<f64> = (0..LARGEST).flat_map(minus_unit).collect();
    assert_eq!(factor.extend_insisting_with_substitute(&batch, 4.0), Ok(LARGEST));
    assert_eq!((factor.order(), factor.room()), (LARGEST, LARGEST));
    assert_eq!(factor.substituted(), LARGEST);
    assert_eq!(factor.solve(&[2.0; LARGEST]).unwrap(), [0.5; LARGEST]);

    assert_eq!(factor.extend_with_substitute(&[], 4.0), Ok(0));
    let further: Vec<f64> = minus_unit(LARGEST).collect();
    let refused = Refusal::OutOfRange;
    let answer = factor.extend_with_substitute(&further, 4.0);
    assert_eq!(answer, Err(BatchRefusal::Refused(refused)));
    assert_eq!(factor.extend_insisting_with_substitute(&further, 4.0), Err(refused));
    assert_eq!((factor.order(), factor.substituted()), (LARGEST, LARGEST));
}
