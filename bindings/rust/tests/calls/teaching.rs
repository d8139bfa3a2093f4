//! The teaching engine: beside its steps, which are written down here once more, row by row, and beside `factor`; and what it
//! refuses.

use crate::numbers::{bits, in_room, one_nan, rows, strange, Numbers};
use crate::packed::{every_matrix, old_numbers, turned_down, TOO_LARGE, TURNED_DOWN};
use urgyelpat::{cholesky, Refusal, LARGEST, TEACHING_LARGEST};

/// The steps on the first n rows of a room: what is answered, and what is left.
fn steps(a: &mut [f64], room: usize, n: usize) -> Result<(), Refusal> {
    for i in 0..n {
        for j in 0..=i {
            let mut entry = a[i + j * room];
            for k in 0..j {
                entry += -a[j + k * room] * a[i + k * room];
            }
            a[i + j * room] = if j < i {
                entry / a[j + j * room]
            } else if entry > 0.0 {
                entry.sqrt()
            } else {
                entry
            };
        }
        // where the diagonal failed it still stands there
        let diagonal = a[i + i * room];
        if diagonal.is_nan() {
            return Err(Refusal::CholeskyNan { column: i });
        } else if diagonal < 0.0 {
            return Err(Refusal::CholeskyBelowZero { column: i });
        } else if diagonal == 0.0 {
            return Err(Refusal::CholeskyZero { column: i });
        }
    }
    Ok(())
}

/// An answer, and what stands in the room after it.
type Left = (Result<(), Refusal>, Vec<f64>);

/// The call, which answers what the steps answer and leaves what they leave. In the rows that it reached that is what `factor`
/// leaves, in the whole room where it accepts; all else keeps its bits.
fn taught(a: &[f64], room: usize, n: usize) -> Left {
    let (mut left, mut by_steps, mut by_factor) = (a.to_vec(), a.to_vec(), a.to_vec());
    let answer = cholesky::teaching(&mut left, room, n);
    let case = format!("order {n} in {room}, {answer:?}");
    assert_eq!(answer, steps(&mut by_steps, room, n), "{case}");
    assert_eq!(one_nan(&left), one_nan(&by_steps), "{case}");

    assert_eq!(answer, cholesky::factor(&mut by_factor, room, n), "{case}");
    let reached = answer.map_or_else(|refusal| refusal.place() + 1, |()| n);
    assert_eq!(
        one_nan(&rows(&left, room, 0, reached)),
        one_nan(&rows(&by_factor, room, 0, reached)),
        "{case}"
    );
    if answer.is_ok() {
        assert_eq!(one_nan(&left), one_nan(&by_factor), "{case}");
    }
    for (at, (now, before)) in left.iter().zip(a).enumerate() {
        let (i, j) = (at % room, at / room);
        if i < j || i >= reached {
            assert_eq!(now.to_bits(), before.to_bits(), "({i}, {j}) is kept, {case}");
        }
    }
    (answer, left)
}

/// The answer to the lower part of a matrix of order n, and what is left of it.
#[track_caller]
fn worked(a: &[f64], n: usize, answer: Result<(), Refusal>, lower: &[f64]) {
    let left = taught(a, n, n);
    assert_eq!(left.0, answer);
    assert_eq!(one_nan(&rows(&left.1, n, 0, n)), one_nan(lower));
}

#[test]
fn row_after_row_is_found_from_left_to_right() {
    worked(&[], 0, Ok(()), &[]);
    worked(&[4.0], 1, Ok(()), &[2.0]);
    worked(&[f64::INFINITY], 1, Ok(()), &[f64::INFINITY]);
    let least = f64::from_bits(1);
    worked(&[least], 1, Ok(()), &[f64::from_bits(0x1e60_0000_0000_0000)]);
    worked(
        &[4.0, 2.0, 6.0, 7.0, 5.0, 5.0, 7.0, 7.0, 14.0],
        3,
        Ok(()),
        &[2.0, 1.0, 2.0, 3.0, 1.0, 2.0],
    );
    // a row that came twice, of which a crumb above zero is left
    let crumb = f64::from_bits(0x3e56_a09e_667f_3bcd);
    let (root, beside) = (f64::sqrt(2.0), 2.0 / f64::sqrt(2.0));
    worked(&[2.0, 2.0, 7.0, 2.0], 2, Ok(()), &[root, beside, crumb]);
}

#[test]
fn a_diagonal_that_fails_is_named_and_the_rows_below_are_as_given() {
    let zero = |column| Err(Refusal::CholeskyZero { column });
    let below_zero = |column| Err(Refusal::CholeskyBelowZero { column });
    let nan = |column| Err(Refusal::CholeskyNan { column });
    // row 1 less what row 0 takes from it; `factor` would change row 2 as well
    for (beside, answer, left) in [
        (1.0, zero(1), 0.0),
        (2.0, below_zero(1), -3.0),
        (f64::NAN, nan(1), f64::NAN),
    ] {
        worked(
            &[1.0, beside, 3.0, 7.0, 1.0, 5.0, 7.0, 7.0, 9.0],
            3,
            answer,
            &[1.0, beside, left, 3.0, 5.0, 9.0],
        );
    }
    // row 2, left of whose diagonal all is done
    for (diagonal, answer, left) in [
        (10.0, zero(2), 0.0),
        (9.0, below_zero(2), -1.0),
        (f64::NAN, nan(2), f64::NAN),
    ] {
        worked(
            &[4.0, 2.0, 6.0, 7.0, 5.0, 5.0, 7.0, 7.0, diagonal],
            3,
            answer,
            &[2.0, 1.0, 2.0, 3.0, 1.0, left],
        );
    }
    for (diagonal, refusal) in TURNED_DOWN {
        worked(&[diagonal], 1, Err(refusal(0)), &[diagonal]);
    }
    // zero times infinity is taken from the entry beside it
    let infinity = f64::INFINITY;
    worked(
        &[1.0, 0.0, infinity, 7.0, 1.0, 1.0, 7.0, 7.0, 1.0],
        3,
        nan(2),
        &[1.0, 0.0, 1.0, infinity, f64::NAN, f64::NAN],
    );
}

#[test]
fn every_matrix_is_factored_by_the_steps_and_as_by_factor() {
    let (mut accepted, mut codes) = (0, [0; 12]);
    every_matrix(|n, a| {
        for room in [n, n + 1, n + 5] {
            match taught(&in_room(a, n, room), room, n).0 {
                Ok(()) => accepted += 1,
                Err(refusal) => codes[refusal.code() as usize] += 1,
            }
        }
    });
    assert!(accepted > 300, "{accepted}");
    assert!([7, 10, 11].iter().all(|&code| codes[code] > 100), "{codes:?}");
}

#[test]
fn each_row_is_refused_by_each_code_up_to_the_largest_order() {
    for n in [1, 2, 3, 8, TEACHING_LARGEST - 1, TEACHING_LARGEST] {
        let good = Numbers(n as u64).positive(n);
        assert_eq!(taught(&in_room(&good, n, n + 1), n + 1, n).0, Ok(()));
        for row in 0..n {
            for (diagonal, refusal) in TURNED_DOWN {
                let mut broken = turned_down(&good, n, row, diagonal);
                // what is below is no matrix
                for j in 0..n {
                    let from = j.max(row + 1);
                    broken[from + j * n..n + j * n].copy_from_slice(&strange(n - from, row));
                }
                for room in [n, n + 3] {
                    assert_eq!(taught(&in_room(&broken, n, room), room, n).0, Err(refusal(row)));
                }
            }
        }
    }
}

#[test]
fn the_largest_room_is_accepted() {
    let n = TEACHING_LARGEST;
    let a = in_room(&Numbers(1).positive(n), n, LARGEST);
    assert_eq!(taught(&a, LARGEST, n).0, Ok(()));
    assert_eq!(taught(&a, LARGEST, 3).0, Ok(()));
    let (answer, left) = taught(&a, LARGEST, 0);
    assert_eq!((answer, bits(&left)), (Ok(()), bits(&a)));
}

/// Sizes that are refused; nothing is written.
#[track_caller]
fn refused(mut a: Vec<f64>, room: usize, n: usize, refusal: Refusal) {
    let before = bits(&a);
    let case = format!("order {n} in {room}, {} numbers", a.len());
    assert_eq!(cholesky::teaching(&mut a, room, n), Err(refusal), "{case}");
    assert_eq!(bits(&a), before, "{case}");
}

#[test]
fn sizes_that_do_not_fit_are_refused_in_their_order_and_nothing_is_written() {
    let above = TEACHING_LARGEST + 1;
    for large in TOO_LARGE {
        for numbers in [0, 1, 4, 5] {
            refused(old_numbers(numbers), large, 0, Refusal::OutOfRange);
            refused(old_numbers(numbers), large, 2, Refusal::OutOfRange);
            refused(old_numbers(numbers), large, large, Refusal::OutOfRange);
            refused(old_numbers(numbers), 2, large, Refusal::OutOfRange);
        }
    }
    for n in [above, above + 1, LARGEST] {
        for room in [0, 2, TEACHING_LARGEST, above, LARGEST] {
            refused(old_numbers(4), room, n, Refusal::OutOfRange);
        }
    }
    for room in (0..=4).chain([TEACHING_LARGEST - 1, TEACHING_LARGEST, above]) {
        for numbers in (0..=17).chain([room * room, room * room + 1]) {
            for n in (0..=5).chain([TEACHING_LARGEST - 1, TEACHING_LARGEST]) {
                if n > room {
                    refused(old_numbers(numbers), room, n, Refusal::OrderAboveRoom);
                } else if numbers != room * room {
                    refused(old_numbers(numbers), room, n, Refusal::MatrixLength);
                }
            }
        }
    }
    refused(vec![], LARGEST, TEACHING_LARGEST, Refusal::MatrixLength);
}

#[test]
fn an_order_above_the_largest_is_refused_where_factor_accepts() {
    for n in [TEACHING_LARGEST + 1, TEACHING_LARGEST + 2, 100] {
        for room in [n, n + 3] {
            let a = in_room(&Numbers(n as u64).positive(n), n, room);
            refused(a.clone(), room, n, Refusal::OutOfRange);
            assert_eq!(cholesky::factor(&mut a.clone(), room, n), Ok(()));
        }
    }
    let unit = |n: usize| (0..n * n).map(|at| f64::from(at % n == at / n)).collect::<Vec<f64>>();
    refused(unit(LARGEST), LARGEST, LARGEST, Refusal::OutOfRange);
    refused(unit(LARGEST + 1), LARGEST + 1, 1, Refusal::OutOfRange);
}
