//! Cholesky and the search for twins in the packed layout beside the full one: the same numbers, codes and places; and what they
//! refuse.

use crate::numbers::{bits, by_chance, one_nan, repeat_row, rows, strange, Numbers};
use crate::packed::{every_matrix, matrices, old_numbers, turned_down, TOO_LARGE, TURNED_DOWN};
use urgyelpat::packed::{self, length, pack, place, unpack};
use urgyelpat::{cholesky, first_twin, Refusal, Twins, LARGEST};

fn cholesky_solved_alike(factor: &[f64], n: usize, sides: &[f64], columns: usize) {
    let (mut b, mut by_full) = (sides.to_vec(), sides.to_vec());
    packed::cholesky_solve(factor, &mut b, n, columns).unwrap();
    cholesky::solve_mut(&unpack(factor, n).unwrap(), &mut by_full, n, n, columns).unwrap();
    assert_eq!(one_nan(&b), one_nan(&by_full), "order {n}, {columns} columns");
}

#[test]
fn cholesky_is_the_full_layouts_refused_or_not() {
    let mut codes = [0; 12];
    every_matrix(|n, a| {
        let (mut factor, mut full) = (pack(a, n).unwrap(), a.to_vec());
        let answer = packed::cholesky_factor(&mut factor, n);
        assert_eq!(answer, cholesky::factor(&mut full, n, n), "order {n}");
        assert_eq!(one_nan(&factor), one_nan(&pack(&full, n).unwrap()), "order {n}");
        codes[answer.map_or_else(Refusal::code, |()| 0) as usize] += 1;
        for columns in 0..=9 {
            // by what a refused factor left, too
            let sides = by_chance(&mut Numbers(columns as u64), n * columns);
            cholesky_solved_alike(&factor, n, &sides, columns);
            cholesky_solved_alike(&factor, n, &strange(n * columns, columns), columns);
        }
    });
    assert!([0, 7, 10, 11].iter().all(|&code| codes[code] > 20), "{codes:?}");
}

/// A further batch in both layouts: what stands in `old` is taken as factored.
fn extended_alike(old: &[f64], batch: &[f64], earlier: usize, n: usize) -> (Result<(), Refusal>, Vec<f64>) {
    let (kept_old, kept_batch) = (old.to_vec(), batch.to_vec());
    let mut fresh = old_numbers(length(n));
    let answer = packed::cholesky_extend(old, batch, &mut fresh, earlier, n);
    assert_eq!(bits(old), bits(&kept_old));
    assert_eq!(bits(batch), bits(&kept_batch));

    let mut full = vec![f64::NAN; n * n];
    for j in 0..earlier {
        for i in j..earlier {
            full[i + j * n] = old[place(earlier, i, j)];
        }
    }
    let mut rest = batch.iter();
    for i in earlier..n {
        for j in 0..=i {
            full[i + j * n] = *rest.next().unwrap();
        }
    }
    assert_eq!(rest.next(), None);
    assert_eq!(answer, cholesky::extend(&mut full, n, earlier, n), "{earlier} to {n}");
    assert_eq!(one_nan(&fresh), one_nan(&pack(&full, n).unwrap()), "{earlier} to {n}");
    (answer, fresh)
}

/// Hands the rows of a matrix in by batches that end at these orders, each with a new buffer, until one is refused. One call on
/// the whole matrix says the same, and as far as the rows were handed in it leaves the same.
fn chain(a: &[f64], n: usize, ends: &[usize]) -> Result<(), Refusal> {
    let mut whole = pack(a, n).unwrap();
    let answer = packed::cholesky_factor(&mut whole, n);
    let (mut factor, mut order) = (vec![], 0);
    for &end in ends {
        let (step, fresh) = extended_alike(&factor, &rows(a, n, order, end), order, end);
        for j in 0..end {
            // what a refused call left of the rows that have come
            for i in j..end {
                let at_once = whole[place(n, i, j)];
                let in_batches = fresh[place(end, i, j)];
                assert_eq!(one_nan(&[in_batches]), one_nan(&[at_once]), "({i}, {j}), ends {ends:?}");
            }
        }
        if step.is_err() {
            assert_eq!(step, answer, "ends {ends:?}");
            return step;
        }
        (factor, order) = (fresh, end);
    }
    assert_eq!(answer, Ok(()), "ends {ends:?}");
    assert_eq!(one_nan(&factor), one_nan(&whole), "ends {ends:?}");
    answer
}

/// All ways to hand in n rows by batches of at least one row.
pub fn cuts(n: usize) -> Vec<Vec<usize>> {
    if n == 0 {
        return vec![vec![]];
    }
    let ending = |ends: Vec<usize>| [ends, vec![n]].concat();
    (0..n).flat_map(|last| cuts(last).into_iter().map(ending)).collect()
}

#[test]
fn every_cut_gives_what_one_call_gives_and_is_refused_as_it_is() {
    assert_eq!([0, 1, 5].map(|n| cuts(n).len()), [1, 1, 16]);
    for n in 0..=5 {
        let a = Numbers(n as u64).positive(n);
        for ends in cuts(n) {
            assert_eq!(chain(&a, n, &ends), Ok(()));
            for row in 0..n {
                for (diagonal, refusal) in TURNED_DOWN {
                    let broken = turned_down(&a, n, row, diagonal);
                    assert_eq!(chain(&broken, n, &ends), Err(refusal(row)), "ends {ends:?}");
                }
            }
        }
    }
}

#[test]
fn cuts_by_chance_give_what_one_call_gives() {
    let mut refused = 0;
    every_matrix(|n, a| {
        let mut numbers = Numbers(n as u64);
        for _ in 0..4 {
            // batches of no rows among them
            let mut ends: Vec<usize> = (0..4).map(|_| numbers.below(n + 1)).chain([n]).collect();
            ends.sort_unstable();
            refused += usize::from(chain(a, n, &ends).is_err());
        }
    });
    assert!(refused > 200, "{refused}");
}

#[test]
fn what_stands_in_the_old_factor_is_not_tested() {
    for n in 0..=12 {
        for earlier in 0..=n {
            for (seed, a) in matrices(n).iter().enumerate() {
                let old = strange(length(earlier), seed);
                let _ = extended_alike(&old, &rows(a, n, earlier, n), earlier, n);
                let zeros = vec![0.0; length(earlier)];
                let _ = extended_alike(&zeros, &rows(a, n, earlier, n), earlier, n);
            }
        }
    }
}

#[test]
fn a_further_batch_refuses_by_sizes_in_their_order() {
    let refused = |old, rows, fresh, earlier, n, refusal| {
        let mut left = old_numbers(fresh);
        let answer = packed::cholesky_extend(&old_numbers(old), &old_numbers(rows), &mut left, earlier, n);
        let sizes = format!("{earlier} to {n}: {old}, {rows}, {fresh} numbers");
        assert_eq!(answer, Err(refusal), "{sizes}");
        assert_eq!(bits(&left), bits(&old_numbers(fresh)), "{sizes}");
    };
    for large in TOO_LARGE {
        for numbers in 0..=1 {
            refused(numbers, 0, 0, large, large, Refusal::OutOfRange);
            refused(numbers, 0, 0, large, 0, Refusal::OutOfRange);
            refused(numbers, 0, 0, 0, large, Refusal::OutOfRange);
            refused(numbers, 1, 1, 1, large, Refusal::OutOfRange);
        }
    }
    for n in 0..=4 {
        for earlier in n + 1..=6 {
            for numbers in 0..=22 {
                refused(numbers, 0, length(n), earlier, n, Refusal::OrderAboveRoom);
            }
        }
        for earlier in 0..=n {
            let lengths = (length(earlier), length(n) - length(earlier), length(n));
            for old in (0..=n * n + 2).filter(|&old| old != lengths.0) {
                refused(old, lengths.1, lengths.2, earlier, n, Refusal::MatrixLength);
                refused(old, lengths.1 + 1, lengths.2, earlier, n, Refusal::MatrixLength);
            }
            for rows in (0..=n * n + 2).filter(|&rows| rows != lengths.1) {
                refused(lengths.0, rows, lengths.2, earlier, n, Refusal::SliceLength);
            }
            for fresh in (0..=n * n + 2).filter(|&fresh| fresh != lengths.2) {
                refused(lengths.0, lengths.1, fresh, earlier, n, Refusal::SliceLength);
            }
        }
    }
    refused(0, 0, 0, LARGEST, LARGEST, Refusal::MatrixLength);
    refused(0, 0, 0, LARGEST, 1, Refusal::OrderAboveRoom);
}

#[test]
fn cholesky_refuses_by_sizes_in_their_order() {
    for n in TOO_LARGE {
        for numbers in 0..=1 {
            let mut a = old_numbers(numbers);
            assert_eq!(packed::cholesky_factor(&mut a, n), Err(Refusal::OutOfRange));
            assert_eq!(packed::first_twin(&a, n), Err(Refusal::OutOfRange));
            assert_eq!(bits(&a), bits(&old_numbers(numbers)));
        }
    }
    for n in 0..=6 {
        for numbers in (0..=n * n + 2).filter(|&numbers| numbers != length(n)) {
            let mut a = old_numbers(numbers);
            assert_eq!(packed::cholesky_factor(&mut a, n), Err(Refusal::MatrixLength));
            assert_eq!(packed::first_twin(&a, n), Err(Refusal::MatrixLength));
            assert_eq!(bits(&a), bits(&old_numbers(numbers)));
        }
    }
    let refused = |numbers, sides, n, columns, refusal| {
        let mut b = old_numbers(sides);
        let answer = packed::cholesky_solve(&old_numbers(numbers), &mut b, n, columns);
        assert_eq!(
            answer,
            Err(refusal),
            "order {n}, {columns} columns, {numbers}, {sides} numbers"
        );
        assert_eq!(bits(&b), bits(&old_numbers(sides)));
    };
    for large in TOO_LARGE {
        refused(3, 4, large, 2, Refusal::OutOfRange);
        refused(0, 0, large, 0, Refusal::OutOfRange);
        refused(3, 4, 2, large, Refusal::OutOfRange);
        refused(2, 0, 2, large, Refusal::OutOfRange);
    }
    for numbers in [0, 2, 4, 6] {
        refused(numbers, 4, 2, 2, Refusal::MatrixLength);
        refused(numbers, 3, 2, 2, Refusal::MatrixLength);
    }
    for sides in [0, 2, 3, 5] {
        refused(3, sides, 2, 2, Refusal::SliceLength);
    }
    refused(0, 1, 0, 1, Refusal::SliceLength);
}

#[test]
fn twins_are_the_full_layouts() {
    let mut found = 0;
    every_matrix(|n, a| {
        let told = packed::first_twin(&pack(a, n).unwrap(), n);
        assert_eq!(told, first_twin(a, n, n), "order {n}");
        found += usize::from(told != Ok(None));
    });
    assert!(found > 50, "{found}");
}

#[test]
fn every_pair_of_rows_is_found() {
    let n = 7;
    for q in 1..n {
        for p in 0..q {
            let mut a = Numbers((p * n + q) as u64).symmetric(n);
            assert_eq!(packed::first_twin(&pack(&a, n).unwrap(), n), Ok(None));
            repeat_row(&mut a, n, p, q);
            let told = packed::first_twin(&pack(&a, n).unwrap(), n);
            assert_eq!(told, Ok(Some(Twins { p, q })));
        }
    }
}
