//! Cholesky's calls with a floor for the diagonal: beside their steps, which are written down here once more, beside the calls
//! without a floor, and over every cut of the rows; and what they refuse.

use crate::numbers::{bits, in_room, one_nan, rows, strange, Numbers};
use crate::packed::{every_matrix, matrices, old_numbers, turned_down, Refuses, TOO_LARGE, TURNED_DOWN};
use crate::packed_cholesky::cuts;
use urgyelpat::{cholesky, Refusal, LARGEST};

/// 2^-1074, the least number above zero, and its root.
const LEAST: f64 = 5e-324;
const ROOT_OF_LEAST: u64 = 0x1e60_0000_0000_0000;

/// Floors that stand in for a diagonal.
pub const PASSING: [f64; 7] = [LEAST, f64::MIN_POSITIVE, 0.01, 2.0, 4.0, f64::MAX, f64::INFINITY];

/// Floors that fail as a diagonal does.
pub const FAILING: [f64; 8] = [0.0, -0.0, -LEAST, -1.0, -4.0, f64::NEG_INFINITY, f64::NAN, -f64::NAN];

/// Floors of every kind.
pub fn floors() -> impl Iterator<Item = f64> {
    PASSING.into_iter().chain(FAILING)
}

fn above_zero(number: f64) -> bool {
    number > 0.0
}

/// The steps of a further batch with a floor, on the rows `earlier..n` of a room: what is answered, and what is left.
fn steps(a: &mut [f64], room: usize, earlier: usize, n: usize, floor: f64) -> Result<usize, Refusal> {
    let mut counted = 0;
    for j in 0..n {
        for k in 0..j {
            for i in j.max(earlier)..n {
                a[i + j * room] += -a[j + k * room] * a[i + k * room];
            }
        }
        if earlier <= j {
            let diagonal = a[j + j * room];
            if above_zero(diagonal) {
                a[j + j * room] = diagonal.sqrt();
            } else if above_zero(floor) {
                a[j + j * room] = floor.sqrt();
                counted += 1;
            } else if diagonal.is_nan() {
                return Err(Refusal::CholeskyNan { column: j });
            } else if diagonal < 0.0 {
                return Err(Refusal::CholeskyBelowZero { column: j });
            } else {
                return Err(Refusal::CholeskyZero { column: j });
            }
        }
        for i in (j + 1).max(earlier)..n {
            a[i + j * room] /= a[j + j * room];
        }
    }
    Ok(counted)
}

/// An answer, and what stands in the room after it.
type Left = (Result<usize, Refusal>, Vec<f64>);

/// A further batch with a floor, which answers what the steps answer and leaves what they leave. From row 0 on it is the factor
/// call.
fn extended(a: &[f64], room: usize, earlier: usize, n: usize, floor: f64) -> Left {
    let case = format!("{earlier} to {n} in {room}, floor {floor:e}");
    let mut left = a.to_vec();
    let answer = cholesky::extend_floored(&mut left, room, earlier, n, floor);
    let mut wanted = a.to_vec();
    assert_eq!(answer, steps(&mut wanted, room, earlier, n, floor), "{case}");
    assert_eq!(one_nan(&left), one_nan(&wanted), "{case}");
    for (at, (now, before)) in left.iter().zip(a).enumerate() {
        let (i, j) = (at % room, at / room);
        if i < earlier || i < j || i >= n {
            assert_eq!(now.to_bits(), before.to_bits(), "({i}, {j}) is kept, {case}");
        }
    }
    if earlier == 0 {
        let mut by_factor = a.to_vec();
        let answered = cholesky::factor_floored(&mut by_factor, room, n, floor);
        assert_eq!(answered, answer, "{case}");
        assert_eq!(one_nan(&by_factor), one_nan(&left), "{case}");
    }
    (answer, left)
}

/// A further batch without a floor, its count 0.
fn plain(a: &[f64], room: usize, earlier: usize, n: usize) -> Left {
    let mut left = a.to_vec();
    let answer = cholesky::extend(&mut left, room, earlier, n);
    (answer.map(|()| 0), left)
}

fn the_same(floored: &Left, plain: &Left) -> bool {
    floored.0 == plain.0 && one_nan(&floored.1) == one_nan(&plain.1)
}

/// What a call with a floor has to do with the call without one.
fn keeps_the_laws(a: &[f64], room: usize, earlier: usize, n: usize, floor: f64) -> Left {
    let case = format!("{earlier} to {n} in {room}, floor {floor:e}");
    let floored = extended(a, room, earlier, n, floor);
    let plain = plain(a, room, earlier, n);
    if !above_zero(floor) {
        assert!(the_same(&floored, &plain), "a floor that fails: {case}");
    }
    if plain.0.is_ok() {
        assert!(the_same(&floored, &plain), "accepted without a floor: {case}");
    }
    if floored.0 == Ok(0) {
        assert!(the_same(&floored, &plain), "no column used the floor: {case}");
    }
    if above_zero(floor) {
        assert!(floored.0.is_ok(), "a floor above zero: {case}");
    }
    floored
}

/// The floor's answer to the lower part of a matrix of order n, and what it leaves.
#[track_caller]
fn worked(a: &[f64], n: usize, floor: f64, answer: Result<usize, Refusal>, lower: &[f64]) {
    let left = keeps_the_laws(a, n, 0, n, floor);
    assert_eq!(left.0, answer);
    assert_eq!(one_nan(&rows(&left.1, n, 0, n)), one_nan(lower));
}

#[test]
fn the_root_of_the_floor_stands_in_for_a_diagonal_that_fails() {
    worked(&[1.0, 1.0, 7.0, 1.0], 2, 4.0, Ok(1), &[1.0, 1.0, 2.0]);
    worked(&[1.0, 2.0, 7.0, 1.0], 2, 4.0, Ok(1), &[1.0, 2.0, 2.0]);
    worked(&[1.0, f64::NAN, 7.0, 1.0], 2, 4.0, Ok(1), &[1.0, f64::NAN, 2.0]);
    // the rows below are divided by the root
    worked(&[0.0, 6.0, 7.0, 13.0], 2, 4.0, Ok(1), &[2.0, 3.0, 2.0]);
    worked(
        &[0.0, 2.0, 4.0, 7.0, 0.0, 0.0, 7.0, 7.0, 0.0],
        3,
        4.0,
        Ok(3),
        &[2.0, 1.0, 2.0, 2.0, -1.0, 2.0],
    );
    for (diagonal, _) in TURNED_DOWN {
        worked(&[diagonal], 1, 4.0, Ok(1), &[2.0]);
        worked(&[diagonal], 1, 2.0, Ok(1), &[std::f64::consts::SQRT_2]);
    }
    worked(&[], 0, 4.0, Ok(0), &[]);
}

#[test]
fn a_floor_can_be_as_small_and_as_large_as_a_number_above_zero() {
    let (infinity, root_of_least) = (f64::INFINITY, f64::from_bits(ROOT_OF_LEAST));
    worked(&[-1.0], 1, LEAST, Ok(1), &[root_of_least]);
    worked(&[-1.0], 1, infinity, Ok(1), &[infinity]);
    worked(&[0.0, 1.0, 7.0, 1.0], 2, infinity, Ok(1), &[infinity, 0.0, 1.0]);
    worked(
        &[0.0, infinity, 7.0, 1.0],
        2,
        infinity,
        Ok(2),
        &[infinity, f64::NAN, infinity],
    );
    // 1 - 2^1074 is minus infinity
    worked(
        &[0.0, 1.0, 7.0, 1.0],
        2,
        LEAST,
        Ok(2),
        &[root_of_least, 1.0 / root_of_least, root_of_least],
    );
    worked(
        &[0.0, 1.0, 7.0, 1.0],
        2,
        f64::MAX,
        Ok(1),
        &[f64::MAX.sqrt(), 1.0 / f64::MAX.sqrt(), 1.0],
    );
}

#[test]
fn a_diagonal_that_passes_is_not_raised_to_the_floor() {
    for floor in floors() {
        worked(&[1.0], 1, floor, Ok(0), &[1.0]);
        worked(&[LEAST], 1, floor, Ok(0), &[f64::from_bits(ROOT_OF_LEAST)]);
        worked(&[f64::INFINITY], 1, floor, Ok(0), &[f64::INFINITY]);
        worked(&[4.0, 2.0, 7.0, 5.0], 2, floor, Ok(0), &[2.0, 1.0, 2.0]);
    }
}

#[test]
fn where_the_floor_fails_too_the_refusal_is_the_diagonals_own() {
    worked(&[-1.0], 1, -1.0, Err(Refusal::CholeskyBelowZero { column: 0 }), &[-1.0]);
    for floor in FAILING {
        for (diagonal, refusal) in TURNED_DOWN {
            worked(&[diagonal], 1, floor, Err(refusal(0)), &[diagonal]);
            worked(
                &[4.0, 0.0, 7.0, diagonal],
                2,
                floor,
                Err(refusal(1)),
                &[2.0, 0.0, diagonal],
            );
        }
        let refused: [(f64, Refuses, f64); 3] = [
            (1.0, |column| Refusal::CholeskyZero { column }, 0.0),
            (2.0, |column| Refusal::CholeskyBelowZero { column }, -3.0),
            (f64::NAN, |column| Refusal::CholeskyNan { column }, f64::NAN),
        ];
        for (beside, refusal, left) in refused {
            // column 1 is updated and not divided, and column 2 as given
            worked(
                &[1.0, beside, 3.0, 7.0, 1.0, 5.0, 7.0, 7.0, 9.0],
                3,
                floor,
                Err(refusal(1)),
                &[1.0, beside, left, 3.0, 5.0 - 3.0 * beside, 9.0],
            );
        }
    }
}

#[test]
fn the_diagonals_of_earlier_rows_are_neither_tested_nor_counted() {
    // what stands at (0, 0) is taken as factored, and row 1 is 2 5
    for (earlier, floor, answer, beside, diagonal) in [
        (2.0, 9.0, Ok(0), 1.0, 2.0),
        (-2.0, 9.0, Ok(0), -1.0, 2.0),
        (f64::INFINITY, 9.0, Ok(0), 0.0, f64::sqrt(5.0)),
        (0.0, 9.0, Ok(1), f64::INFINITY, 3.0),
        (f64::NAN, 9.0, Ok(1), f64::NAN, 3.0),
        (0.5, 9.0, Ok(1), 4.0, 3.0),
        (-2.0, -9.0, Ok(0), -1.0, 2.0),
        (0.5, -9.0, Err(Refusal::CholeskyBelowZero { column: 1 }), 4.0, -11.0),
    ] {
        let left = keeps_the_laws(&[earlier, 2.0, 7.0, 5.0], 2, 1, 2, floor);
        assert_eq!(left.0, answer);
        assert_eq!(one_nan(&left.1), one_nan(&[earlier, beside, 7.0, diagonal]));
    }
    for floor in floors() {
        for earlier in 0..=4 {
            let a = old_numbers(16);
            let (answer, left) = keeps_the_laws(&a, 4, earlier, earlier, floor);
            assert_eq!((answer, bits(&left)), (Ok(0), bits(&a)), "no row was handed in");
        }
    }
}

#[test]
fn every_matrix_is_factored_by_the_steps_and_the_laws() {
    let (mut counts, mut codes) = ([0; 3], [0; 12]);
    every_matrix(|n, a| {
        for (at, floor) in floors().enumerate() {
            let room = n + at % 3;
            match keeps_the_laws(&in_room(a, n, room), room, 0, n, floor).0 {
                Ok(count) => counts[count.min(2)] += 1,
                Err(refusal) => codes[refusal.code() as usize] += 1,
            }
        }
    });
    assert!(counts.iter().all(|&count| count > 100), "{counts:?}");
    assert!([7, 10, 11].iter().all(|&code| codes[code] > 100), "{codes:?}");
}

#[test]
fn every_further_batch_is_factored_by_the_steps_and_the_laws() {
    let (mut counted, mut refused) = (0, 0);
    for n in 0..=8 {
        for (seed, a) in matrices(n).iter().enumerate() {
            for earlier in 0..=n {
                for floor in floors() {
                    let room = n + seed % 2;
                    let mut buffer = in_room(a, n, room);
                    if seed % 3 == 0 {
                        // earlier rows that are no factor
                        for j in 0..earlier {
                            let old = strange(earlier - j, seed + j);
                            buffer[j + j * room..earlier + j * room].copy_from_slice(&old);
                        }
                    } else {
                        // earlier rows as a call with a floor leaves them
                        let _ = cholesky::factor_floored(&mut buffer, room, earlier, 2.0);
                    }
                    match keeps_the_laws(&buffer, room, earlier, n, floor).0 {
                        Ok(count) => counted += count,
                        Err(_) => refused += 1,
                    }
                }
            }
        }
    }
    assert!(counted > 1000 && refused > 1000, "{counted}, {refused}");
}

/// Hands the rows of a matrix in by batches that end at these orders, in a room, until one is refused. One call on the whole
/// matrix says the same, leaves the same as far as the rows were handed in, and counts as many columns. Gives how many batches
/// counted some.
fn chain(a: &[f64], n: usize, room: usize, ends: &[usize], floor: f64) -> usize {
    let case = format!("ends {ends:?} in {room}, floor {floor:e}");
    let mut whole = in_room(a, n, room);
    let answer = cholesky::factor_floored(&mut whole, room, n, floor);
    let mut buffer = strange(room * room, n);
    let (mut order, mut counts) = (0, vec![]);
    for &end in ends {
        for i in order..end {
            for j in 0..=i {
                buffer[i + j * room] = a[i + j * n];
            }
        }
        let (step, left) = extended(&buffer, room, order, end, floor);
        assert_eq!(
            one_nan(&rows(&left, room, 0, end)),
            one_nan(&rows(&whole, room, 0, end)),
            "{case}"
        );
        match step {
            Ok(count) => counts.push(count),
            Err(_) => {
                assert_eq!(step, answer, "{case}");
                return 0;
            }
        }
        (buffer, order) = (left, end);
    }
    assert_eq!(answer, Ok(counts.iter().sum()), "{case}");
    counts.iter().filter(|&&count| count > 0).count()
}

#[test]
fn every_cut_gives_what_one_call_gives_and_the_counts_add_up() {
    let mut several = 0;
    for n in 0..=5 {
        let good = Numbers(n as u64).positive(n);
        let broken = (0..n).flat_map(|row| TURNED_DOWN.map(|(diagonal, _)| turned_down(&good, n, row, diagonal)));
        // rows that came twice and whole numbers with zeros are among the matrices
        for a in broken.chain(matrices(n)) {
            for ends in cuts(n) {
                for floor in floors() {
                    several += usize::from(chain(&a, n, n, &ends, floor) > 1);
                }
                assert!(chain(&a, n, n + 2, &ends, 2.0) <= ends.len());
            }
        }
    }
    assert!(several > 3000, "{several}");
}

#[test]
fn cuts_by_chance_give_what_one_call_gives_and_the_counts_add_up() {
    let mut several = 0;
    every_matrix(|n, a| {
        let mut numbers = Numbers(n as u64);
        for floor in [0.01, 4.0, -1.0, f64::MAX] {
            // batches of no rows among them
            let mut ends: Vec<usize> = (0..4).map(|_| numbers.below(n + 1)).chain([n]).collect();
            ends.sort_unstable();
            several += usize::from(chain(a, n, n, &ends, floor) > 1);
        }
    });
    assert!(several > 500, "{several}");
}

/// Sizes that are refused whatever the floor; nothing is written. From row 0 on the factor call is refused too.
fn batch_refused(numbers: usize, room: usize, earlier: usize, n: usize, refusal: Refusal) {
    for floor in floors() {
        let case = format!("{earlier} to {n} in {room}, {numbers} numbers, floor {floor:e}");
        let mut a = old_numbers(numbers);
        let answer = cholesky::extend_floored(&mut a, room, earlier, n, floor);
        assert_eq!(answer, Err(refusal), "{case}");
        assert_eq!(bits(&a), bits(&old_numbers(numbers)), "{case}");
        if earlier == 0 {
            let answer = cholesky::factor_floored(&mut a, room, n, floor);
            assert_eq!(answer, Err(refusal), "{case}");
            assert_eq!(bits(&a), bits(&old_numbers(numbers)), "{case}");
        }
    }
}

#[test]
fn sizes_that_do_not_fit_are_refused_in_their_order_and_nothing_is_written() {
    for large in TOO_LARGE {
        for numbers in [0, 1, 4, 5] {
            batch_refused(numbers, large, 0, 0, Refusal::OutOfRange);
            batch_refused(numbers, large, large, large, Refusal::OutOfRange);
            batch_refused(numbers, 2, 0, large, Refusal::OutOfRange);
            batch_refused(numbers, 2, large, 1, Refusal::OutOfRange);
        }
    }
    for room in 0..=4 {
        for numbers in 0..=17 {
            for n in 0..=5 {
                for earlier in 0..=6 {
                    if n > room || earlier > n {
                        batch_refused(numbers, room, earlier, n, Refusal::OrderAboveRoom);
                    } else if numbers != room * room {
                        batch_refused(numbers, room, earlier, n, Refusal::MatrixLength);
                    }
                }
            }
        }
    }
    batch_refused(0, LARGEST, 0, 0, Refusal::MatrixLength);
    batch_refused(0, LARGEST, LARGEST, LARGEST, Refusal::MatrixLength);
    batch_refused(0, 2, 0, LARGEST, Refusal::OrderAboveRoom);
    batch_refused(0, 2, LARGEST, 2, Refusal::OrderAboveRoom);
}

#[test]
fn the_largest_order_is_counted_whole() {
    let n = LARGEST;
    let diagonal = |number: fn(usize) -> f64| {
        let at = |at| if at % n == at / n { number(at / n) } else { 0.0 };
        (0..n * n).map(at).collect::<Vec<f64>>()
    };
    let mut a = diagonal(|_| -1.0);
    assert_eq!(cholesky::factor_floored(&mut a, n, n, 4.0), Ok(n));
    assert_eq!(a, diagonal(|_| 2.0));

    let mut a = diagonal(|row| if row % 2 == 0 { 9.0 } else { f64::NAN });
    assert_eq!(cholesky::factor_floored(&mut a, n, 300, 4.0), Ok(150));
    assert_eq!(cholesky::extend_floored(&mut a, n, 300, n, 4.0), Ok(n / 2 - 150));
    assert_eq!(a, diagonal(|row| if row % 2 == 0 { 3.0 } else { 2.0 }));
}
