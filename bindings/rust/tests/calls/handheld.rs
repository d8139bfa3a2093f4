//! Three unknowns by value: beside `LBLT` and `lblt` with order 3 on the same numbers, beside the rule of the pivots, which is
//! written down here once more, and what is refused.

use crate::numbers::{bits, one_nan, strange, Numbers};
use urgyelpat::handheld::{self, Factored, Pivots};
use urgyelpat::{lblt, Refusal, LBLT};

/// Column by column.
type Matrix = [[f64; 3]; 3];

const RUN: u32 = 7;

fn columns(nine: &[f64]) -> Matrix {
    [0, 1, 2].map(|j| [0, 1, 2].map(|i| nine[i + 3 * j]))
}

fn lower(nine: &[f64]) -> [f64; 6] {
    [0, 1, 2, 4, 5, 8].map(|at| nine[at])
}

fn upper(nine: &[f64]) -> [f64; 3] {
    [3, 6, 7].map(|at| nine[at])
}

/// The words of a record that says the same.
fn record(pivots: Pivots) -> [u32; 8] {
    let Pivots { index, size, mark } = pivots;
    [index[0], size[0], index[1], size[1], index[2], size[2], mark, RUN]
}

/// `LBLT` solves a side alike, all NaNs as one, or refuses it alike.
fn solves_as(by_lblt: &LBLT, factor: &Factored, side: [f64; 3], case: &str) {
    let solved = factor.solve(side);
    assert_eq!(
        solved.map(|x| one_nan(&x)),
        by_lblt.solve(&side).map(|x| one_nan(&x)),
        "{case}"
    );
    let by_parts = handheld::solve(factor.matrix(), factor.pivots(), side);
    assert_eq!(by_parts.map(|x| bits(&x)), solved.map(|x| bits(&x)), "{case}");
    let marked = factor.zero_pivot().map(|row| Refusal::ZeroMark { row });
    assert_eq!(solved.err(), marked, "{case}");
}

/// The factor, which is that of `LBLT`; above the diagonal every bit is kept.
fn factored(nine: &[f64]) -> Factored {
    let case = format!("{nine:?}");
    let factor = handheld::factor(columns(nine));
    let by_lblt = LBLT::new(nine.to_vec(), 3, RUN).unwrap();
    let left = factor.matrix().concat();
    assert_eq!(one_nan(&lower(&left)), one_nan(&lower(by_lblt.matrix())), "{case}");
    assert_eq!(bits(&upper(&left)), bits(&upper(nine)), "{case}");
    assert_eq!(record(factor.pivots()), by_lblt.record(), "{case}");
    assert_eq!(factor.zero_pivot(), by_lblt.zero_pivot(), "{case}");
    assert_eq!(factor.zero_pivot(), factor.pivots().zero_pivot(), "{case}");
    for row in 0..3 {
        assert_eq!(factor.callers_row(row), by_lblt.callers_row(row), "{case}");
        assert_eq!(factor.pivots().callers_row(row), by_lblt.callers_row(row), "{case}");
    }
    solves_as(&by_lblt, &factor, [2.0, -3.0, 0.7], &case);
    solves_as(&by_lblt, &factor, [0.3, f64::INFINITY, -1e300], &case);
    factor
}

/// The factor of a matrix whose lower part is this, column by column.
fn of_lower(lower: [f64; 6], from: usize) -> Factored {
    let [a, b, c, d, e, f] = lower;
    let above = strange(3, from);
    factored(&[a, b, c, above[0], d, e, above[1], above[2], f])
}

#[track_caller]
fn worked(given: [f64; 6], left: [f64; 6], index: [u32; 3], size: [u32; 3], mark: u32) {
    let factor = of_lower(given, 0);
    assert_eq!(one_nan(&lower(&factor.matrix().concat())), one_nan(&left));
    assert_eq!(factor.pivots(), Pivots { index, size, mark });
}

#[test]
fn the_factor_has_its_pivots_and_its_mark() {
    let nan = f64::NAN;
    let own = [0, 1, 2];
    worked(
        [4.0, 2.0, 6.0, 5.0, 5.0, 14.0],
        [4.0, 0.5, 1.5, 4.0, 0.5, 4.0],
        own,
        [1, 1, 1],
        0,
    );
    worked(
        [0.0, 3.0, 4.0, 4.0, 8.0, 16.0],
        [16.0, 0.5, 0.25, -1.0, -1.0, 1.0],
        [2, 2, 2],
        [1, 1, 1],
        0,
    );
    worked(
        [0.0, 2.0, 1.0, 0.0, 4.0, 5.0],
        [0.0, 2.0, 2.0, 0.0, 0.5, 1.0],
        [1, 1, 2],
        [2, 2, 1],
        0,
    );
    worked(
        [4.0, 0.0, 0.0, 0.0, 1.0, 0.0],
        [4.0, 0.0, 0.0, 0.0, 1.0, 0.0],
        [0, 2, 2],
        [1, 2, 2],
        0,
    );
    // equal maxima: the first is taken
    worked(
        [0.0, 3.0, -3.0, 0.0, 0.0, 0.0],
        [0.0, 3.0, 0.0, 0.0, -1.0, 0.0],
        [1, 1, 2],
        [2, 2, 1],
        3,
    );
    // a row without a pivot: zeros, NaN beside a zero, and NaN on the last diagonal
    for (given, mark) in [
        ([0.0, 0.0, 0.0, 1.0, 0.0, 1.0], 1),
        ([0.0, nan, 0.0, 1.0, 0.0, 1.0], 1),
        ([1.0, 0.0, 0.0, 0.0, 0.0, 1.0], 2),
        ([1.0, 0.0, 0.0, 0.0, nan, 1.0], 2),
        ([1.0, 0.0, 0.0, 1.0, 0.0, 0.0], 3),
        ([1.0, 0.0, 0.0, 1.0, 0.0, nan], 3),
    ] {
        worked(given, given, own, [1, 1, 1], mark);
    }
}

#[test]
fn the_solution_is_given_by_value() {
    let factor = handheld::factor([[4.0, 2.0, 6.0], [7.0, 5.0, 5.0], [7.0, 7.0, 14.0]]);
    let copy = factor;
    assert_eq!(factor.solve([26.0, 27.0, 58.0]), Ok([1.0, 2.0, 3.0]));
    assert_eq!(copy, factor);
    assert_eq!(
        format!("{factor:?}"),
        format!(
            "Factored {{ matrix: {:?}, pivots: {:?} }}",
            factor.matrix(),
            factor.pivots()
        )
    );
    let factor = handheld::factor([[0.0, 3.0, 4.0], [7.0, 4.0, 8.0], [7.0, 7.0, 16.0]]);
    assert_eq!(factor.solve([18.0, 35.0, 68.0]), Ok([1.0, 2.0, 3.0]));
    let factor = handheld::factor([[0.0, 2.0, 1.0], [7.0, 0.0, 4.0], [7.0, 7.0, 5.0]]);
    assert_eq!(factor.solve([7.0, 14.0, 24.0]), Ok([1.0, 2.0, 3.0]));
}

#[test]
fn a_mark_leads_back_to_the_callers_row() {
    // rows 0 and 2 are exchanged first, and then nothing is left of the others
    let factor = of_lower([1.0, 1.0, 2.0, 1.0, 2.0, 4.0], 1);
    assert_eq!(factor.zero_pivot(), Some(1));
    assert_eq!(factor.solve([1.0, 1.0, 1.0]), Err(Refusal::ZeroMark { row: 1 }));
    assert_eq!([0, 1, 2].map(|row| factor.callers_row(row)), [2, 1, 0]);
}

/// Every matrix whose lower part is made of these numbers.
fn every_matrix(numbers: &[f64], mut take: impl FnMut([f64; 6])) {
    for choice in 0..numbers.len().pow(6) {
        let at = |place| numbers[choice / numbers.len().pow(place) % numbers.len()];
        take([0, 1, 2, 3, 4, 5].map(at));
    }
}

#[test]
fn every_small_matrix_is_factored_and_solved_as_by_lblt() {
    let (mut seen, mut sizes, mut marks) = (0, [0; 3], [0; 4]);
    for numbers in [
        [0.0, 1.0, -2.0, f64::NAN],
        [-0.0, 2.0, 2f64.powi(600), 2f64.powi(-600)],
        [0.5, 3.0, f64::INFINITY, -1.0],
        [0.0, -f64::from_bits(1), 1.0, f64::MAX],
    ] {
        every_matrix(&numbers, |lower| {
            let Pivots { size, mark, .. } = of_lower(lower, seen).pivots();
            seen += 1;
            sizes[size.iter().position(|&size| size == 2).unwrap_or(2)] += 1;
            marks[mark as usize] += 1;
        });
    }
    // blocks of two from row 0 on, from row 1 on, and none; no mark, and each row's
    assert!(sizes.iter().all(|&count| count > 100), "{sizes:?}");
    assert!(marks.iter().all(|&count| count > 100), "{marks:?}");
}

#[test]
fn matrices_by_chance_are_factored_and_solved_as_by_lblt() {
    let mut numbers = Numbers(3);
    for turn in 0..4000 {
        factored(&numbers.symmetric(3));
        factored(&numbers.positive(3));
        // a small diagonal, for blocks of two
        let mut small = numbers.symmetric(3);
        for i in 0..3 {
            small[4 * i] /= 100.0;
        }
        factored(&small);
        small[numbers.below(9)] = strange(1, turn)[0];
        factored(&small);
        factored(&strange(9, turn));
    }
}

/// A number and its neighbours.
fn near(number: f64) -> [f64; 3] {
    [-1, 0, 1].map(|step| f64::from_bits(number.to_bits().wrapping_add_signed(step)))
}

#[test]
fn the_choice_of_a_pivot_turns_where_it_does_for_lblt() {
    let mut numbers = Numbers(8);
    let alpha = 0.6403882032022076;
    for turn in 0..2000 {
        let colmax = 0.75 + numbers.next() / 4.0;
        let rowmax = colmax + 0.5 + numbers.next() / 2.0;
        for bound in [alpha * colmax, (alpha * colmax) * (colmax / rowmax)] {
            for (diagonal, other) in near(bound).into_iter().zip(near(alpha * rowmax)) {
                of_lower([diagonal, colmax, colmax / 2.0, other, rowmax, 0.3], turn);
                of_lower([diagonal, colmax / 2.0, -colmax, 0.3, rowmax, other], turn);
            }
        }
        for (diagonal, other) in near(alpha * colmax).into_iter().zip(near(alpha * colmax)) {
            of_lower([1.0, 0.0, 0.0, diagonal, colmax, other], turn);
        }
    }
}

/// What is due to these pivots: the rule block by block from row 0 on, and then the mark.
fn due(pivots: Pivots) -> Result<(), Refusal> {
    let Pivots { index, size, mark } = pivots;
    let mut row = 0;
    while row < 3 {
        let one = size[row] == 1 && (row as u32..3).contains(&index[row]);
        let two = row < 2
            && (row as u32 + 1..3).contains(&index[row])
            && [size[row], size[row + 1]] == [2, 2]
            && index[row] == index[row + 1];
        match (one, two) {
            (true, _) => row += 1,
            (_, true) => row += 2,
            _ => return Err(Refusal::BadRecord { row }),
        }
    }
    match mark {
        0 => Ok(()),
        1..=3 if size[mark as usize - 1] == 1 && index[mark as usize - 1] == mark - 1 => {
            Err(Refusal::ZeroMark { row: mark as usize - 1 })
        }
        _ => Err(Refusal::BadRecord { row: 3 }),
    }
}

/// A solve by pivots that no factor call gave: by the rule, and as by `lblt::solve_mut`.
fn solved_by(pivots: Pivots, numbers: &mut Numbers) {
    let nine = [0; 9].map(|_| numbers.next());
    let side = [0; 3].map(|_| numbers.next());
    let solved = handheld::solve(columns(&nine), pivots, side);
    assert_eq!(solved.err(), due(pivots).err(), "{pivots:?}");
    let mut lent = side;
    let by_lblt = lblt::solve_mut(&nine, &record(pivots), &mut lent, 3, 1, RUN);
    assert_eq!(
        solved.map(|x| one_nan(&x)),
        by_lblt.map(|()| one_nan(&lent)),
        "{pivots:?}"
    );
}

/// Every choice of these for the seven words.
fn every_pivots(words: &[u32], mut take: impl FnMut(Pivots)) {
    for choice in 0..words.len().pow(7) {
        let at = |place| words[choice / words.len().pow(place) % words.len()];
        take(Pivots {
            index: [0, 1, 2].map(at),
            size: [3, 4, 5].map(at),
            mark: at(6),
        });
    }
}

#[test]
fn damaged_pivots_are_refused_at_the_first_row_that_breaks_the_rule() {
    let mut numbers = Numbers(5);
    let mut answers = [0; 7];
    every_pivots(&[0, 1, 2, 3, u32::MAX], |pivots| {
        solved_by(pivots, &mut numbers);
        answers[match due(pivots) {
            Ok(()) => 0,
            Err(refusal) => refusal.place() + if refusal.code() == 5 { 1 } else { 4 },
        }] += 1;
    });
    // 11 that are accepted; each row, and the mark where it is not sound
    assert_eq!(answers[0], 11);
    assert!(answers.iter().all(|&count| count > 0), "{answers:?}");
}

#[test]
fn a_word_of_sound_pivots_is_damaged_bit_by_bit() {
    let mut numbers = Numbers(6);
    every_pivots(&[0, 1, 2, 3], |sound| {
        if matches!(due(sound), Err(Refusal::BadRecord { .. })) {
            return;
        }
        for _ in 0..20 {
            solved_by(sound, &mut numbers);
        }
        for bit in 0..32 {
            for row in 0..3 {
                let mut damaged = sound;
                damaged.index[row] ^= 1 << bit;
                solved_by(damaged, &mut numbers);
                let mut damaged = sound;
                damaged.size[row] ^= 1 << bit;
                solved_by(damaged, &mut numbers);
            }
            let mark = sound.mark ^ 1 << bit;
            solved_by(Pivots { mark, ..sound }, &mut numbers);
        }
    });
}

#[test]
fn a_refusal_says_where() {
    let matrix = columns(&[1.0; 9]);
    let sound = Pivots {
        index: [0, 1, 2],
        size: [1, 1, 1],
        mark: 0,
    };
    let refused = |pivots| handheld::solve(matrix, pivots, [1.0; 3]).unwrap_err();
    let row = refused(Pivots {
        index: [0, 0, 2],
        ..sound
    });
    assert_eq!((row.code(), row.place()), (5, 1));
    assert!(row.to_string().contains("damaged at row 1"), "{row}");
    let mark = refused(Pivots { mark: 4, ..sound });
    assert_eq!((mark.code(), mark.place()), (5, 3));
    assert!(mark.to_string().contains("at its mark, if the order is 3"), "{mark}");
    let marked = refused(Pivots { mark: 3, ..sound });
    assert_eq!((marked.code(), marked.place()), (6, 2));
    assert!(marked.to_string().contains("at its row 2"), "{marked}");
}
