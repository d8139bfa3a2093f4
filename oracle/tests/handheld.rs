//! Document 02's handheld, answered by the text and by the steps for three rows, and held against their lent calls of order 3.

use std::collections::BTreeSet;

use oracle::by_value::{beside, factor, kept, lent, pivots, solve};
use oracle::call::{Call, Calls, Case, Outcome, Pivots3, words};
use oracle::cases::{fill, held, held_few, held_pivots, held_sides, held_special};
use oracle::line::{case_line, outcome_line, parse_case};
use oracle::list::Machine;
use oracle::paper::Paper;
use oracle::text::Text;

const BOTH: [&dyn Calls; 2] = [&Text, &Paper];

const NAN: f64 = f64::NAN;

/// A matrix by its lower rows; a number of its own in each other place.
fn matrix(lower: [f64; 6]) -> Vec<f64> {
    let mut a: Vec<f64> = (0..9).map(fill).collect();
    for (at, x) in [0, 1, 4, 2, 5, 8].into_iter().zip(lower) {
        a[at] = x;
    }
    a
}

fn three(index: [u32; 3], size: [u32; 3], mark: u32) -> Pivots3 {
    Pivots3 { index, size, mark }
}

/// The factor and its pivots, then the answer to a side and what it becomes.
fn gives(lower: [f64; 6], left: [f64; 6], of: Pivots3, side: [f64; 3], answer: u64, solved: [f64; 3]) {
    for calls in BOTH {
        let found = factor(matrix(lower)).outcome(calls);
        assert_eq!((found.answer, found.a, pivots(&found.record)), (0, words(&matrix(left)), of), "{lower:?}");
        let found = solve(matrix(left), of, side.to_vec()).outcome(calls);
        assert_eq!((found.answer, found.b), (answer, words(&solved)), "{lower:?}");
    }
}

/// Each kind of blocks, exchanged and not, and a mark in each row.
#[test]
fn worked() {
    let ones = [1; 3];
    gives([4.0, 2.0, 3.0, 0.0, 1.0, 5.0], [4.0, 0.5, 2.0, 0.0, 0.5, 4.5], three([0, 1, 2], ones, 0), [8.0, 11.0, 17.0], 0, [1.0, 2.0, 3.0]);
    gives([0.0, 0.0, 3.0, 2.0, 0.0, 4.0], [4.0, 0.0, 3.0, 0.5, 0.0, -1.0], three([2, 1, 2], ones, 0), [6.0, 6.0, 14.0], 0, [1.0, 2.0, 3.0]);
    gives(
        [2.0, 0.0, 0.0, 0.0, 1.0, 0.0],
        [2.0, 0.0, 0.0, 0.0, 1.0, 0.0],
        three([0, 2, 2], [1, 2, 2], 0),
        [4.0, 3.0, 5.0],
        0,
        [2.0, 5.0, 3.0],
    );
    gives(
        [0.0, 1.0, 0.0, 0.0, 0.0, 2.0],
        [0.0, 1.0, 0.0, -0.0, -0.0, 2.0],
        three([1, 1, 2], [2, 2, 1], 0),
        [3.0, 5.0, 4.0],
        0,
        [5.0, 3.0, 2.0],
    );
    let side = [3.0, NAN, -0.0];
    let marked = |lower: [f64; 6], left: [f64; 6], row: u32| {
        gives(lower, left, three([0, 1, 2], ones, row + 1), side, 6 << 12 | u64::from(row), side);
    };
    marked([0.0, -0.0, 2.0, 0.0, 0.0, 0.0], [0.0, -0.0, 2.0, 0.0, 0.0, 0.0], 0);
    marked([2.0, 0.0, -0.0, 0.0, 0.0, NAN], [2.0, 0.0, -0.0, 0.0, 0.0, NAN], 1);
    marked([1.0, 0.0, 1.0, 0.0, 0.0, NAN], [1.0, 0.0, 1.0, 0.0, 0.0, NAN], 2);
    marked([0.0, NAN, 5.0, NAN, 2.0, 1.0], [0.0, NAN, 5.0, NAN, 0.4, 1.0 + (2.0 * -0.2) * 2.0], 0);
}

/// Document 01's matrices of order 3: of equal maxima the first, and a ratio that underflows.
#[test]
fn document() {
    let (tiny, huge) = (f64::from_bits((1023 - 600) << 52), f64::from_bits((1023 + 600) << 52));
    for calls in BOTH {
        let of = |lower: [f64; 6]| pivots(&factor(matrix(lower)).outcome(calls).record);
        assert_eq!(of([0.0, 3.0, 1.0, -3.0, 2.0, 1.0]).index[0], 1);
        assert_eq!(of([0.0, tiny, 0.0, 0.0, huge, 0.0]), three([0, 1, 2], [1; 3], 3));
    }
}

/// 5 at the first row that breaks the rule, or at 3 for the mark, then 6; the side comes back as given.
#[test]
fn refused() {
    let (ones, one_two, two_one) = ([1; 3], [1, 2, 2], [2, 2, 1]);
    let side = [1.0, NAN, -0.0];
    let most = u32::MAX;
    let table = [
        (5, 0, [([3, 1, 2], ones, 0), ([most, 1, 2], ones, 9), ([0, 2, 2], two_one, 0), ([1, 2, 2], two_one, 0)]),
        (5, 0, [([0, 1, 2], [0, 1, 1], 0), ([1, 1, 2], [2, 1, 1], 0), ([0, 1, 2], [most, 1, 1], 0), ([3, 3, 2], two_one, 0)]),
        (5, 0, [([0, 1, 2], [3, 1, 1], 0), ([3, 0, 0], [4, 4, 4], 4), ([2, 1, 2], two_one, 0), ([2, 2, 2], [2, 0, 1], 0)]),
        (5, 1, [([0, 0, 2], ones, 0), ([0, 3, 2], ones, 0), ([0, 1, 2], one_two, 0), ([0, 2, 1], one_two, 0)]),
        (5, 1, [([0, 1, 2], [1, 0, 1], 0), ([0, 2, 2], [1, 2, 1], 0), ([0, 2, 2], [1, 3, 2], 7), ([2, most, 2], ones, 0)]),
        (5, 2, [([0, 1, 1], ones, 0), ([0, 1, 3], ones, 4), ([1, 1, 2], [2, 2, 2], 0), ([2, 2, 0], two_one, 0)]),
        (5, 2, [([0, 1, 2], [1, 1, 0], 0), ([0, 1, 2], [1, 1, 2], 1), ([0, 2, 2], [1, 1, most], 0), ([2, 2, 3], two_one, 3)]),
        (5, 3, [([0, 1, 2], ones, 4), ([1, 1, 2], ones, 1), ([0, 2, 2], ones, 2), ([0, 1, 2], ones, most)]),
        (5, 3, [([0, 2, 2], one_two, 2), ([0, 2, 2], one_two, 3), ([1, 1, 2], two_one, 1), ([2, 2, 2], two_one, 2)]),
        (6, 0, [([0, 1, 2], ones, 1), ([0, 2, 2], ones, 1), ([0, 2, 2], one_two, 1), ([0, 1, 2], ones, 1)]),
        (6, 1, [([0, 1, 2], ones, 2), ([1, 1, 2], ones, 2), ([2, 1, 2], ones, 2), ([0, 1, 2], ones, 2)]),
        (6, 2, [([0, 1, 2], ones, 3), ([2, 2, 2], ones, 3), ([1, 1, 2], two_one, 3), ([2, 2, 2], two_one, 3)]),
    ];
    for (code, place, all) in table {
        for (index, size, mark) in all {
            let case = solve(matrix([1.0; 6]), three(index, size, mark), side.to_vec());
            for calls in BOTH {
                let found = case.outcome(calls);
                assert_eq!((found.answer / 4096, found.answer % 4096, found.b), (code, place, words(&side)), "{}", case_line(&case));
            }
        }
    }
}

fn hold(case: &Case, calls: &dyn Calls) -> Outcome {
    let found = case.outcome(calls);
    assert!(kept(case, &lent(case).outcome(calls)) == found, "{}", case_line(case));
    found
}

/// Some of the cases that need no chance, and some that do: both answer alike, as their lent calls do, and all pivots that keep the rule, all marks and
/// all answers are among them.
#[test]
fn beside_the_lent() {
    let fixed = held_few().step_by(17).chain(held_special().step_by(19)).chain(held_pivots().step_by(3)).chain(held_sides().step_by(5));
    let mut seen = BTreeSet::new();
    let mut answers = BTreeSet::new();
    for case in fixed.chain((1..=2000).flat_map(held)) {
        let [text, steps] = BOTH.map(|calls| hold(&case, calls));
        assert!(text == steps, "{}", case_line(&case));
        match case.call {
            Call::HandheldFactor => _ = seen.insert(pivots(&text.record).words()),
            _ => _ = answers.insert((text.answer / 4096, text.answer % 4096)),
        }
    }
    let pairs: BTreeSet<&[u32]> = seen.iter().map(|words| &words[..6]).collect();
    assert_eq!(pairs.len(), 11);
    assert!((0..4).all(|mark| seen.iter().any(|words| words[6] == mark)));
    assert_eq!(answers, BTreeSet::from([(0, 0), (5, 0), (5, 1), (5, 2), (5, 3), (6, 0), (6, 1), (6, 2)]));
}

/// What is kept turns down an outcome with any other answer, number or word; above the diagonal too.
#[test]
fn kept_is_all_of_it() {
    let matrix = matrix([0.5, 2.0, 8.0, 1.0, 3.0, 9.0]);
    let sound = three([1, 2, 2], [1; 3], 0);
    let cases =
        [factor(matrix.clone()), solve(matrix.clone(), sound, vec![1.0, 2.0, 3.0]), solve(matrix, three([0; 3], [1; 3], 0), vec![4.0; 3])];
    for calls in BOTH {
        for case in &cases {
            let found = hold(case, calls);
            let all = kept(case, &lent(case).outcome(calls));
            assert_ne!(Outcome { answer: found.answer ^ 1, ..found.clone() }, all);
            for at in 0..found.a.len() + found.b.len() + found.record.len() {
                let mut changed = found.clone();
                match at {
                    0..9 => changed.a[at] ^= 1,
                    9..16 => changed.record[at - 9] ^= 1,
                    _ => changed.b[at - 16] ^= 1,
                }
                assert_ne!(changed, all);
            }
        }
    }
}

/// Beside a lent call of order 3: of a solve one for each column, whatever run it expects; beside no other.
#[test]
fn beside_which() {
    let a: Vec<f64> = (0..9).map(fill).collect();
    let record = vec![0, 1, 2, 2, 2, 2, 0, 7];
    let lent = Case { run: 7, record, ..Case::new(Call::LbltFactor, 3, a) };
    let solves = Case { call: Call::LbltSolve, x: 2, run: 8, b: vec![1.0, 2.0, 3.0, 4.0, 5.0, 6.0], ..lent.clone() };
    let found = beside(&solves);
    assert_eq!(found.iter().map(|case| case.b.clone()).collect::<Vec<_>>(), [[1.0, 2.0, 3.0], [4.0, 5.0, 6.0]]);
    assert!(found.iter().all(|case| case.record == [0, 2, 2, 1, 2, 2, 0] && case.a == lent.a));
    assert_eq!(beside(&lent).len(), 1);
    assert!(beside(&Case { n: 2, ..lent.clone() }).is_empty());
    assert!(beside(&Case { x: 1, ..solves.clone() }).is_empty());
    assert!(beside(&Case { record: vec![0; 7], ..solves }).is_empty());
    assert!(beside(&Case { call: Call::LbltDeterminant, ..lent }).is_empty());
}

/// The handheld's calls as lines, and in a stored list.
#[test]
fn written_down() {
    let line = "handheld_solve ; 4000000000000000 0000000000000000 0000000000000000 0000000000000007 0000000000000000 \
                3ff0000000000000 0000000000000007 0000000000000007 0000000000000000 ; \
                00000000 00000002 00000002 00000001 00000002 00000002 00000000 ; \
                4010000000000000 4008000000000000 4014000000000000";
    let case = parse_case(line).unwrap();
    assert_eq!((case.a.len(), case.record.len(), case.b.len(), case.second(), case.third()), (9, 7, 3, 0, 0));
    assert_eq!(case_line(&case), line);
    assert!(parse_case(&line.replace("solve ;", "solve 3 ;")).is_err());
    let [one, two, three, four, five] = [1.0f64, 2.0, 3.0, 4.0, 5.0].map(f64::to_bits);
    let set = |which: u64, words: &[u64]| [&[2 | which << 8 | (words.len() as u64) << 16][..], words].concat();
    let same = |which: u64, words: &[u64]| [&[7 | which << 8 | (words.len() as u64) << 16][..], words].concat();
    let call = |which: u64, answer: u64| vec![6 | which << 8, 0, 0, 0, answer, 0];
    let matrix = [two, 0, 0, 7, 0, one, 7, 7, 0];
    let list = [
        set(0, &matrix),
        set(3, &[9; 7]),
        call(28, 0),
        same(0, &matrix),
        same(3, &[0, 2, 2, 1, 2, 2, 0]),
        set(1, &[four, three, five]),
        call(29, 0),
        same(1, &[two, five, three]),
        set(3, &[0, 2, 2, 1, 2, 2, 1]),
        call(29, 6 << 12),
        set(3, &[0, 2, 2, 1, 2, 1, 1]),
        call(29, 5 << 12 | 1),
        same(1, &[two, five, three]),
    ]
    .concat();
    for calls in BOTH {
        let found = outcome_line(&case, &case.outcome(calls));
        assert!(found.starts_with("0 ; 4000000000000000 ") && found.ends_with("4000000000000000 4014000000000000 4008000000000000"));
        let mut machine = Machine::new(calls);
        machine.replay(&list);
        assert_eq!((machine.calls_made, machine.differences), (4, vec![]));
    }
}
