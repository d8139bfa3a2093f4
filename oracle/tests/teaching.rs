//! Document 02's plain Cholesky for teaching, answered by the text and by the steps, and held against their factor.

use std::collections::BTreeSet;

use oracle::call::{Call, Calls, Case, Outcome, words};
use oracle::cases::{fill, largest_taught, taught, taught_orders, taught_refusals, taught_small};
use oracle::line::{case_line, outcome_line, parse_case};
use oracle::list::Machine;
use oracle::paper::Paper;
use oracle::teaching::{Law, MOST, beside, factor, kept, law};
use oracle::text::Text;

const BOTH: [&dyn Calls; 2] = [&Text, &Paper];

const LEAST: f64 = f64::from_bits(1);
const NAN: f64 = f64::NAN;

/// A matrix by its lower rows, in a room.
fn placed(n: usize, room: usize, lower: &[f64]) -> Vec<f64> {
    let mut a: Vec<f64> = (0..room * room).map(fill).collect();
    let mut given = lower.iter();
    for i in 0..n {
        for j in 0..=i {
            a[i + j * room] = *given.next().unwrap();
        }
    }
    a
}

fn lent(n: usize, room: usize, lower: &[f64]) -> Case {
    Case { x: room, ..Case::new(Call::CholeskyTeaching, n, placed(n, room, lower)) }
}

/// In rooms of the order and more: the code, the row and the lower rows.
fn gives(n: usize, lower: &[f64], code: u64, row: u64, left: &[f64]) {
    for calls in BOTH {
        for room in [n, n + 1, n + 3] {
            let found = lent(n, room, lower).outcome(calls);
            assert_eq!((found.answer / 4096, found.answer % 4096), (code, row), "{lower:?}");
            assert_eq!(found.a, words(&placed(n, room, left)), "{lower:?} in a room of {room}");
        }
    }
}

/// Accepted as the factor; refused, the rows below stay as given, where the factor updates them.
#[test]
fn worked() {
    gives(0, &[], 0, 0, &[]);
    gives(1, &[4.0], 0, 0, &[2.0]);
    gives(2, &[4.0, 2.0, 5.0], 0, 0, &[2.0, 1.0, 2.0]);
    gives(3, &[4.0, 2.0, 5.0, 6.0, 7.0, 26.0], 0, 0, &[2.0, 1.0, 2.0, 3.0, 2.0, 13f64.sqrt()]);
    gives(3, &[4.0, 2.0, 0.0, 6.0, 7.0, 22.0], 10, 1, &[2.0, 1.0, -1.0, 6.0, 7.0, 22.0]);
    gives(3, &[-1.0, 2.0, 5.0, 6.0, 7.0, 26.0], 10, 0, &[-1.0, 2.0, 5.0, 6.0, 7.0, 26.0]);
    gives(3, &[4.0, 2.0, 5.0, 6.0, 7.0, 13.0], 7, 2, &[2.0, 1.0, 2.0, 3.0, 2.0, 0.0]);
    gives(3, &[4.0, NAN, 5.0, 6.0, 7.0, 26.0], 11, 1, &[2.0, NAN, NAN, 6.0, 7.0, 26.0]);
    gives(2, &[1.0, f64::INFINITY, 1.0], 10, 1, &[1.0, f64::INFINITY, f64::NEG_INFINITY]);
    gives(2, &[f64::INFINITY, 1.0, 9.0], 0, 0, &[f64::INFINITY, 0.0, 3.0]);
    gives(1, &[LEAST], 0, 0, &[f64::from_bits(0x1e60_0000_0000_0000)]);
    // one product after the other: of their sum less than zero would be left
    gives(3, &[1.0, 0.0, 1.0, 0.3, 0.1, 0.1], 0, 0, &[1.0, 0.0, 1.0, 0.3, 0.1, 2.634178031930877e-9]);
}

/// Each way for a diagonal to be turned down, in each row.
#[test]
fn diagonals() {
    let failing = [(0.0, 7), (-0.0, 7), (-1.0, 10), (-LEAST, 10), (f64::MIN, 10), (f64::NEG_INFINITY, 10), (NAN, 11), (-NAN, 11)];
    for (x, code) in failing {
        gives(3, &[x, 2.0, 5.0, 6.0, 7.0, 26.0], code, 0, &[x, 2.0, 5.0, 6.0, 7.0, 26.0]);
        gives(3, &[4.0, 0.0, x, 6.0, 7.0, 26.0], code, 1, &[2.0, 0.0, x, 6.0, 7.0, 26.0]);
        gives(3, &[4.0, 2.0, 5.0, 0.0, 0.0, x], code, 2, &[2.0, 1.0, 2.0, 0.0, 0.0, x]);
    }
}

/// Rows that came twice: a crumb above zero is accepted, zero and less are refused.
#[test]
fn twins() {
    for (x, code) in [(2.0, 0), (7.0, 0), (1.0, 7), (49.0, 7), (3.0, 10), (f64::INFINITY, 11)] {
        for calls in BOTH {
            let found = lent(2, 2, &[x, x, x]).outcome(calls);
            assert_eq!(found.answer, if code == 0 { 0 } else { code << 12 | 1 }, "{x}");
        }
    }
    gives(2, &[2.0, 2.0, 2.0], 0, 0, &[2f64.sqrt(), 2.0 / 2f64.sqrt(), f64::from_bits(0x3e56_a09e_667f_3bcd)]);
}

/// Document 02: 1 for an order above 64 or a room above 1,024, then 2, then 3; nothing is written.
#[test]
fn refused() {
    let answer = |calls: &dyn Calls, room: usize, n: usize, len: usize| {
        let mut a = vec![-1.0; len];
        let answer = calls.cholesky_teaching(&mut a, room, n);
        assert_eq!((answer % 4096, a), (0, vec![-1.0; len]));
        answer / 4096
    };
    for calls in BOTH {
        let answer = |room: usize, n: usize, len: usize| answer(calls, room, n, len);
        for far in [65, 66, 1024, 1025, 1 << 32, 1 << 63, usize::MAX] {
            assert_eq!([answer(1, far, 1), answer(64, far, 4096), answer(far, far, 1), answer(65, far, 65 * 65)], [1; 4]);
        }
        for far in [1025, 1 << 32, 1 << 63, usize::MAX] {
            assert_eq!([answer(far, 0, 0), answer(far, 64, 1), answer(far, 65, 1)], [1; 3]);
        }
        assert_eq!([answer(1, 2, 1), answer(0, 1, 0), answer(63, 64, 63 * 63), answer(63, 64, 1)], [2; 4]);
        assert_eq!([answer(1, 1, 0), answer(1, 1, 2), answer(64, 64, 4095), answer(1024, 64, 4096), answer(0, 0, 1)], [3; 5]);
        assert_eq!([answer(64, 64, 4096), answer(63, 63, 63 * 63), answer(1024, 64, 1 << 20), answer(1, 1, 1)], [10; 4]);
    }
}

fn hold(case: &Case, calls: &dyn Calls) -> Outcome {
    let (left, found) = (factor(case).outcome(calls), case.outcome(calls));
    assert!(kept(case, &left) == found, "{}", case_line(case));
    found
}

/// The cases that need no chance, and some that do: both answer alike, as their factor does, and every order and every way to be refused is among them.
#[test]
fn beside_the_factor() {
    let fixed = [taught_small(), taught_orders(), taught_refusals(), largest_taught()];
    let cases = fixed.into_iter().flatten().chain((1..=300).flat_map(taught));
    let mut seen = BTreeSet::new();
    for case in cases {
        let [text, steps] = BOTH.map(|calls| hold(&case, calls));
        assert!(text == steps, "{}", case_line(&case));
        seen.insert((case.n, text.answer));
    }
    for n in 0..=MOST {
        assert!(seen.contains(&(n, 0)), "order {n} is accepted");
    }
    for code in [7, 10, 11] {
        assert!((1..=MOST).all(|n| seen.contains(&(n, code << 12 | (n as u64 - 1)))), "every order refused by {code} at its last row");
        assert!((0..64).all(|row| seen.contains(&(MOST, code << 12 | row))), "order 64 refused by {code} at every row");
    }
    assert!([65, 1024, 1025].iter().all(|&n| seen.contains(&(n, 1 << 12))));
}

/// Each law holds where it speaks, and turns down an outcome that breaks it.
#[test]
fn laws_beside_the_factor() {
    use Law::*;
    let accepted = lent(2, 3, &[4.0, 2.0, 5.0]);
    let refused = lent(3, 4, &[4.0, 2.0, 0.0, 6.0, 7.0, 22.0]);
    let short = Case { x: 1, ..accepted.clone() };
    let identity: Vec<f64> = (0..65).flat_map(|i| (0..=i).map(move |j| if i == j { 1.0 } else { 0.0 })).collect();
    let beyond = lent(65, 65, &identity);
    for calls in BOTH {
        for (case, named) in [(&accepted, Accepts), (&refused, RefusesRow), (&short, RefusesSizes), (&beyond, AboveMost)] {
            let left = factor(case).outcome(calls);
            let found = hold(case, calls);
            assert_eq!(law(case, &left), named);
            assert_eq!(found == left, matches!(named, Accepts | RefusesSizes));
            assert_ne!(Outcome { answer: found.answer ^ 1, ..kept(case, &left) }, found);
            for at in (0..case.a.len()).step_by(case.a.len() / 9) {
                let mut changed = found.clone();
                changed.a[at] ^= 1;
                assert_ne!(kept(case, &left), changed);
            }
        }
    }
    assert_eq!(beside(&factor(&refused)).map(|case| case_line(&case)), Some(case_line(&refused)));
    assert!(beside(&refused).is_none());
}

/// The teaching call as a line, and in a stored list.
#[test]
fn written_down() {
    let line = "cholesky_teaching 2 2 ; 4010000000000000 4000000000000000 0000000000000007 4014000000000000";
    let case = parse_case(line).unwrap();
    assert_eq!((case.x, case.n, case.a.len(), case.second(), case.third()), (2, 2, 4, 2, 0));
    assert_eq!(case_line(&case), line);
    assert!(parse_case(&line.replace("teaching 2", "teaching")).is_err());
    let [minus, one, two, four, five] = [-1.0f64, 1.0, 2.0, 4.0, 5.0].map(f64::to_bits);
    let set = |words: &[u64]| [&[2 | (words.len() as u64) << 16][..], words].concat();
    let same = |words: &[u64]| [&[7 | (words.len() as u64) << 16][..], words].concat();
    let call = |numbers: [u64; 5]| [&[6 | 27 << 8][..], &numbers].concat();
    let list = [
        set(&[four, two, 7, five]),
        call([2, 2, 0, 0, 0]),
        same(&[two, one, 7, two]),
        set(&[minus, two, 7, five]),
        call([2, 2, 0, 10 << 12, 0]),
        call([65, 65, 0, 1 << 12, 0]),
        call([2, 1, 0, 2 << 12, 0]),
        same(&[minus, two, 7, five]),
    ]
    .concat();
    for calls in BOTH {
        assert_eq!(outcome_line(&case, &case.outcome(calls)), "0 ; 4000000000000000 3ff0000000000000 0000000000000007 4000000000000000");
        let mut machine = Machine::new(calls);
        machine.replay(&list);
        assert_eq!((machine.calls_made, machine.differences), (4, vec![]));
    }
}
