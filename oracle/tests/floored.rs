//! Document 02's floor for the diagonal, answered by the text and by the steps.

use oracle::call::{Call, Calls, Case, Outcome, words};
use oracle::cases::{Chain, FAILING, PASSING, fill, filled};
use oracle::floored::{Law, floored_batches, laws, one_call, plain, together};
use oracle::line::{case_line, outcome_line, parse_case};
use oracle::list::Machine;
use oracle::paper::Paper;
use oracle::text::Text;

const BOTH: [&dyn Calls; 2] = [&Text, &Paper];

const LEAST: f64 = f64::from_bits(1);
const NAN: f64 = f64::NAN;

/// A matrix by its lower rows.
fn matrix(n: usize, lower: &[f64]) -> Vec<f64> {
    let mut a = filled(n * n);
    let mut given = lower.iter();
    for i in 0..n {
        for j in 0..=i {
            a[i + j * n] = *given.next().unwrap();
        }
    }
    a
}

/// The code and place, the count, and the buffer.
type Left = ((u64, u64), u64, Vec<u64>);

fn left(outcome: &Outcome) -> Left {
    ((outcome.answer / 4096, outcome.answer % 4096), outcome.value.unwrap(), outcome.a.clone())
}

fn factored(calls: &dyn Calls, n: usize, lower: &[f64], floor: f64) -> Left {
    left(&Case { x: n, floor, ..Case::new(Call::CholeskyFactorFloored, n, matrix(n, lower)) }.outcome(calls))
}

fn extended(calls: &dyn Calls, earlier: usize, n: usize, lower: &[f64], floor: f64) -> Left {
    left(&Case { x: n, y: earlier, floor, ..Case::new(Call::CholeskyExtendFloored, n, matrix(n, lower)) }.outcome(calls))
}

fn gives(code: u64, place: u64, used: u64, n: usize, lower: &[f64]) -> Left {
    ((code, place), used, words(&matrix(n, lower)))
}

/// The worked cases, at once and in a batch.
#[test]
fn worked() {
    for calls in BOTH {
        assert_eq!(factored(calls, 2, &[1.0, 1.0, 1.0], 4.0), gives(0, 0, 1, 2, &[1.0, 1.0, 2.0]));
        assert_eq!(extended(calls, 1, 2, &[1.0, 1.0, 1.0], 4.0), gives(0, 0, 1, 2, &[1.0, 1.0, 2.0]));
        assert_eq!(factored(calls, 1, &[-1.0], -1.0), gives(10, 0, 0, 1, &[-1.0]));
        assert_eq!(extended(calls, 0, 1, &[-1.0], -1.0), gives(10, 0, 0, 1, &[-1.0]));
        // the rows below are divided by the root of the floor, and what comes after is by them
        assert_eq!(factored(calls, 2, &[0.0, 6.0, 13.0], 4.0), gives(0, 0, 1, 2, &[2.0, 3.0, 2.0]));
        assert_eq!(factored(calls, 3, &[-5.0, 6.0, 9.0, 8.0, 0.0, 56.0], 4.0), gives(0, 0, 2, 3, &[2.0, 3.0, 2.0, 4.0, -6.0, 2.0]));
        // rows that came twice, and three times
        assert_eq!(factored(calls, 3, &[1.0; 6], 4.0), gives(0, 0, 2, 3, &[1.0, 1.0, 2.0, 1.0, 0.0, 2.0]));
        // NaN in a row: it stays, and the diagonals behind it use the floor
        assert_eq!(factored(calls, 3, &[1.0, NAN, 1.0, 2.0, 3.0, 4.0], 9.0), gives(0, 0, 2, 3, &[1.0, NAN, 3.0, 2.0, NAN, 3.0]));
        assert_eq!(factored(calls, 2, &[NAN, 2.0, 5.0], 4.0), gives(0, 0, 1, 2, &[2.0, 1.0, 2.0]));
        assert_eq!(factored(calls, 0, &[], 4.0), gives(0, 0, 0, 0, &[]));
    }
}

/// A diagonal that fails meets every floor: its root if it passes, otherwise the refusal is the diagonal's own. One that passes meets none.
#[test]
fn floors() {
    let failing = [(0.0, 7), (-0.0, 7), (-1.0, 10), (-LEAST, 10), (f64::MIN, 10), (f64::NEG_INFINITY, 10), (NAN, 11), (-NAN, 11)];
    let passing = [LEAST, 1.0, 2.0, f64::MAX, f64::INFINITY];
    let half = |x: f64| [1.0, 0.0, x, 0.5, 3.0, 50.0];
    for calls in BOTH {
        for floor in PASSING {
            let root = floor.sqrt();
            for (x, _) in failing {
                assert_eq!(factored(calls, 1, &[x], floor), gives(0, 0, 1, 1, &[root]));
                let below = 3.0 / root;
                let (answer, used, a) = extended(calls, 1, 3, &half(x), floor);
                assert_eq!((answer, used), ((0, 0), if below.is_finite() && 49.75 - below * below > 0.0 { 1 } else { 2 }), "{x} {floor}");
                assert_eq!(a[..6], words(&[1.0, 0.0, 0.5, fill(3), root, below]));
            }
        }
        for floor in FAILING {
            for (x, code) in failing {
                assert_eq!(factored(calls, 1, &[x], floor), gives(code, 0, 0, 1, &[x]));
                assert_eq!(extended(calls, 1, 3, &half(x), floor), gives(code, 1, 0, 3, &half(x)));
            }
        }
        for floor in FAILING.into_iter().chain(PASSING) {
            for x in passing {
                assert_eq!(factored(calls, 1, &[x], floor), gives(0, 0, 0, 1, &[x.sqrt()]));
            }
            assert_eq!(factored(calls, 2, &[4.0, 2.0, 5.0], floor), gives(0, 0, 0, 2, &[2.0, 1.0, 2.0]));
        }
        assert_eq!(factored(calls, 1, &[0.0], LEAST).2, [0x1e60_0000_0000_0000]);
        // the buffer as the plain call leaves it: column 1 updated and undivided, column 2 as given
        let refused = gives(10, 1, 0, 3, &[2.0, 1.0, -1.0, 3.0, 4.0, 22.0]);
        assert_eq!(factored(calls, 3, &[4.0, 2.0, 0.0, 6.0, 7.0, 22.0], -1.0), refused);
    }
}

/// Columns of earlier rows are neither tested nor counted.
#[test]
fn earlier_rows() {
    for calls in BOTH {
        for floor in [4.0, -1.0] {
            assert_eq!(extended(calls, 1, 2, &[-2.0, 2.0, 5.0], floor), gives(0, 0, 0, 2, &[-2.0, -1.0, 2.0]));
            assert_eq!(extended(calls, 2, 2, &[NAN, 2.0, -5.0], floor), gives(0, 0, 0, 2, &[NAN, 2.0, -5.0]));
        }
        assert_eq!(extended(calls, 1, 2, &[-2.0, 2.0, 1.0], 9.0), gives(0, 0, 1, 2, &[-2.0, -1.0, 3.0]));
        assert_eq!(extended(calls, 1, 2, &[-2.0, 2.0, 1.0], -9.0), gives(7, 1, 0, 2, &[-2.0, -1.0, 0.0]));
        // what stands outside the first n rows stays
        let mut a = vec![fill(0); 9];
        a[0] = -1.0;
        assert_eq!(calls.cholesky_factor_floored(&mut a, 3, 1, 4.0), (0, 1));
        assert_eq!((a[0], &a[1..]), (2.0, &[fill(0); 8][..]));
    }
}

/// Document 02: codes 1 to 3 report 0, write nothing and come before any diagonal.
#[test]
fn refused() {
    let answer = |calls: &dyn Calls, room: usize, earlier: usize, n: usize, len: usize, floor: f64| {
        let mut a = vec![-1.0; len];
        let (answer, used) = calls.cholesky_extend_floored(&mut a, room, earlier, n, floor);
        if earlier == 0 {
            assert_eq!(calls.cholesky_factor_floored(&mut a, room, n, floor), (answer, used));
        }
        assert_eq!((answer % 4096, used, a), (0, 0, vec![-1.0; len]));
        answer / 4096
    };
    for calls in BOTH {
        for floor in [4.0, -1.0, NAN] {
            let answer = |room: usize, earlier: usize, n: usize, len: usize| answer(calls, room, earlier, n, len, floor);
            for far in [1025, 1 << 32, 1 << 63, usize::MAX] {
                assert_eq!([answer(far, 0, 1, 1), answer(1, far, 1, 1), answer(1, 0, far, 1), answer(far, far, far, 1)], [1; 4]);
            }
            assert_eq!([answer(1, 0, 2, 1), answer(1, 2, 1, 1), answer(0, 0, 1, 0), answer(3, 2, 1, 0)], [2; 4]);
            assert_eq!([answer(1, 0, 1, 0), answer(1, 0, 1, 2), answer(2, 1, 2, 3), answer(1024, 0, 1024, 1)], [3; 4]);
        }
    }
}

#[test]
fn order_1024() {
    let n = 1024;
    let a: Vec<f64> = (0..n * n).map(|at| if at % (n + 1) == 0 { -1.0 } else { 0.0 }).collect();
    for calls in BOTH {
        let mut root = a.clone();
        assert_eq!(calls.cholesky_factor_floored(&mut root, n, n, 4.0), (0, n as u64));
        assert!((0..n).all(|j| root[j + j * n] == 2.0));
        assert_eq!(calls.cholesky_extend_floored(&mut a.clone(), n, 1000, n, 4.0), (0, 24));
        assert_eq!(calls.cholesky_factor_floored(&mut a.clone(), n, n, 0.0), (10 * 4096, 0));
    }
}

/// Document 02: demand 3 with one floor for all batches, and the counts add up.
#[test]
fn batches() {
    let lower = [0.0, 6.0, 13.0, 1.0, 1.0, -7.0, 2.0, 0.0, NAN, 8.0];
    let accepted = [4.0, 2.0, 5.0, 2.0, 5.0, 5.0, 4.0, 4.0, 4.0, 14.0];
    for lower in [lower, accepted] {
        for floor in [4.0, 1e-12, LEAST, f64::INFINITY, -1.0, NAN] {
            for cuts in [vec![4], vec![0, 1, 2, 3, 4], vec![2, 2, 4], vec![1, 4], vec![3], vec![3, 4], vec![0]] {
                let chain = Chain { a: matrix(4, &lower), n: 4, room: 4, cuts };
                for calls in BOTH {
                    let batches = floored_batches(calls, &chain, floor);
                    for upto in 1..=batches.len() {
                        let (last, _) = &batches[upto - 1];
                        assert_eq!(together(&batches[..upto]), Some(one_call(&chain, last.n, floor).outcome(calls)));
                    }
                }
            }
        }
    }
    let chain = Chain { a: matrix(4, &lower), n: 4, room: 4, cuts: vec![1, 2, 4] };
    for calls in BOTH {
        let counts: Vec<_> = floored_batches(calls, &chain, 4.0).iter().map(|(_, left)| left.value.unwrap()).collect();
        assert_eq!(counts, [1, 0, 2]);
        assert_eq!(one_call(&chain, 4, 4.0).outcome(calls).value, Some(3));
        let answers: Vec<_> = floored_batches(calls, &chain, -4.0).iter().map(|(_, left)| left.answer).collect();
        assert_eq!(answers, [7 * 4096], "a refusal ends them");
    }
}

/// Each law holds where it speaks, and turns down an outcome that breaks it.
#[test]
fn laws_beside_the_plain_call() {
    use Law::*;
    let twins = Case { x: 2, floor: 4.0, ..Case::new(Call::CholeskyFactorFloored, 2, matrix(2, &[1.0, 1.0, 1.0])) };
    let failing = Case { floor: -4.0, ..twins.clone() };
    let sound = Case { a: matrix(2, &[4.0, 2.0, 5.0]), ..twins.clone() };
    let short = Case { x: 1, ..twins.clone() };
    for calls in BOTH {
        let speak = |case: &Case, found: &Outcome| laws(case, &plain(case).outcome(calls), found);
        for (case, named) in [
            (&twins, vec![PassingFloor, FirstUsed]),
            (&failing, vec![FailingFloor, NoneUsed, Refused]),
            (&sound, vec![PlainAccepts, NoneUsed, PassingFloor]),
            (&short, vec![PlainRefusesSizes, NoneUsed, Refused, PassingFloor]),
        ] {
            let found = case.outcome(calls);
            assert_eq!(speak(case, &found), named.iter().map(|&law| (law, true)).collect::<Vec<_>>());
            let changed = |at: usize| (0..4).map(|place| found.a[place] ^ u64::from(place == at)).collect();
            let breaks = |other: Outcome| speak(case, &other).iter().any(|&(_, holds)| !holds);
            assert!((0..4).all(|at| breaks(Outcome { a: changed(at), ..found.clone() })));
            assert!(breaks(Outcome { answer: found.answer ^ 7 << 12, ..found.clone() }));
            assert!(breaks(Outcome { value: found.value.map(|used| 1 - used), ..found.clone() }));
        }
    }
}

/// The floored calls as lines, and in a stored list: the floor stands alone in register C, the value is the count.
#[test]
fn written_down() {
    let line = "cholesky_extend_floored 2 1 2 4010000000000000 ; 3ff0000000000000 3ff0000000000000 0000000000000007 3ff0000000000000";
    let other = "cholesky_factor_floored 1 1 fff0000000000000 ; bff0000000000000";
    let case = parse_case(line).unwrap();
    assert_eq!((case.x, case.y, case.n, case.floor, case.a.len()), (2, 1, 2, 4.0, 4));
    assert_eq!((case.second(), case.third()), (2, 1));
    assert_eq!([case_line(&case), case_line(&parse_case(other).unwrap())], [line, other]);
    assert!(parse_case(&line.replace(" 4010000000000000", "")).is_err());
    assert!(parse_case(&line.replace("4010000000000000", "4,0")).is_err());
    let [one, two, four, minus] = [1.0f64, 2.0, 4.0, -1.0].map(f64::to_bits);
    let set = |register: u64, words: &[u64]| [&[2 | register << 8 | (words.len() as u64) << 16][..], words].concat();
    let same = |register: u64, words: &[u64]| [&[7 | register << 8 | (words.len() as u64) << 16][..], words].concat();
    let call = |number: u64, numbers: [u64; 5]| [&[6 | number << 8][..], &numbers].concat();
    let list = [
        set(0, &[one, one, 7, one]),
        set(2, &[four]),
        call(26, [2, 2, 1, 0, 1]),
        same(0, &[one, one, 7, two]),
        same(2, &[four]),
        set(0, &[minus, one, 7, minus]),
        call(25, [2, 2, 0, 0, 2]),
        same(0, &[two, 0x3fe0_0000_0000_0000, 7, two]),
        set(0, &[minus]),
        set(2, &[minus]),
        call(25, [1, 1, 0, 10 * 4096, 0]),
        call(26, [1, 2, 0, 3 * 4096, 0]),
        same(0, &[minus]),
    ]
    .concat();
    for calls in BOTH {
        assert_eq!(outcome_line(&case, &case.outcome(calls)), "0 1 ; 3ff0000000000000 3ff0000000000000 0000000000000007 4000000000000000");
        let mut machine = Machine::new(calls);
        machine.replay(&list);
        assert_eq!((machine.calls_made, machine.differences), (4, vec![]));
    }
}
