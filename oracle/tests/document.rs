//! Document 01's cases and document 02's codes of a diagonal, rows of a mark, run numbers, benches, LAPACK's lists, packed triangles and tails of UDU,
//! answered by the text and by the steps; Cholesky's solve and rows that came twice, by the steps.

use std::hint::black_box;

use oracle::RealField;
use oracle::back;
use oracle::call::{Call, Calls, Case, word, words};
use oracle::cases::{Chain, fill, filled};
use oracle::line::{case_line, outcome_line, parse_case};
use oracle::list::Machine;
use oracle::packed;
use oracle::pair;
use oracle::paper::Paper;
use oracle::tail::{block, tail};
use oracle::text::Text;

const BOTH: [&dyn Calls; 2] = [&Text, &Paper];

const SIGNALLING: f64 = f64::from_bits(0x7ff0_0000_0000_0001);

/// A matrix by its lower rows.
fn matrix(n: usize, lower: &[f64]) -> Vec<f64> {
    let mut a: Vec<f64> = (0..n * n).map(fill).collect();
    let mut given = lower.iter();
    for i in 0..n {
        for j in 0..=i {
            a[i + j * n] = *given.next().unwrap();
        }
    }
    a
}

fn lower(a: &[f64], n: usize) -> Vec<f64> {
    (0..n).flat_map(|i| (0..=i).map(move |j| a[i + j * n])).collect()
}

/// The run number of the factors.
const RUN: u32 = 7;

fn factored(calls: &dyn Calls, n: usize, rows: &[f64]) -> (Vec<f64>, Vec<u32>) {
    let (mut a, mut record) = (matrix(n, rows), vec![9; 2 * n + 2]);
    assert_eq!(calls.lblt_factor(&mut a, &mut record, n, RUN), 0);
    (a, record)
}

/// The stand-in's `max`, on numbers that the compiler does not know.
#[test]
fn max() {
    let max = |x: f64, y: f64| RealField::max(black_box(x), black_box(y));
    for nan in [f64::NAN, -f64::NAN, SIGNALLING, -SIGNALLING] {
        for x in [0.0, 1.0, -1.0, f64::INFINITY, f64::NEG_INFINITY] {
            assert_eq!([max(nan, x), max(x, nan)], [x, x]);
        }
        assert!(max(nan, f64::NAN).is_nan() && max(f64::NAN, nan).is_nan());
    }
    assert_eq!(
        [max(1.0, 2.0), max(2.0, 1.0), max(-1.0, -2.0), max(-1.0, 0.0), max(0.0, f64::INFINITY)],
        [2.0, 2.0, -1.0, 0.0, f64::INFINITY]
    );
    // from 0 on, as the text takes it along a row: the compiler knows that one of the two is no NaN
    let along = |row: &[f64]| row.iter().fold(0.0, |most, x| RealField::max(most, black_box(*x).abs()));
    assert_eq!([along(&[SIGNALLING]), along(&[1.0, -SIGNALLING])], [0.0, 1.0]);
}

#[test]
fn lblt() {
    for calls in BOTH {
        let (a, record) = factored(calls, 2, &[0.0, 1.0, 0.0]);
        assert_eq!(record, [1, 2, 1, 2, 0, RUN]);
        assert_eq!(calls.lblt_determinant(&a, &record, 2, RUN), (0, -1.0));
        let mut b = [3.0, 5.0];
        assert_eq!(calls.lblt_solve(&a, &record, &mut b, 2, 1, RUN), 0);
        assert_eq!(b, [5.0, 3.0]);

        let (a, record) = factored(calls, 2, &[0.0, 1.0, 4.0]);
        assert_eq!(record, [1, 1, 1, 1, 0, RUN]);
        assert_eq!(lower(&a, 2), [4.0, 0.25, -0.25]);

        let (a, record) = factored(calls, 2, &[0.0, f64::NAN, 5.0]);
        assert_eq!(record, [0, 1, 1, 1, 1, RUN]);
        assert_eq!(calls.lblt_solve(&a, &record, &mut b, 2, 1, RUN), 6 * 4096);
        assert_eq!(b, [5.0, 3.0]);

        for nan in [f64::NAN, SIGNALLING] {
            let (_, record) = factored(calls, 1, &[nan]);
            assert_eq!(record, [0, 1, 1, RUN]);
        }

        let (_, record) = factored(calls, 3, &[0.0, 3.0, 0.0, -3.0, 0.0, 0.0]);
        assert_eq!(record[0], 1);

        let power = |e: i64| f64::from_bits(((1023 + e) as u64) << 52);
        let (a, record) = factored(calls, 3, &[0.0, power(-600), 0.0, 0.0, power(600), 0.0]);
        assert_eq!((record[0], record[1]), (0, 1));
        assert_eq!(record[6], 3);
        assert_eq!(calls.lblt_solve(&a, &record, &mut [0.0; 3], 3, 1, RUN), 6 * 4096 + 2);

        let (a, record) = factored(calls, 2, &[4.0, 2.0, 3.0]);
        assert_eq!(record, [0, 1, 1, 1, 0, RUN]);
        assert_eq!(lower(&a, 2), [4.0, 0.5, 2.0]);
        assert_eq!(calls.lblt_determinant(&a, &record, 2, RUN), (0, 8.0));
    }
}

/// What solve, determinant, `d` and `l_permuted` of order 2 answer to a record, with the run number that they expect; a refusal leaves what was lent.
fn answers(calls: &dyn Calls, record: &[u32], run: u32) -> [u64; 4] {
    let a = [1.0, 2.0, 3.0, 4.0];
    let [mut b, mut d, mut l] = [[9.0; 4]; 3];
    let (determined, value) = calls.lblt_determinant(&a, record, 2, run);
    let solved = calls.lblt_solve(&a, record, &mut b, 2, 2, run);
    let filled = [calls.lblt_d(&a, record, &mut d, 2, run), calls.lblt_l_permuted(&a, record, &mut l, 2, run)];
    for (answer, lent) in [(solved, b), (filled[0], d), (filled[1], l)] {
        assert!(answer == 0 || lent == [9.0; 4]);
    }
    assert!(determined == 0 || value.to_bits() == 0);
    [solved, determined, filled[0], filled[1]]
}

/// Document 02: a mark names a row of size 1 whose index is that row.
#[test]
fn marks() {
    for calls in BOTH {
        assert_eq!(answers(calls, &[1, 1, 1, 1, 1, RUN], RUN), [5 * 4096 + 2; 4]);
        assert_eq!(answers(calls, &[1, 2, 1, 2, 2, RUN], RUN), [5 * 4096 + 2; 4]);
        assert_eq!(answers(calls, &[0, 1, 1, 1, 1, RUN], RUN), [6 * 4096, 0, 0, 0]);
        assert_eq!(answers(calls, &[1, 1, 1, 1, 2, RUN], RUN), [6 * 4096 + 1, 0, 0, 0]);
    }
}

/// Document 02: the run number is judged after the rule and before the mark.
#[test]
fn runs() {
    for calls in BOTH {
        for run in [0, RUN, u32::MAX] {
            for other in [run.wrapping_add(1), run ^ 1 << 31] {
                assert_eq!(answers(calls, &[1, 2, 1, 2, 0, run], run), [0; 4]);
                assert_eq!(answers(calls, &[1, 2, 1, 2, 0, run], other), [13 * 4096; 4]);
                assert_eq!(answers(calls, &[1, 1, 1, 1, 2, run], other), [13 * 4096; 4]);
                assert_eq!(answers(calls, &[1, 1, 1, 1, 1, run], other), [5 * 4096 + 2; 4]);
                assert_eq!(answers(calls, &[1, 1, 0, 1, 0, run], other), [5 * 4096 + 1; 4]);
                assert_eq!(answers(calls, &[1, 2, 1, 2, run], other), [4 * 4096; 4]);
            }
        }
        let mut record = [9; 5];
        assert_eq!(calls.lblt_factor(&mut [1.0; 4], &mut record, 2, RUN), 4 * 4096);
        assert_eq!(record, [9; 5]);
    }
}

/// A bench's solve of order 2 by [0 / 1 0], which exchanges the two numbers of a column: its answer, and b as it is left.
fn by_bench(calls: &dyn Calls, record: &[u32], b: &[f64], benches: &[u32], bench: u32, run: u32) -> (u64, Vec<u64>) {
    let (a, _) = factored(calls, 2, &[0.0, 1.0, 0.0]);
    let (mut b, columns) = (b.to_vec(), b.len() / 2);
    let answer = calls.lblt_solve_bench(&a, record, &mut b, benches, 2, columns, bench, run);
    (answer, words(&b))
}

/// Document 02: a call solves its bench's columns only, each as a solve of that column alone would; the others stay as they were.
#[test]
fn benches() {
    const HIGH: u32 = 1 + (1 << 31);
    let sound = [1, 2, 1, 2, 0, RUN];
    let b = [3.0, 5.0, f64::NAN, f64::INFINITY, 7.0, 11.0, -0.0, 2.0];
    for calls in BOTH {
        let left = |benches: &[u32], bench: u32| by_bench(calls, &sound, &b, benches, bench, RUN);
        assert_eq!(left(&[1, 2, 1, 2], 1), (0, words(&[5.0, 3.0, f64::NAN, f64::INFINITY, 11.0, 7.0, -0.0, 2.0])));
        assert_eq!(left(&[1, 9, 9, 2], 2), (0, words(&[3.0, 5.0, f64::NAN, f64::INFINITY, 7.0, 11.0, 2.0, -0.0])));
        // numbers at the ends, and one bit apart
        assert_eq!(left(&[0, 1, u32::MAX, HIGH], 0).1, words(&[5.0, 3.0, f64::NAN, f64::INFINITY, 7.0, 11.0, -0.0, 2.0]));
        assert_eq!(left(&[0, 1, u32::MAX, HIGH], u32::MAX).1, words(&[3.0, 5.0, f64::NAN, f64::INFINITY, 11.0, 7.0, -0.0, 2.0]));
        assert_eq!(left(&[1, 1 + (1 << 16), 1 << 31, HIGH], HIGH).1, words(&[3.0, 5.0, f64::NAN, f64::INFINITY, 7.0, 11.0, 2.0, -0.0]));
        // one bench alone: the solve of all columns
        let (a, record) = factored(calls, 2, &[4.0, 2.0, 3.0]);
        let (mut all, mut own) = (b, b);
        assert_eq!(calls.lblt_solve(&a, &record, &mut all, 2, 4, RUN), 0);
        assert_eq!(calls.lblt_solve_bench(&a, &record, &mut own, &[6; 4], 2, 4, 6, RUN), 0);
        assert_eq!(words(&own), words(&all));
        // the benches in turn: the same
        let mut own = b;
        for bench in [2, 1] {
            assert_eq!(calls.lblt_solve_bench(&a, &record, &mut own, &[1, 2, 2, 1], 2, 4, bench, RUN), 0);
        }
        assert_eq!(words(&own), words(&all));
        // order 0, no columns, and the most of them
        assert_eq!(calls.lblt_solve_bench(&[], &[0, RUN], &mut [], &[1; 1024], 0, 1024, 1, RUN), 0);
        assert_eq!(calls.lblt_solve_bench(&a, &record, &mut [], &[], 2, 0, 1, RUN), 0);
        assert_eq!(calls.lblt_solve_bench(&[], &[0, RUN], &mut [], &[1; 1025], 0, 1025, 1, RUN), 4096);
    }
}

/// Document 02: 4 also for a list whose length is not the column count; a bench with no column gets 0 if the record is sound and unmarked.
#[test]
fn benches_refused() {
    let b = [3.0, 5.0, 7.0, 11.0, 13.0, 17.0];
    for calls in BOTH {
        let answer = |record: &[u32], benches: &[u32], bench: u32, run: u32| {
            let (answer, left) = by_bench(calls, record, &b, benches, bench, run);
            assert!(left == words(&b) || (answer == 0 && benches.contains(&bench)));
            answer
        };
        for bench in [1, 3] {
            let answer = |record: &[u32], benches: &[u32], run: u32| answer(record, benches, bench, run);
            let list = [1, 2, 1];
            assert_eq!(answer(&[1, 2, 1, 2, 0, RUN], &list, RUN), 0);
            assert_eq!(answer(&[1, 2, 1, 2, 0, RUN], &list, RUN + 1), 13 * 4096);
            assert_eq!(answer(&[1, 1, 1, 1, 2, RUN], &list, RUN), 6 * 4096 + 1);
            assert_eq!(answer(&[1, 1, 1, 1, 2, RUN], &list, RUN + 1), 13 * 4096);
            assert_eq!(answer(&[1, 1, 0, 1, 2, RUN], &list, RUN + 1), 5 * 4096 + 1);
            assert_eq!(answer(&[1, 1, 1, 1, 1, RUN], &list, RUN), 5 * 4096 + 2);
            // the list's length comes before the record's rule; 2 is the order here, and 3 the column count
            for list in [&[][..], &[1, 2], &[1, 2, 1, 1]] {
                assert_eq!(answer(&[1, 2, 1, 2, 0, RUN], list, RUN), 4 * 4096);
                assert_eq!(answer(&[1, 1, 0, 1, 2, RUN], list, RUN + 1), 4 * 4096);
            }
            assert_eq!(answer(&[1, 2, 1, 2, RUN], &list, RUN), 4 * 4096);
        }
        // the matrix comes before the list, a count before both
        let mut b = [9.0; 2];
        assert_eq!(calls.lblt_solve_bench(&[0.0; 3], &[0; 6], &mut b, &[], 2, 1, 1, RUN), 3 * 4096);
        assert_eq!(calls.lblt_solve_bench(&[0.0; 3], &[0; 6], &mut b, &[], 2, 1025, 1, RUN), 4096);
        assert_eq!(calls.lblt_solve_bench(&[0.0; 3], &[0; 6], &mut b, &[1], 1025, 1, 1, RUN), 4096);
        assert_eq!(calls.lblt_solve_bench(&[0.0; 4], &[0; 6], &mut b[..1], &[1], 2, 1, 1, RUN), 4 * 4096);
        assert_eq!(b, [9.0; 2]);
    }
}

/// Document 02: two runs that differ only in the other bench's columns give it the same bits, code and place.
#[test]
fn benches_apart() {
    for calls in BOTH {
        let (a, record) = factored(calls, 3, &[0.0, 3.0, 1.0, -3.0, 2.0, 1.0]);
        let first = Case {
            x: 4,
            bench: 1,
            run: RUN,
            record,
            benches: vec![2, 1, 1, 2],
            b: (1..=12).map(f64::from).collect(),
            ..Case::new(Call::LbltSolveBench, 3, a)
        };
        for first in
            [first.clone(), Case { run: 8, ..first.clone() }, Case { bench: 3, ..first.clone() }, Case { benches: vec![], ..first }]
        {
            let second = pair::second(&first).expect("a column of another bench");
            assert_eq!(words(&first.b)[3..9] == words(&second.b)[3..9], first.bench == 1 && !first.benches.is_empty());
            let left = first.outcome(calls);
            assert_eq!(pair::kept(&first, &left), left);
            assert_eq!(pair::kept(&second, &left), second.outcome(calls));
        }
    }
    // no column of another bench
    assert!(pair::second(&Case { x: 1, bench: 1, benches: vec![1], b: vec![1.0], ..Case::new(Call::LbltSolveBench, 1, vec![]) }).is_none());
}

/// A bench's call as a line, and in a stored list: the bench numbers stand in register C, the bench in the high half of the third number.
#[test]
fn benches_written_down() {
    let line = "lblt_solve_bench 1 2 4294967295 7 ; 4000000000000000 ; 00000000 00000001 00000000 00000007 ; \
                4008000000000000 4014000000000000 ; ffffffff 80000001";
    let case = parse_case(line).unwrap();
    assert_eq!((case.bench, &case.benches[..], case.run), (u32::MAX, &[u32::MAX, 0x8000_0001][..], 7));
    assert_eq!(case_line(&case), line);
    assert_eq!(case.outcome(&Text).b, words(&[1.5, 5.0]));
    assert!(parse_case(&line.replace("4294967295", "4294967296")).is_err());
    let set = |register: u64, words: &[u64]| [&[2 | register << 8 | (words.len() as u64) << 16][..], words].concat();
    let mut list = [set(0, &words(&case.a)), set(1, &words(&case.b)), set(2, &[0xffff_ffff, 0x8000_0001]), set(3, &[0, 1, 0, 7])].concat();
    list.extend([6 | 15 << 8, 1, 2, 0xffff_ffff_0000_0007, 0, 0]);
    list.extend([7 | 1 << 8 | 2 << 16]);
    list.extend(words(&[1.5, 5.0]));
    for calls in BOTH {
        let mut machine = Machine::new(calls);
        machine.replay(&list);
        assert_eq!((machine.calls_made, machine.differences), (1, vec![]));
    }
}

/// What the reader answers to a list, and the record it leaves. A refusal leaves what was lent.
fn read(calls: &dyn Calls, list: &[i32], info: i32, run: u32) -> Result<Vec<u32>, u64> {
    let before: Vec<u32> = (100..102 + 2 * list.len() as u32).collect();
    let mut record = before.clone();
    match calls.pivots_from_lapack(list, info, &mut record, list.len(), run) {
        0 => Ok(record),
        refused => {
            assert_eq!(record, before);
            Err(refused)
        }
    }
}

/// What the writer answers to a record: the list, INFO and the run number. A refusal leaves what was lent and gives 0 twice.
fn written(calls: &dyn Calls, record: &[u32]) -> Result<(Vec<i32>, i32, u32), u64> {
    let before: Vec<i32> = (100..99 + record.len() as i32 / 2).collect();
    let mut list = before.clone();
    let (answer, info, run) = calls.pivots_to_lapack(record, &mut list, before.len());
    match answer {
        0 => Ok((list, info, run)),
        refused => {
            assert_eq!((list, info, run), (before, 0, 0));
            Err(refused)
        }
    }
}

/// Document 02: a list and INFO for each record, and for each record its list and INFO.
#[test]
fn lists() {
    let both_ways: [(&[i32], i32, &[u32]); 14] = [
        (&[], 0, &[0]),
        (&[1], 0, &[0, 1, 0]),
        (&[1], 1, &[0, 1, 1]),
        (&[-2, -2], 0, &[1, 2, 1, 2, 0]),
        (&[2, 2], 0, &[1, 1, 1, 1, 0]),
        (&[2, 2], 2, &[1, 1, 1, 1, 2]),
        (&[1, 2], 0, &[0, 1, 1, 1, 0]),
        (&[1, 2], 1, &[0, 1, 1, 1, 1]),
        (&[1, 2], 2, &[0, 1, 1, 1, 2]),
        (&[3, -3, -3], 0, &[2, 1, 2, 2, 2, 2, 0]),
        (&[-3, -3, 3], 3, &[2, 2, 2, 2, 2, 1, 3]),
        (&[-2, -2, 3], 0, &[1, 2, 1, 2, 2, 1, 0]),
        (&[-4, -4, -4, -4], 0, &[3, 2, 3, 2, 3, 2, 3, 2, 0]),
        (&[4, -3, -3, 4], 4, &[3, 1, 2, 2, 2, 2, 3, 1, 4]),
    ];
    for calls in BOTH {
        for (list, info, words) in both_ways {
            for run in [0, 1, RUN, u32::MAX] {
                let record = [words, &[run]].concat();
                assert_eq!(read(calls, list, info, run), Ok(record.clone()));
                assert_eq!(written(calls, &record), Ok((list.to_vec(), info, run)));
            }
        }
        // what the factor leaves
        for (n, rows, list, info) in [
            (2, &[0.0, 1.0, 0.0][..], &[-2, -2][..], 0),
            (2, &[0.0, 1.0, 4.0], &[2, 2], 0),
            (2, &[0.0, f64::NAN, 5.0], &[1, 2], 1),
            (1, &[f64::NAN], &[1], 1),
            (2, &[4.0, 2.0, 3.0], &[1, 2], 0),
        ] {
            let (_, record) = factored(calls, n, rows);
            assert_eq!(written(calls, &record), Ok((list.to_vec(), info, RUN)));
            assert_eq!(read(calls, list, info, RUN), Ok(record));
        }
    }
}

/// Document 02: 12 if the list stands for no sound record, place the first row of the first broken block, or n for INFO.
#[test]
fn lists_refused() {
    const AT: u64 = 12 * 4096;
    const ENDS: [i32; 2] = [i32::MIN, i32::MAX];
    for calls in BOTH {
        let at = |place: u64, list: &[i32], info: i32| assert_eq!(read(calls, list, info, RUN), Err(AT + place), "{list:?} {info}");
        // no number of a row
        for number in [0, 2, -1, -2].into_iter().chain(ENDS) {
            at(0, &[number], 0);
            at(0, &[number], 1);
        }
        // a block of size 1: row k is swapped with itself or a later row
        at(1, &[1, 1], 0);
        at(1, &[2, 1], 0);
        at(2, &[3, 3, 2], 0);
        at(1, &[1, 3], 0);
        at(1, &[1, 0], 0);
        // a block of size 2: row k + 1 is swapped with itself or a later row, and the number stands twice
        at(0, &[-1, -1], 0);
        at(0, &[-3, -3], 0);
        at(0, &[-2, 2], 0);
        at(0, &[-2, 1], 0);
        at(0, &[-2, 0], 0);
        at(0, &[-2, -3, 3], 0);
        at(0, &[-2, -3, -3], 0);
        at(1, &[2, -2], 0);
        at(1, &[1, -2, -2], 0);
        at(2, &[-3, -3, -3], 0);
        at(2, &[1, 2, -3], 0);
        at(2, &[-2, -2, -4, -3], 0);
        for end in ENDS {
            at(0, &[end, end], 0);
            at(1, &[1, end], 0);
            at(0, &[-2, end], 0);
            at(1, &[1, end, end], 0);
        }
        // INFO: 0, or a row that is alone in its block and stays
        for info in [1, 2] {
            at(2, &[-2, -2], info);
        }
        at(2, &[2, 2], 1);
        at(3, &[3, -3, -3], 1);
        at(3, &[1, 3, 3], 2);
        for info in [-1, -2, 3, 1 << 8, 1 + (1 << 16), 1 - (1 << 16)].into_iter().chain(ENDS) {
            at(2, &[1, 2], info);
        }
        // blocks before INFO
        at(1, &[1, 1], 7);
        at(0, &[0], -1);
        // order 0
        for info in [-1, 1].into_iter().chain(ENDS) {
            at(0, &[], info);
        }
        // the writer
        assert_eq!(written(calls, &[1, 1, 0, 1, 0, RUN]), Err(5 * 4096 + 1));
        assert_eq!(written(calls, &[0, 2, 0, 2, 0, RUN]), Err(5 * 4096));
        assert_eq!(written(calls, &[1, 2, 1, 1, 0, RUN]), Err(5 * 4096));
        assert_eq!(written(calls, &[0, 1, 1, 2, 0, RUN]), Err(5 * 4096 + 1));
        assert_eq!(written(calls, &[0, 0, 1, 1, 0, RUN]), Err(5 * 4096));
        assert_eq!(written(calls, &[0, 1, 1, 3, 1, RUN]), Err(5 * 4096 + 1));
        assert_eq!(written(calls, &[1, 1, 1, 1, 1, RUN]), Err(5 * 4096 + 2));
        assert_eq!(written(calls, &[1, 2, 1, 2, 2, RUN]), Err(5 * 4096 + 2));
        assert_eq!(written(calls, &[1, 1, 1, 1, 3, RUN]), Err(5 * 4096 + 2));
        assert_eq!(written(calls, &[u32::MAX, 1, 1, 1, 0, RUN]), Err(5 * 4096));
        assert_eq!(written(calls, &[u32::MAX, 2, u32::MAX, 2, 0, RUN]), Err(5 * 4096));
        assert_eq!(written(calls, &[1, RUN]), Err(5 * 4096));
    }
}

/// Document 02: 1, then 4, then 12 or 5.
#[test]
fn lists_of_other_lengths() {
    for calls in BOTH {
        let read = |n: usize, list: usize, words: usize, number: i32| {
            let mut record = vec![9; words];
            let answer = calls.pivots_from_lapack(&vec![number; list], number, &mut record, n, RUN);
            assert!(answer == 0 || record == vec![9; words]);
            answer
        };
        let written = |n: usize, words: usize, list: usize, word: u32| {
            let mut numbers = vec![9; list];
            let (answer, info, run) = calls.pivots_to_lapack(&vec![word; words], &mut numbers, n);
            assert!(answer == 0 || (numbers, info, run) == (vec![9; list], 0, 0));
            answer
        };
        for n in [0, 1, 2, 1024] {
            let words = 2 * n + 2;
            for number in [0, -1] {
                for (list, words) in [(n + 1, words), (n, words - 1), (n, words + 1), (n + 1, words - 1), (n + 2, 2 * n + 1), (words, n)] {
                    assert_eq!(read(n, list, words, number), 4 * 4096);
                    assert_eq!(written(n, words, list, number as u32), 4 * 4096);
                }
                if n > 0 {
                    assert_eq!(read(n, n - 1, words, number), 4 * 4096);
                    assert_eq!(written(n, words, n - 1, number as u32), 4 * 4096);
                    assert_eq!(read(n, n, words, number), 12 * 4096);
                    assert_eq!(written(n, words, n, number as u32), 5 * 4096);
                }
            }
        }
        for n in [1025, 1026, 1 << 32, 1 << 63, usize::MAX] {
            for (list, words) in [(0, 0), (0, 2), (1, 4), (1024, 2050), (1025, 2052)] {
                assert_eq!(read(n, list, words, 1), 4096);
                assert_eq!(written(n, words, list, 1), 4096);
            }
        }
        // the greatest order
        let list: Vec<i32> = (1..=1024).collect();
        let mut record = vec![9; 2050];
        assert_eq!(calls.pivots_from_lapack(&list, 1024, &mut record, 1024, RUN), 0);
        assert_eq!(record, (0..1024).flat_map(|k| [k, 1]).chain([1024, RUN]).collect::<Vec<u32>>());
        let mut numbers = vec![9; 1024];
        assert_eq!(calls.pivots_to_lapack(&record, &mut numbers, 1024), (0, 1024, RUN));
        assert_eq!(numbers, list);
        let mut record = vec![9; 2050];
        assert_eq!(calls.pivots_from_lapack(&list, 1025, &mut record, 1024, RUN), 12 * 4096 + 1024);
        assert_eq!(calls.pivots_from_lapack(&[-1024; 1024], 0, &mut record, 1024, RUN), 0);
        let mut numbers = vec![9; 1024];
        assert_eq!(calls.pivots_to_lapack(&record, &mut numbers, 1024), (0, 0, RUN));
        assert_eq!(numbers, [-1024; 1024]);
    }
}

/// Document 02: sound record to list and back gives the same record, and sound list to record and back the same list.
#[test]
fn lists_there_and_back() {
    for calls in BOTH {
        let accepted = [
            back::reader(3, vec![3, -3, -3], 0, 1),
            back::reader(4, vec![4, -3, -3, 4], 4, u32::MAX),
            back::writer(3, vec![2, 2, 2, 2, 2, 1, 3, 8]),
            back::writer(0, vec![0, RUN]),
        ];
        for there in accepted {
            let left = there.outcome(calls);
            let back = back::back(&there, &left).expect("an accepted call");
            assert_eq!(back.outcome(calls), back::given(&there, &back));
        }
        let refused = [back::reader(2, vec![-1, -1], 0, 1), back::writer(1, vec![0, 2, 0, 1])];
        assert!(refused.iter().all(|there| back::back(there, &there.outcome(calls)).is_none()));
    }
}

/// The lists' calls as lines, and in a stored list: a number of a list is the low half of a word in register C.
#[test]
fn lists_written_down() {
    let line = "pivots_from_lapack 2 -1 4294967295 ; fffffffe fffffffe ; 00000009 00000009 00000009 00000009 00000009 00000009";
    let case = parse_case(line).unwrap();
    assert_eq!((case.n, case.info, case.run, &case.list[..]), (2, -1, u32::MAX, &[-2, -2][..]));
    assert_eq!((case.second(), case.third()), (0xffff_ffff, 0xffff_ffff));
    assert_eq!(case_line(&case), line);
    assert!(parse_case(&line.replace("-1", "2147483648")).is_err());
    assert!(parse_case(&line.replace("fffffffe ;", "1fffffffe ;")).is_err());
    let written = parse_case("pivots_to_lapack 1 ; 00000000 00000001 00000001 ffffffff ; 80000000").unwrap();
    assert_eq!(written.list, [i32::MIN]);
    let set = |register: u64, words: &[u64]| [&[2 | register << 8 | (words.len() as u64) << 16][..], words].concat();
    let same = |register: u64, words: &[u64]| [&[7 | register << 8 | (words.len() as u64) << 16][..], words].concat();
    let call = |number: u64, numbers: [u64; 5]| [&[6 | number << 8][..], &numbers].concat();
    let minus_two = 0xffff_fffe;
    let list = [
        set(2, &[minus_two; 2]),
        set(3, &[9; 6]),
        // INFO −1, then 0; the run number is the low half of its word
        call(16, [2, 0xffff_ffff, 3, 12 * 4096 + 2, 0]),
        same(3, &[9; 6]),
        call(16, [2, 0, 0xffff_ffff, 0, 0]),
        same(3, &[1, 2, 1, 2, 0, 0xffff_ffff]),
        set(2, &[9; 2]),
        call(17, [2, 0, 0, 0, 0xffff_ffff_0000_0000]),
        same(2, &[minus_two; 2]),
        // INFO 2 and run 5 in one word; a refusal has 0
        set(3, &[1, 1, 1, 1, 2, 5]),
        call(17, [2, 0, 0, 0, 0x5_0000_0002]),
        same(2, &[2; 2]),
        set(3, &[1, 1, 1, 1, 1, 5]),
        call(17, [2, 0, 0, 5 * 4096 + 2, 0]),
        same(2, &[2; 2]),
    ]
    .concat();
    for calls in BOTH {
        assert_eq!(outcome_line(&written, &written.outcome(calls)), "0 1 4294967295 ; 00000000 00000001 00000001 ffffffff ; 00000001");
        assert_eq!(outcome_line(&case, &case.outcome(calls)), line.replace("pivots_from_lapack 2 -1 4294967295", "49154"));
        let mut machine = Machine::new(calls);
        machine.replay(&list);
        assert_eq!((machine.calls_made, machine.differences), (5, vec![]));
    }
}

#[test]
fn cholesky() {
    for calls in BOTH {
        let mut a = matrix(2, &[4.0, 2.0, 5.0]);
        assert_eq!(calls.cholesky_factor(&mut a, 2, 2), 0);
        assert_eq!(lower(&a, 2), [2.0, 1.0, 2.0]);
        assert_eq!(a[2], fill(2));
        assert_eq!(calls.cholesky_determinant(&a, 2, 2), (0, 16.0));

        let mut a = matrix(2, &[1.0, 1.0, 1.0]);
        assert_eq!(calls.cholesky_factor(&mut a, 2, 2), 7 * 4096 + 1);
        assert_eq!(lower(&a, 2), [1.0, 1.0, 0.0]);

        for (x, code) in
            [(-0.0, 7), (0.0, 7), (-1.0, 10), (f64::NEG_INFINITY, 10), (-f64::from_bits(1), 10), (f64::NAN, 11), (-f64::NAN, 11)]
        {
            let mut alone = [x];
            assert_eq!(calls.cholesky_factor(&mut alone, 1, 1), code * 4096);
            assert_eq!(words(&alone), words(&[x]));
            let mut last = matrix(2, &[1.0, 0.0, x]);
            assert_eq!(calls.cholesky_extend(&mut last, 2, 1, 2), code * 4096 + 1);
            assert_eq!(words(&lower(&last, 2)), words(&[1.0, 0.0, x]));
        }
        let mut a = matrix(2, &[3.0, 3.0, 3.0]);
        assert_eq!(calls.cholesky_factor(&mut a, 2, 2), 10 * 4096 + 1);
        assert_eq!(words(&lower(&a, 2)), [0x3ffb_b67a_e858_4caa, 0x3ffb_b67a_e858_4cab, 0xbcc0_0000_0000_0000]);
        let mut a = matrix(2, &[f64::NAN, 0.0, 0.0]);
        assert_eq!(calls.cholesky_factor(&mut a, 2, 2), 11 * 4096, "the first that fails");

        for (x, root) in [(2.0, 0x3ff6_a09e_667f_3bcd), (f64::from_bits(1), 0x1e60_0000_0000_0000)] {
            let mut a = [x];
            assert_eq!(calls.cholesky_factor(&mut a, 1, 1), 0);
            assert_eq!(word(a[0]), root);
        }
        assert_eq!(calls.cholesky_determinant(&[], 0, 0), (0, 1.0));
    }
}

#[test]
fn cholesky_solve() {
    let solved = |n: usize, rows: &[f64], b: &[f64]| {
        let mut b = b.to_vec();
        assert_eq!(Paper.cholesky_solve(&matrix(n, rows), &mut b, n, n, 1), 0);
        b
    };
    assert_eq!(solved(2, &[2.0, 1.0, 2.0], &[8.0, 9.0]), [1.375, 1.25]);
    // row 0 in the back pass: 2^60 less 1, and then less 2^60
    let two_to = |e: i32| 2.0f64.powi(e);
    let rows = [1.0, two_to(-30), 1.0, 1.0, 0.0, 1.0];
    assert_eq!(solved(3, &rows, &[two_to(60), two_to(31), two_to(61)]), [0.0, two_to(30), two_to(60)]);
    // row 2 in the forward pass: 1 less 2^60, and then plus 2^60
    assert_eq!(solved(3, &[1.0, 0.0, 1.0, two_to(60), two_to(60), 1.0], &[1.0, -1.0, 1.0]), [1.0, -1.0, 0.0]);
    // one product after the other is taken off, not their sum, which would leave 0.82
    assert_eq!(solved(3, &[1.0, 0.1, 1.0, 0.1, 0.0, 1.0], &[1.0; 3]), [0.8200000000000001, 0.9, 0.9]);
    // no number is refused
    assert_eq!(solved(1, &[-0.0], &[1.0]), [f64::INFINITY]);
    assert!(solved(1, &[0.0], &[0.0])[0].is_nan());
    assert_eq!(words(&solved(2, &[1.0, 0.0, 1.0], &[-0.0, -1.0])), words(&[0.0, -1.0]));
    // neither above the diagonal nor outside the first n rows is anything read; each column is solved by itself
    let mut a = vec![f64::NAN; 9];
    for (at, x) in [(0, 2.0), (1, 1.0), (4, 2.0)] {
        a[at] = x;
    }
    let mut b = [8.0, 9.0, f64::NAN, 0.0, -8.0, -9.0];
    assert_eq!(Paper.cholesky_solve(&a, &mut b, 3, 2, 3), 0);
    assert_eq!((&b[..2], &b[4..]), (&[1.375, 1.25][..], &[-1.375, -1.25][..]));
    // order 0, and no columns
    assert_eq!([Paper.cholesky_solve(&[], &mut [], 0, 0, 1024), Paper.cholesky_solve(&[1.0], &mut [], 1, 1, 0)], [0; 2]);
    let refused = |room: usize, n: usize, columns: usize, lens: [usize; 2]| {
        let mut b = vec![3.0; lens[1]];
        let answer = Paper.cholesky_solve(&vec![2.0; lens[0]], &mut b, room, n, columns);
        assert_eq!(b, vec![3.0; lens[1]]);
        assert_eq!(answer % 4096, 0);
        answer / 4096
    };
    assert_eq!([refused(1025, 0, 0, [0, 0]), refused(0, 1025, 0, [0, 0]), refused(0, 1, 1025, [0, 0])], [1; 3]);
    assert_eq!(refused(1, 2, 1, [0, 0]), 2);
    assert_eq!([refused(2, 1, 1, [3, 0]), refused(1024, 1024, 1024, [0, 0])], [3; 2]);
    assert_eq!([refused(2, 1, 2, [4, 1]), refused(2, 1, 2, [4, 3])], [4; 2]);
}

/// The lower rows of a matrix, packed by document 02's places.
fn packed_rows(n: usize, lower: &[f64]) -> Vec<f64> {
    let mut out = vec![f64::NAN; n * (n + 1) / 2];
    for i in 0..n {
        for j in 0..=i {
            out[i + j * (2 * n - j - 1) / 2] = lower[i * (i + 1) / 2 + j];
        }
    }
    out
}

/// Document 02: entry (i, j) at i + j·(2n−j−1)/2, which is i + j·n − j·(j+1)/2; the length is n·(n+1)/2.
#[test]
fn packed_places() {
    assert_eq!(packed_rows(0, &[]), []);
    assert_eq!(packed_rows(1, &[0.0]), [0.0]);
    assert_eq!(packed_rows(2, &[0.0, 10.0, 11.0]), [0.0, 10.0, 11.0]);
    assert_eq!(packed_rows(3, &[0.0, 10.0, 11.0, 20.0, 21.0, 22.0]), [0.0, 10.0, 20.0, 11.0, 21.0, 22.0]);
    let four = [0.0, 10.0, 11.0, 20.0, 21.0, 22.0, 30.0, 31.0, 32.0, 33.0];
    assert_eq!(packed_rows(4, &four), [0.0, 10.0, 20.0, 30.0, 11.0, 21.0, 31.0, 22.0, 32.0, 33.0]);
    for n in [0, 1, 2, 3, 7, 64, 1024] {
        let lower = filled(n * (n + 1) / 2);
        let whole = matrix(n, &lower);
        assert_eq!(packed::packed_length(n), lower.len());
        assert_eq!(packed::pack(&whole, n, n), packed_rows(n, &lower));
        let unpacked = packed::unpack(&packed_rows(n, &lower), n);
        for j in 0..n {
            assert!((0..j).all(|i| unpacked[i + j * n].is_nan()));
            assert!((j..n).all(|i| i + j * (2 * n - j - 1) / 2 == i + j * n - j * (j + 1) / 2));
            assert_eq!(unpacked[j + j * n..(j + 1) * n], whole[j + j * n..(j + 1) * n]);
        }
    }
    // the diagonal of order 3 at 0, 3 and 5
    for calls in BOTH {
        let a = [2.0, f64::NAN, f64::NAN, 3.0, f64::NAN, 5.0];
        assert_eq!(calls.packed_lblt_determinant(&a, &[0, 1, 1, 1, 2, 1, 0, RUN], 3, RUN), (0, 30.0));
    }
}

#[test]
fn packed_lblt() {
    for calls in BOTH {
        let factored = |n: usize, lower: &[f64]| {
            let (mut a, mut record) = (packed_rows(n, lower), vec![9; 2 * n + 2]);
            assert_eq!(calls.packed_lblt_factor(&mut a, &mut record, n, RUN), 0);
            (a, record)
        };
        let (a, record) = factored(2, &[0.0, 1.0, 0.0]);
        assert_eq!(record, [1, 2, 1, 2, 0, RUN]);
        assert_eq!(calls.packed_lblt_determinant(&a, &record, 2, RUN), (0, -1.0));
        let mut b = [3.0, 5.0];
        assert_eq!(calls.packed_lblt_solve(&a, &record, &mut b, 2, 1, RUN), 0);
        assert_eq!(b, [5.0, 3.0]);

        let (a, record) = factored(2, &[0.0, 1.0, 4.0]);
        assert_eq!((&a[..], &record[..]), (&[4.0, 0.25, -0.25][..], &[1, 1, 1, 1, 0, RUN][..]));
        let (a, record) = factored(2, &[4.0, 2.0, 3.0]);
        assert_eq!((&a[..], &record[..]), (&[4.0, 0.5, 2.0][..], &[0, 1, 1, 1, 0, RUN][..]));
        assert_eq!(calls.packed_lblt_determinant(&a, &record, 2, RUN), (0, 8.0));

        // rows 0 and 2 are exchanged
        let (a, record) = factored(3, &[3.0, 0.0, 4.0, 8.0, 0.0, 16.0]);
        assert_eq!(&record[..2], [2, 1]);
        assert_eq!(a, packed_rows(3, &[16.0, 0.0, 4.0, 0.5, 0.0, -1.0]));

        let (a, record) = factored(2, &[0.0, f64::NAN, 5.0]);
        assert_eq!(record, [0, 1, 1, 1, 1, RUN]);
        assert_eq!(calls.packed_lblt_solve(&a, &record, &mut b, 2, 1, RUN), 6 * 4096);
        assert_eq!(calls.packed_lblt_solve(&a, &record, &mut b, 2, 1, RUN + 1), 13 * 4096);
        assert_eq!(calls.packed_lblt_determinant(&a, &record, 2, RUN + 1), (13 * 4096, 0.0));
        assert_eq!(calls.packed_lblt_solve(&a, &[0, 1, 1, 1, 3, RUN], &mut b, 2, 1, RUN + 1), 5 * 4096 + 2);
        assert_eq!(calls.packed_lblt_determinant(&a, &[0, 2, 1, 1, 0, RUN], 2, RUN), (5 * 4096, 0.0));
        assert_eq!(b, [5.0, 3.0]);
        // order 0
        assert_eq!(factored(0, &[]), (vec![], vec![0, RUN]));
        assert_eq!(calls.packed_lblt_determinant(&[], &[0, RUN], 0, RUN), (0, 1.0));
        assert_eq!(calls.packed_lblt_solve(&[], &[0, RUN], &mut [], 0, 1024, RUN), 0);
    }
}

#[test]
fn packed_cholesky() {
    for calls in BOTH {
        let factored = |n: usize, lower: &[f64]| {
            let mut a = packed_rows(n, lower);
            (calls.packed_cholesky_factor(&mut a, n), words(&a))
        };
        assert_eq!(factored(0, &[]), (0, vec![]));
        assert_eq!(factored(1, &[4.0]), (0, words(&[2.0])));
        assert_eq!(factored(2, &[4.0, 2.0, 5.0]), (0, words(&[2.0, 1.0, 2.0])));
        assert_eq!(factored(2, &[1.0, 1.0, 1.0]), (7 * 4096 + 1, words(&[1.0, 1.0, 0.0])));
        assert_eq!(factored(3, &[4.0, 2.0, 5.0, 6.0, 7.0, 22.0]), (0, words(&packed_rows(3, &[2.0, 1.0, 2.0, 3.0, 2.0, 3.0]))));
        // refused at row 1: column 1 is updated and undivided, column 2 as given
        assert_eq!(
            factored(3, &[4.0, 2.0, 0.0, 6.0, 7.0, 22.0]),
            (10 * 4096 + 1, words(&packed_rows(3, &[2.0, 1.0, -1.0, 3.0, 4.0, 22.0])))
        );
        for (x, code) in [(-0.0, 7), (-1.0, 10), (f64::NAN, 11)] {
            assert_eq!(factored(1, &[x]), (code * 4096, words(&[x])));
        }
        let mut b = [8.0, 9.0, -8.0, -9.0];
        assert_eq!(calls.packed_cholesky_solve(&[2.0, 1.0, 2.0], &mut b, 2, 2), 0);
        assert_eq!(b, [1.375, 1.25, -1.375, -1.25]);
        assert_eq!(calls.packed_cholesky_solve(&[], &mut [], 0, 1024), 0);
        let pair = |p: u64, q: u64| (4096 + q) * 4096 + p;
        assert_eq!(calls.packed_first_twin(&[1.0, 1.0, 1.0], 2), pair(0, 1));
        assert_eq!(calls.packed_first_twin(&[1.0, 1.0, 2.0], 2), 0);
        assert_eq!(calls.packed_first_twin(&packed_rows(3, &[4.0, 2.0, 5.0, 4.0, 2.0, 4.0]), 3), pair(0, 2));
        assert_eq!(calls.packed_first_twin(&packed_rows(3, &[4.0, 2.0, 5.0, 2.0, 5.0, 5.0]), 3), pair(1, 2));
        assert_eq!([calls.packed_first_twin(&[], 0), calls.packed_first_twin(&[1.0], 1)], [0; 2]);
    }
}

/// Document 02: the old packed factor, the new lower rows end to end, a new buffer.
#[test]
fn packed_batches() {
    for calls in BOTH {
        let extended = |old: &[f64], rows: &[f64], earlier: usize, n: usize| {
            let mut fresh = filled(n * (n + 1) / 2);
            (calls.packed_cholesky_extend(old, rows, &mut fresh, earlier, n), words(&fresh))
        };
        assert_eq!(extended(&[1.0], &[1.0, 1.0], 1, 2), (7 * 4096 + 1, words(&[1.0, 1.0, 0.0])));
        assert_eq!(extended(&[], &[], 0, 0), (0, vec![]));
        assert_eq!(extended(&[], &[4.0], 0, 1), (0, words(&[2.0])));
        assert_eq!(extended(&[2.0], &[2.0, 5.0], 1, 2), (0, words(&[2.0, 1.0, 2.0])));
        let whole = words(&packed_rows(3, &[2.0, 1.0, 2.0, 3.0, 2.0, 3.0]));
        assert_eq!(extended(&[], &[4.0, 2.0, 5.0, 6.0, 7.0, 22.0], 0, 3), (0, whole.clone()));
        assert_eq!(extended(&[2.0], &[2.0, 5.0, 6.0, 7.0, 22.0], 1, 3), (0, whole.clone()));
        assert_eq!(extended(&[2.0, 1.0, 2.0], &[6.0, 7.0, 22.0], 2, 3), (0, whole.clone()));
        // no rows: the old factor, whatever its numbers
        assert_eq!(extended(&packed_rows(3, &[2.0, 1.0, 2.0, 3.0, 2.0, 3.0]), &[], 3, 3), (0, whole));
        assert_eq!(extended(&[f64::NAN, -1.0, 0.0], &[], 2, 2), (0, words(&[f64::NAN, -1.0, 0.0])));
        // refused at the first of two new rows: the second is updated in that column and as given after it
        let left = packed_rows(3, &[2.0, 1.0, -1.0, 3.0, 4.0, 22.0]);
        assert_eq!(extended(&[2.0], &[2.0, 0.0, 6.0, 7.0, 22.0], 1, 3), (10 * 4096 + 1, words(&left)));
        // the diagonal of an old row is not tested
        assert_eq!(extended(&[-2.0], &[2.0, 5.0], 1, 2), (0, words(&[-2.0, -1.0, 2.0])));
    }
}

/// Document 02: 1, 2, 3 for the first packed matrix, 4 for the other slices; nothing is written.
#[test]
fn packed_refused() {
    for calls in BOTH {
        let batch = |earlier: usize, n: usize, lens: [usize; 3]| {
            let mut fresh = filled(lens[2]);
            let answer = calls.packed_cholesky_extend(&filled(lens[0]), &filled(lens[1]), &mut fresh, earlier, n);
            assert_eq!(words(&fresh), words(&filled(lens[2])));
            (answer / 4096, answer % 4096)
        };
        for far in [1025, 1 << 32, 1 << 63, usize::MAX] {
            assert_eq!([batch(far, 1, [0; 3]), batch(1, far, [0; 3]), batch(far, far, [0; 3])], [(1, 0); 3]);
        }
        assert_eq!([batch(2, 1, [0; 3]), batch(1024, 1023, [0; 3])], [(2, 0); 2]);
        // rows 2 and 3 after two: 3, 7 and 10 numbers
        for old in [0, 2, 4, 10] {
            assert_eq!([batch(2, 4, [old, 7, 10]), batch(2, 4, [old, 0, 0])], [(3, 0); 2]);
        }
        for (rows, fresh) in [(0, 10), (6, 10), (8, 10), (10, 10), (7, 0), (7, 9), (7, 11), (7, 16), (6, 11)] {
            assert_eq!(batch(2, 4, [3, rows, fresh]), (4, 0));
        }
        let others = |n: usize, columns: usize, lens: [usize; 3]| {
            let (a, words) = (filled(lens[0]), vec![9; lens[1]]);
            let (mut factor, mut root, mut record) = (a.clone(), a.clone(), words.clone());
            let (mut b, mut c) = (filled(lens[2]), filled(lens[2]));
            let (determined, value) = calls.packed_lblt_determinant(&a, &words, n, RUN);
            let answers = [
                calls.packed_lblt_factor(&mut factor, &mut record, n, RUN),
                calls.packed_lblt_solve(&a, &words, &mut b, n, columns, RUN),
                determined,
                calls.packed_cholesky_factor(&mut root, n),
                calls.packed_cholesky_solve(&a, &mut c, n, columns),
                calls.packed_first_twin(&a, n),
            ];
            assert_eq!(value.to_bits(), 0);
            assert!((factor == a || answers[0] == 0) && (root == a || matches!(answers[3] / 4096, 0 | 7 | 10 | 11)));
            assert!(record == words || answers[0] == 0);
            assert!((b == filled(lens[2]) || answers[1] == 0) && (c == filled(lens[2]) || answers[4] == 0));
            answers.map(|answer| answer / 4096)
        };
        for far in [1025, 1 << 32, 1 << 63, usize::MAX] {
            assert_eq!(others(far, 1, [0; 3]), [1; 6]);
            assert_eq!(others(2, far, [4, 0, 0]), [3, 1, 3, 3, 1, 3]);
        }
        // order 2: 3 numbers, 6 words; a full matrix has 4
        for len in [0, 1, 2, 4, 5] {
            assert_eq!(others(2, 1, [len, 6, 2]), [3; 6]);
            assert_eq!(others(2, 1, [len, 0, 0]), [3; 6]);
        }
        for words in [0, 5, 7] {
            assert_eq!(others(2, 1, [3, words, 2])[..3], [4; 3]);
        }
        for sides in [0, 1, 3, 4] {
            let answers = others(2, 1, [3, 6, sides]);
            assert_eq!([answers[1], answers[4]], [4; 2]);
        }
        assert_eq!(others(1024, 1024, [0; 3]), [3; 6]);
    }
}

/// A packed call by what the full one leaves; a chain of new buffers by the one call and by the batches in a room.
#[test]
fn packed_beside_full() {
    let a = matrix(3, &[4.0, 2.0, 5.0, 6.0, 7.0, 22.0]);
    let twins = matrix(3, &[4.0, 2.0, 5.0, 2.0, 5.0, 5.0]);
    let wide: Vec<f64> = (0..25).map(|at| if at % 5 < 3 && at < 15 { a[at / 5 * 3 + at % 5] } else { f64::NAN }).collect();
    let full = [
        Case { run: RUN, record: vec![9; 8], ..Case::new(Call::LbltFactor, 3, a.clone()) },
        Case { x: 1, run: RUN, record: vec![0, 1, 2, 2, 2, 2, 0, RUN], b: filled(3), ..Case::new(Call::LbltSolve, 3, a.clone()) },
        Case { run: RUN, record: vec![0, 1, 2, 2, 2, 2, 0, RUN], ..Case::new(Call::LbltDeterminant, 3, a.clone()) },
        Case { x: 3, ..Case::new(Call::CholeskyFactor, 3, twins.clone()) },
        Case { x: 5, y: 1, ..Case::new(Call::CholeskyExtend, 3, wide.clone()) },
        Case { x: 5, y: 4, ..Case::new(Call::CholeskyExtend, 3, wide.clone()) },
        Case { x: 5, y: 2, b: filled(6), ..Case::new(Call::CholeskySolve, 3, wide.clone()) },
        Case { x: 3, ..Case::new(Call::FirstTwin, 3, twins.clone()) },
        Case { x: 3, ..Case::new(Call::FirstTwin, 2, vec![1.0; 3]) },
    ];
    let codes = [0, 0, 0, 7, 0, 2, 0, 4096 + 2, 3];
    for (full, code) in full.iter().zip(codes) {
        let beside = packed::beside(full).expect("a packed call");
        for calls in BOTH {
            let left = full.outcome(calls);
            assert_eq!(left.answer / 4096, code);
            assert_eq!(beside.outcome(calls), packed::kept(&beside, full, &left));
        }
    }
    assert!(packed::beside(&Case { x: 1, ..Case::new(Call::CholeskyFactor, 2, vec![1.0]) }).is_none(), "order above room");
    assert!(packed::beside(&Case::new(Call::LbltD, 0, vec![])).is_none());
    let refused_at_one = matrix(3, &[4.0, 2.0, 1.0, 6.0, 7.0, 22.0]);
    for (a, cuts, answers) in [
        (&a, vec![0, 1, 1, 3], vec![0, 0, 0, 0]),
        (&a, vec![2], vec![0]),
        (&twins, vec![1, 2, 3], vec![0, 0, 7 * 4096 + 2]),
        (&twins, vec![2, 2], vec![0, 0]),
        (&refused_at_one, vec![1, 2, 3], vec![0, 7 * 4096 + 1]),
        (&refused_at_one, vec![3], vec![7 * 4096 + 1]),
        (&refused_at_one, vec![1], vec![0]),
    ] {
        let chain = Chain { a: a.clone(), n: 3, room: 3, cuts };
        let whole = packed::whole(&chain);
        for calls in BOTH {
            let batches = packed::packed_batches(calls, &chain);
            assert_eq!(batches.iter().map(|(_, left)| left.answer).collect::<Vec<_>>(), answers);
            for ((batch, left), (full, by_full)) in batches.iter().zip(&packed::full_batches(calls, &chain)) {
                assert_eq!(*left, packed::kept(batch, full, by_full));
            }
            let (last, left) = batches.last().unwrap();
            assert_eq!(*left, packed::by_the_whole(last, &whole, &whole.outcome(calls)));
        }
    }
}

/// The packed calls as lines, and in a stored list: the old factor stands in register A, the rows in B, the fresh buffer in C.
#[test]
fn packed_written_down() {
    let [one, two, zero] = [0x3ff0_0000_0000_0000, 0x4000_0000_0000_0000, 0];
    let line = "packed_cholesky_extend 1 2 ; 3ff0000000000000 ; 3ff0000000000000 3ff0000000000000 ; \
                0000000000000007 0000000000000008 0000000000000009";
    let case = parse_case(line).unwrap();
    assert_eq!((case.x, case.n, case.a.len(), case.b.len(), case.c.len()), (1, 2, 1, 2, 3));
    assert_eq!((case.second(), case.third()), (1, 0));
    let lines = [
        "packed_lblt_factor 1 7 ; 4000000000000000 ; 00000009 00000009 00000009 00000009",
        "packed_lblt_solve 1 1 7 ; 4000000000000000 ; 00000000 00000001 00000000 00000007 ; 4000000000000000",
        "packed_lblt_determinant 1 7 ; 4000000000000000 ; 00000000 00000001 00000000 00000007",
        "packed_cholesky_factor 1 ; 3ff0000000000000",
        "packed_cholesky_solve 1 1 ; 4000000000000000 ; 4000000000000000",
        "packed_first_twin 1 ; 4000000000000000",
    ];
    let outcomes = [
        "0 ; 4000000000000000 ; 00000000 00000001 00000000 00000007",
        "0 ; 4000000000000000 ; 00000000 00000001 00000000 00000007 ; 3ff0000000000000",
        "0 4000000000000000 ; 4000000000000000 ; 00000000 00000001 00000000 00000007",
        "0 ; 3ff0000000000000",
        "0 ; 4000000000000000 ; 3fe0000000000000",
        "0 ; 4000000000000000",
    ];
    let set = |register: u64, words: &[u64]| [&[2 | register << 8 | (words.len() as u64) << 16][..], words].concat();
    let same = |register: u64, words: &[u64]| [&[7 | register << 8 | (words.len() as u64) << 16][..], words].concat();
    let call = |number: u64, numbers: [u64; 5]| [&[6 | number << 8][..], &numbers].concat();
    let list = [
        set(0, &[one]),
        set(1, &[one, one]),
        set(2, &[7, 8, 9]),
        call(22, [2, 1, 0, 7 * 4096 + 1, 0]),
        same(2, &[one, one, zero]),
        call(22, [2, 3, 0, 2 * 4096, 0]),
        set(0, &[two]),
        set(3, &[9; 4]),
        call(18, [1, 0, 7, 0, 0]),
        same(3, &[0, 1, 0, 7]),
        set(1, &[two]),
        call(19, [1, 1, 7, 0, 0]),
        same(1, &[one]),
        call(20, [1, 0, 7, 0, two]),
        call(20, [1, 0, 8, 13 * 4096, 0]),
        call(23, [1, 1, 0, 0, 0]),
        same(1, &[0x3fd0_0000_0000_0000]),
        call(24, [1, 0, 0, 0, 0]),
        set(0, &[one; 3]),
        call(24, [2, 0, 0, 4097 * 4096, 0]),
        call(21, [2, 0, 0, 7 * 4096 + 1, 0]),
        same(0, &[one, one, zero]),
    ]
    .concat();
    for calls in BOTH {
        assert_eq!(
            outcome_line(&case, &case.outcome(calls)),
            "28673 ; 3ff0000000000000 ; 3ff0000000000000 3ff0000000000000 ; 3ff0000000000000 3ff0000000000000 0000000000000000"
        );
        for (line, outcome) in lines.iter().zip(outcomes) {
            let case = parse_case(line).unwrap();
            assert_eq!(case_line(&case), *line);
            assert_eq!(outcome_line(&case, &case.outcome(calls)), outcome);
        }
        let mut machine = Machine::new(calls);
        machine.replay(&list);
        assert_eq!((machine.calls_made, machine.differences), (10, vec![]));
    }
    assert_eq!(case_line(&case), line);
}

#[test]
fn udu() {
    for calls in BOTH {
        let (mut u, mut d) = ([9.0], [9.0]);
        assert_eq!(calls.udu_factor(&[49.0], &mut u, &mut d, 1), 0);
        assert!(u[0] < 1.0 && d[0] == 49.0);
        assert_eq!(calls.udu_factor(&[0.0], &mut u, &mut d, 1), 8 * 4096);
        assert_eq!((u, d), ([0.0], [0.0]));
        assert_eq!(calls.udu_factor(&[], &mut [], &mut [], 0), 4096);
    }
}

/// [12 / 7 5 / 4 2 2], and with one entry changed, so that it is refused at each column: the answers to it and to rows 1 and 2 alone, u, d.
#[test]
fn udu_tails() {
    const AT: u64 = 8 * 4096;
    let cases = [
        ([12.0, 7.0, 5.0, 4.0, 2.0, 2.0], [0, 0], [1.0, 0.0, 0.0, 1.0, 1.0, 0.0, 2.0, 1.0, 1.0], [1.0, 3.0, 2.0]),
        ([11.0, 7.0, 5.0, 4.0, 2.0, 2.0], [AT, 0], [0.0, 0.0, 0.0, 1.0, 1.0, 0.0, 2.0, 1.0, 1.0], [0.0, 3.0, 2.0]),
        ([12.0, 7.0, 2.0, 4.0, 2.0, 2.0], [AT + 1, AT], [0.0, 0.0, 0.0, 0.0, 0.0, 0.0, 2.0, 1.0, 1.0], [0.0, 0.0, 2.0]),
        ([12.0, 7.0, 5.0, 4.0, 2.0, -0.0], [AT + 2, AT + 1], [0.0; 9], [0.0, 0.0, -0.0]),
    ];
    for (rows, [answer, from_one], u, d) in cases {
        let mut p = filled(9);
        for (at, x) in [0, 3, 4, 6, 7, 8].into_iter().zip(rows) {
            p[at] = x;
        }
        let whole = Case { b: filled(9), c: filled(3), ..Case::new(Call::UduFactor, 3, p) };
        for calls in BOTH {
            let left = whole.outcome(calls);
            assert_eq!((left.answer, &left.b, &left.c), (answer, &words(&u), &words(&d)));
            let found = block(&whole, 1).outcome(calls);
            assert_eq!((found.answer, found.b, found.c), (from_one, words(&[u[4], u[5], u[7], u[8]]), words(&d[1..])));
            for m in 0..3 {
                let block = block(&whole, m);
                assert_eq!(block.outcome(calls), tail(&block, m, &left));
            }
        }
    }
}

#[test]
fn orders() {
    for calls in BOTH {
        assert_eq!(calls.lblt_factor(&mut [], &mut [0, 9], 0, RUN), 0);
        assert_eq!(calls.lblt_determinant(&[], &[0, RUN], 0, RUN), (0, 1.0));
        for n in [1025, 1 << 32, usize::MAX] {
            assert_eq!(calls.lblt_factor(&mut [], &mut [], n, RUN), 4096);
            assert_eq!(calls.cholesky_factor(&mut [], n, n), 4096);
            assert_eq!(calls.udu_factor(&[], &mut [], &mut [], n), 4096);
        }
        assert_eq!(calls.cholesky_factor(&mut [], 0, 1), 2 * 4096);
    }
}

#[test]
fn twins() {
    let pair = |p: u64, q: u64| (4096 + q) * 4096 + p;
    let since = |n: usize, rows: &[f64], earlier: usize| Paper.first_twin_since(&matrix(n, rows), n, earlier, n);
    let first = |n: usize, rows: &[f64]| Paper.first_twin(&matrix(n, rows), n, n);
    let nan = |word: u64| f64::from_bits(word);
    assert_eq!(first(0, &[]), 0);
    assert_eq!(first(1, &[1.0]), 0);
    assert_eq!(first(2, &[1.0, 1.0, 1.0]), pair(0, 1));
    assert_eq!(first(2, &[1.0, 1.0, 2.0]), 0);
    assert_eq!(first(2, &[0.0, -0.0, 0.0]), 0);
    assert_eq!(first(2, &[nan(0x7ff0_0000_0000_0001), nan(0xfff8_0000_0000_0000), f64::NAN]), pair(0, 1));
    // rows 4 2 4 / 2 5 2 / 4 2 4
    let outer = [4.0, 2.0, 5.0, 4.0, 2.0, 4.0];
    assert_eq!([0, 2, 3].map(|m| since(3, &outer, m)), [pair(0, 2), pair(0, 2), 0]);
    // the least second row, then the least first
    assert_eq!([0, 1, 2, 3].map(|m| since(3, &[1.0; 6], m)), [pair(0, 1), pair(0, 1), pair(0, 2), 0]);
    // neither above the diagonal nor outside the first n rows is anything read
    let mut a = vec![f64::NAN; 16];
    for at in [0, 1, 5] {
        a[at] = 7.0;
    }
    assert_eq!(Paper.first_twin(&a, 4, 2), pair(0, 1));
    let refused = |room: usize, earlier: usize, n: usize, len: usize| Paper.first_twin_since(&vec![0.0; len], room, earlier, n) / 4096;
    assert_eq!([refused(1025, 0, 0, 0), refused(0, 1025, 0, 0), refused(0, 0, 1025, 0)], [1; 3]);
    assert_eq!([refused(1, 0, 2, 0), refused(1, 2, 1, 0)], [2; 2]);
    assert_eq!([refused(2, 1, 1, 3), refused(1024, 1024, 1024, 0)], [3; 2]);
}

/// Where document 01 refuses and the text does not say so.
mod beside_the_document {
    use oracle::linalg::{cholesky::Cholesky, lblt::LBLT, udu::UDU};
    use oracle::text::square;

    #[test]
    #[should_panic]
    fn udu_of_order_0() {
        let _ = UDU::new(square(0, vec![]));
    }

    #[test]
    fn order_1025() {
        let n = 1025;
        let identity: Vec<f64> = (0..n * n).map(|at| if at % (n + 1) == 0 { 1.0 } else { 0.0 }).collect();
        assert_eq!(LBLT::new(square(n, identity.clone())).determinant(), 1.0);
        assert!(Cholesky::new(square(n, identity)).is_some());
    }
}
