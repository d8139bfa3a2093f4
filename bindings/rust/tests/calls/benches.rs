//! Two benches, one factor: the columns of one bench are solved, and the others stay as they were.

use crate::numbers::{bits, by_chance, strange, Numbers};
use urgyelpat::{lblt, Refusal, LARGEST, LBLT};

const LEFT: u32 = 1;
const RIGHT: u32 = 2;

/// Stretches of so many columns, of the left bench and the right bench in turn.
fn in_turn(stretch: usize, columns: usize) -> Vec<u32> {
    (0..columns).map(|j| [LEFT, RIGHT][j / stretch % 2]).collect()
}

/// Lists of bench numbers: no columns; stretches of 1 to 9 columns alone, between others and in turn with others; columns of
/// the other bench alone; three benches by chance.
fn lists() -> Vec<Vec<u32>> {
    let mut lists = vec![vec![]];
    for stretch in 1..=9 {
        let own = vec![LEFT; stretch];
        lists.push([&[RIGHT], &own[..], &[RIGHT]].concat());
        lists.push([&own[..], &[RIGHT, LEFT, RIGHT, RIGHT], &own[..]].concat());
        lists.push(in_turn(stretch, 2 * stretch + 1));
        lists.push(in_turn(1, stretch));
        lists.push(vec![RIGHT; stretch]);
        lists.push(own);
    }
    let mut numbers = Numbers(33);
    for columns in 1..=24 {
        let bench = |_| [LEFT, RIGHT, 3][(1.5 * (numbers.next() + 1.0)) as usize];
        lists.push((0..columns).map(bench).collect());
    }
    lists
}

/// All orders up to 12, each with a factor of run 7 that has no mark and with every list.
fn every_list(mut case: impl FnMut(&LBLT, usize, &[u32])) {
    for n in 0..=12 {
        let factor = LBLT::new(Numbers(n as u64).symmetric(n), n, 7).unwrap();
        assert_eq!(factor.zero_pivot(), None);
        for list in lists() {
            case(&factor, n, &list);
        }
    }
}

fn places(list: &[u32], bench: u32) -> impl Iterator<Item = usize> + '_ {
    (0..list.len()).filter(move |&j| list[j] == bench)
}

/// The columns of a bench, one after the other.
fn columns_of(bench: u32, list: &[u32], b: &[f64], n: usize) -> Vec<f64> {
    places(list, bench)
        .flat_map(|j| b[j * n..(j + 1) * n].to_vec())
        .collect()
}

/// Puts columns in the places of a bench.
fn put_columns(bench: u32, list: &[u32], b: &mut [f64], n: usize, columns: &[f64]) {
    for (at, j) in places(list, bench).enumerate() {
        b[j * n..(j + 1) * n].copy_from_slice(&columns[at * n..(at + 1) * n]);
    }
}

#[test]
fn a_bench_gets_what_a_solve_of_its_columns_gives_and_nothing_else_is_written() {
    let mut numbers = Numbers(3);
    let mut solved = 0;
    every_list(|factor, n, list| {
        for bench in [LEFT, RIGHT] {
            let own = by_chance(&mut numbers, n * places(list, bench).count());
            let mut b = strange(n * list.len(), solved);
            put_columns(bench, list, &mut b, n, &own);
            let mut wanted = b.clone();
            put_columns(bench, list, &mut wanted, n, &factor.solve(&own).unwrap());

            let mut by_method = b.clone();
            factor.solve_bench(&mut by_method, list, bench).unwrap();
            assert_eq!(bits(&by_method), bits(&wanted), "order {n}, bench {bench} of {list:?}");
            let (a, record) = (factor.matrix(), factor.record());
            lblt::solve_bench(a, record, &mut b, list, n, list.len(), bench, 7).unwrap();
            assert_eq!(bits(&b), bits(&wanted), "order {n}, bench {bench} of {list:?}");
            solved += own.len();
        }
    });
    assert!(solved > 40_000);
}

/// Bits in which all NaN are one.
fn words(column: &[f64]) -> Vec<Option<u64>> {
    let word = |x: &f64| if x.is_nan() { None } else { Some(x.to_bits()) };
    column.iter().map(word).collect()
}

#[test]
fn columns_of_strange_numbers_are_solved_as_each_is_alone() {
    every_list(|factor, n, list| {
        let b = strange(n * list.len(), list.len());
        let mut x = b.clone();
        factor.solve_bench(&mut x, list, LEFT).unwrap();
        for (j, &bench) in list.iter().enumerate() {
            let (given, left) = (&b[j * n..(j + 1) * n], &x[j * n..(j + 1) * n]);
            if bench == LEFT {
                let alone = factor.solve(given).unwrap();
                assert_eq!(words(left), words(&alone), "order {n}, column {j} of {list:?}");
            } else {
                assert_eq!(bits(left), bits(given), "order {n}, column {j} of {list:?}");
            }
        }
    });
}

#[test]
fn the_other_bench_is_not_felt() {
    let mut numbers = Numbers(5);
    every_list(|factor, n, list| {
        let count = n * list.len();
        let own = by_chance(&mut numbers, n * places(list, LEFT).count());
        let others = [
            vec![0.0; count],
            by_chance(&mut numbers, count),
            strange(count, 0),
            strange(count, 4),
        ];
        let [first, rest @ ..] = others.map(|mut b| {
            put_columns(LEFT, list, &mut b, n, &own);
            let answer = factor.solve_bench(&mut b, list, LEFT);
            (answer, bits(&columns_of(LEFT, list, &b, n)))
        });
        assert_eq!(first.0, Ok(()));
        for run in rest {
            assert_eq!(run, first, "order {n}, {list:?}");
        }
    });
}

#[test]
fn the_benches_one_after_the_other_solve_all_columns() {
    let mut numbers = Numbers(7);
    every_list(|factor, n, list| {
        let b = by_chance(&mut numbers, n * list.len());
        let whole = bits(&factor.solve(&b).unwrap());
        for benches in [[LEFT, RIGHT, 3], [RIGHT, LEFT, 3], [3, RIGHT, LEFT]] {
            let mut x = b.clone();
            for bench in benches {
                factor.solve_bench(&mut x, list, bench).unwrap();
            }
            assert_eq!(bits(&x), whole, "order {n}, {benches:?} of {list:?}");
        }
    });
}

#[test]
fn every_number_is_a_bench_and_none_is_another() {
    let benches = [
        0,
        1,
        7,
        0x107,
        0x1_0007,
        0x8000_0007,
        0x7fff_ffff,
        0x8000_0000,
        u32::MAX - 1,
        u32::MAX,
    ];
    let factor = LBLT::new(vec![2.0], 1, 7).unwrap();
    for (own, bench) in benches.into_iter().enumerate() {
        let (mut b, mut wanted) = ([6.0; 10], [6.0; 10]);
        wanted[own] = 3.0;
        factor.solve_bench(&mut b, &benches, bench).unwrap();
        assert_eq!(b, wanted, "bench {bench}");
    }
}

#[test]
fn the_list_may_be_the_record_itself() {
    let factor = LBLT::new(vec![0.0, 1.0, 7.0, 0.0], 2, 7).unwrap();
    assert_eq!(factor.record(), [1, 2, 1, 2, 0, 7]);
    let mut b = [1.0, 2.0, 3.0, 4.0, 5.0, 6.0, 7.0, 8.0, 9.0, 10.0, 11.0, 12.0];
    for bench in [7, 2] {
        factor.solve_bench(&mut b, factor.record(), bench).unwrap();
    }
    assert_eq!(b, [1.0, 2.0, 4.0, 3.0, 5.0, 6.0, 8.0, 7.0, 9.0, 10.0, 12.0, 11.0]);
    assert_eq!(factor.record(), [1, 2, 1, 2, 0, 7]);
}

/// What the call takes but the bench.
#[derive(Clone)]
struct Asked {
    a: Vec<f64>,
    record: Vec<u32>,
    b: Vec<f64>,
    benches: Vec<u32>,
    n: usize,
    columns: usize,
    run: u32,
}

impl Asked {
    /// Two columns of the left bench and one of the right between them, and the factor of the lower rows 0 / 1 4.
    fn sound() -> Asked {
        Asked {
            a: vec![4.0, 0.25, 7.0, -0.25],
            record: vec![1, 1, 1, 1, 0, 7],
            b: vec![3.0, 5.0, 7.0, 9.0, 1.0, 6.0],
            benches: vec![LEFT, RIGHT, LEFT],
            n: 2,
            columns: 3,
            run: 7,
        }
    }

    /// The answer, and what stands in `b` after it.
    fn call(&self, bench: u32) -> (Result<(), Refusal>, Vec<f64>) {
        let Asked {
            a, record, b, benches, ..
        } = self;
        let mut left = b.clone();
        let answer = lblt::solve_bench(a, record, &mut left, benches, self.n, self.columns, bench, self.run);
        (answer, left)
    }

    /// Refused, whether the bench has two columns, one or none; nothing is written.
    #[track_caller]
    fn refused(&self, refusal: Refusal) {
        for bench in [LEFT, RIGHT, 3] {
            let (answer, left) = self.call(bench);
            assert_eq!(answer, Err(refusal), "bench {bench}");
            assert_eq!(bits(&left), bits(&self.b), "bench {bench}, {refusal:?}");
        }
    }
}

type Fault = fn(&mut Asked);

/// What can be wrong with a call, in the order in which it is looked at.
const FAULTS: [(Refusal, Fault); 18] = [
    (Refusal::OutOfRange, |asked| asked.n = LARGEST + 1),
    (Refusal::OutOfRange, |asked| asked.n = usize::MAX),
    (Refusal::OutOfRange, |asked| asked.columns = LARGEST + 1),
    (Refusal::OutOfRange, |asked| asked.columns = usize::MAX),
    (Refusal::MatrixLength, |asked| asked.a.truncate(3)),
    (Refusal::MatrixLength, |asked| asked.a.resize(5, 1.0)),
    (Refusal::MatrixLength, |asked| asked.a.clear()),
    (Refusal::SliceLength, |asked| asked.record.truncate(5)),
    (Refusal::SliceLength, |asked| asked.record.resize(7, 7)),
    (Refusal::SliceLength, |asked| asked.b.truncate(5)),
    (Refusal::SliceLength, |asked| asked.b.resize(7, 1.0)),
    (Refusal::SliceLength, |asked| asked.benches.truncate(2)),
    (Refusal::SliceLength, |asked| asked.benches.resize(4, LEFT)),
    (Refusal::SliceLength, |asked| asked.benches.clear()),
    (Refusal::BadRecord { row: 0 }, |asked| asked.record[0] = 9),
    (Refusal::BadRecord { row: 2 }, |asked| asked.record[4] = 3),
    (Refusal::OtherRun, |asked| asked.run = 8),
    (Refusal::ZeroMark { row: 1 }, |asked| asked.record[4] = 2),
];

#[test]
fn each_fault_is_refused_and_nothing_is_written() {
    for bench in [LEFT, RIGHT, 3] {
        assert_eq!(Asked::sound().call(bench).0, Ok(()));
    }
    for (refusal, fault) in FAULTS {
        let mut asked = Asked::sound();
        fault(&mut asked);
        asked.refused(refusal);
    }
}

#[test]
fn of_two_faults_the_first_is_told() {
    for (at, (refusal, fault)) in FAULTS.into_iter().enumerate() {
        for (later, other) in &FAULTS[at + 1..] {
            if *later != refusal {
                let mut asked = Asked::sound();
                other(&mut asked);
                fault(&mut asked);
                asked.refused(refusal);
            }
        }
    }
}

#[test]
fn the_list_has_a_number_for_each_column() {
    for n in [0, 2] {
        for columns in 0..=9 {
            for numbers in 0..=12 {
                let mut asked = Asked::sound();
                asked.a.truncate(n * n);
                asked.record = [&asked.record[4 - 2 * n..4], &[0, 7]].concat();
                asked.b = vec![1.0; n * columns];
                asked.benches = in_turn(1, numbers);
                (asked.n, asked.columns) = (n, columns);
                if numbers != columns {
                    asked.refused(Refusal::SliceLength);
                } else {
                    assert_eq!(asked.call(LEFT).0, Ok(()), "order {n}, {columns} columns");
                }
            }
        }
    }
}

#[test]
fn a_bench_with_no_column_is_answered_by_the_record() {
    for columns in [0, 1, 5] {
        let mut asked = Asked::sound();
        asked.b = strange(2 * columns, 0);
        asked.benches = vec![RIGHT; columns];
        asked.columns = columns;
        let (answer, left) = asked.call(LEFT);
        assert_eq!(answer, Ok(()));
        assert_eq!(bits(&left), bits(&asked.b));

        for (refusal, fault) in FAULTS.into_iter().filter(|(refusal, _)| refusal.code() > 4) {
            let mut asked = asked.clone();
            fault(&mut asked);
            let (answer, left) = asked.call(LEFT);
            assert_eq!(answer, Err(refusal), "{columns} columns");
            assert_eq!(bits(&left), bits(&asked.b));
        }
    }
}

#[test]
fn a_factor_expects_its_own_run_and_refuses_its_mark() {
    for run in [0, 7, u32::MAX] {
        let factor = LBLT::new(vec![0.0, 1.0, 7.0, 4.0], 2, run).unwrap();
        let mut b = [3.0, 5.0, 1.0, 6.0];
        assert_eq!(factor.solve_bench(&mut b, &[LEFT, RIGHT], RIGHT), Ok(()));
        assert_eq!(b, [3.0, 5.0, 2.0, 1.0]);

        let marked = LBLT::new(vec![1.0, 2.0, 7.0, 4.0], 2, run).unwrap();
        for bench in [LEFT, RIGHT, 3] {
            let refused = marked.solve_bench(&mut b, &[LEFT, RIGHT], bench);
            assert_eq!(refused, Err(Refusal::ZeroMark { row: 1 }));
            assert_eq!(b, [3.0, 5.0, 2.0, 1.0]);
        }
        let refused = marked.solve_bench(&mut [], &[], LEFT);
        assert_eq!(refused, Err(Refusal::ZeroMark { row: 1 }));
    }
}

#[test]
fn there_are_as_many_columns_as_bench_numbers() {
    for n in 0..=3 {
        let factor = LBLT::new(Numbers(n as u64).symmetric(n), n, 7).unwrap();
        for columns in 0..=5 {
            let list = in_turn(1, columns);
            for numbers in 0..=n * columns + n + 1 {
                let given = vec![1.0; numbers];
                let mut b = given.clone();
                let answer = factor.solve_bench(&mut b, &list, LEFT);
                if numbers == n * columns {
                    assert_eq!(answer, Ok(()), "order {n}, {columns} columns");
                } else {
                    assert_eq!(answer, Err(Refusal::SliceLength), "order {n}, {columns} columns");
                    assert_eq!(b, given);
                }
            }
        }
    }
}

#[test]
fn more_columns_than_the_largest_count_are_refused() {
    let list = in_turn(1, LARGEST + 1);
    for n in 0..=1 {
        let factor = LBLT::new(vec![2.0; n], n, 7).unwrap();
        let mut b = vec![6.0; n * LARGEST];
        assert_eq!(factor.solve_bench(&mut b, &list[..LARGEST], RIGHT), Ok(()));
        assert!((0..b.len()).all(|j| b[j] == if j % 2 == 1 { 3.0 } else { 6.0 }));

        for numbers in [0, n * LARGEST, n * (LARGEST + 1)] {
            let mut b = vec![6.0; numbers];
            assert_eq!(factor.solve_bench(&mut b, &list, RIGHT), Err(Refusal::OutOfRange));
            assert_eq!(b, vec![6.0; numbers]);
        }
    }
}
