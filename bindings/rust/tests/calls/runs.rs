//! The run number at the end of the pivot record, and who expects it.

use crate::numbers::{bits, Numbers};
use urgyelpat::{lblt, packed, Refusal, LARGEST, LBLT};

/// The factor of the lower rows 0 / 1 4, with a number above the diagonal that is kept.
const A: [f64; 4] = [4.0, 0.25, 7.0, -0.25];

/// The same, packed.
const PACKED: [f64; 3] = [4.0, 0.25, -0.25];

/// Its record.
fn of_run(run: u32) -> [u32; 6] {
    [1, 1, 1, 1, 0, run]
}

/// What each reader is lent: sides to solve, or a matrix to fill.
const LENT: [f64; 4] = [3.0, 5.0, 7.0, 9.0];

type Reader = fn(&[u32], &mut [f64], u32) -> Result<(), Refusal>;

/// The calls that read the factor, and what each makes of [`LENT`]. The determinant is put at its front, where there is one.
const READERS: [(Reader, [f64; 4]); 7] = [
    (
        |record, lent, run| lblt::solve_mut(&A, record, lent, 2, 2, run),
        [-7.0, 3.0, -19.0, 7.0],
    ),
    (
        |record, lent, run| lblt::solve_bench(&A, record, lent, &[2, 1], 2, 2, 1, run),
        [3.0, 5.0, -19.0, 7.0],
    ),
    (
        |record, lent, run| lblt::determinant(&A, record, 2, run).map(|value| lent[0] = value),
        [-1.0, 5.0, 7.0, 9.0],
    ),
    (
        |record, lent, run| lblt::d(&A, record, lent, 2, run),
        [4.0, 0.0, 0.0, -0.25],
    ),
    (
        |record, lent, run| lblt::l_permuted(&A, record, lent, 2, run),
        [0.25, 1.0, 1.0, 0.0],
    ),
    (
        |record, lent, run| packed::lblt_solve(&PACKED, record, lent, 2, 2, run),
        [-7.0, 3.0, -19.0, 7.0],
    ),
    (
        |record, lent, run| packed::lblt_determinant(&PACKED, record, 2, run).map(|value| lent[0] = value),
        [-1.0, 5.0, 7.0, 9.0],
    ),
];

const NUMBERS: [u32; 8] = [0, 1, 6, 7, 8, 4096, u32::MAX - 1, u32::MAX];

#[track_caller]
fn refused_by_all(record: &[u32], run: u32, refusal: Refusal) {
    for (at, (reader, _)) in READERS.iter().enumerate() {
        let mut lent = LENT;
        assert_eq!(reader(record, &mut lent, run), Err(refusal), "reader {at}, run {run}");
        assert_eq!(bits(&lent), bits(&LENT), "reader {at}, run {run}");
    }
}

#[test]
fn each_reader_accepts_the_run_that_it_expects_and_no_other() {
    for (reader, made) in READERS {
        let mut lent = LENT;
        assert_eq!(reader(&of_run(7), &mut lent, 7), Ok(()));
        assert_eq!(lent, made);
    }
    for run in [6, 8, 0, u32::MAX] {
        refused_by_all(&of_run(7), run, Refusal::OtherRun);
    }
}

#[test]
fn every_number_is_a_run() {
    for run in NUMBERS {
        let (mut a, mut record) = ([0.0, 1.0, 7.0, 4.0], [99; 6]);
        lblt::factor(&mut a, &mut record, 2, run).unwrap();
        assert_eq!(a, A);
        assert_eq!(record, of_run(run));
        let (mut a, mut of_packed) = ([0.0, 1.0, 4.0], [99; 6]);
        packed::lblt_factor(&mut a, &mut of_packed, 2, run).unwrap();
        assert_eq!(a, PACKED);
        assert_eq!(of_packed, record);
        for (reader, made) in READERS {
            let mut lent = LENT;
            assert_eq!(reader(&record, &mut lent, run), Ok(()), "run {run}");
            assert_eq!(lent, made, "run {run}");
        }
        for other in NUMBERS.into_iter().filter(|&other| other != run) {
            refused_by_all(&record, other, Refusal::OtherRun);
        }
    }
}

#[test]
fn a_broken_record_is_refused_as_such_whatever_its_run() {
    for run in [7, 8] {
        refused_by_all(&[1, 1, 9, 1, 0, 7], run, Refusal::BadRecord { row: 1 });
        refused_by_all(&[1, 3, 1, 1, 0, 7], run, Refusal::BadRecord { row: 0 });
        refused_by_all(&[1, 1, 1, 1, 3, 7], run, Refusal::BadRecord { row: 2 });
    }
}

#[test]
fn a_marked_record_of_another_run_is_refused_for_its_run() {
    let marked = [1, 1, 1, 1, 2, 7];
    refused_by_all(&marked, 8, Refusal::OtherRun);
    for columns in 0..=2 {
        for (run, refusal) in [(8, Refusal::OtherRun), (7, Refusal::ZeroMark { row: 1 })] {
            let mut lent = LENT;
            let solved = lblt::solve_mut(&A, &marked, &mut lent[..2 * columns], 2, columns, run);
            assert_eq!(solved, Err(refusal), "{columns} columns");
            assert_eq!(lent, LENT);
        }
    }
    assert_eq!(lblt::determinant(&A, &marked, 2, 7), Ok(-1.0));
}

#[test]
fn a_solve_of_no_columns_expects_its_run_too() {
    let solve = |run| lblt::solve_mut(&A, &of_run(7), &mut [], 2, 0, run);
    assert_eq!(solve(7), Ok(()));
    assert_eq!(solve(8), Err(Refusal::OtherRun));
}

#[test]
fn order_0_has_a_run_too() {
    let mut record = [99; 2];
    lblt::factor(&mut [], &mut record, 0, 7).unwrap();
    assert_eq!(record, [0, 7]);
    let determinant = |record: &[u32], run| lblt::determinant(&[], record, 0, run);
    assert_eq!(determinant(&record, 7), Ok(1.0));
    assert_eq!(determinant(&record, 8), Err(Refusal::OtherRun));
    assert_eq!(determinant(&[1, 7], 8), Err(Refusal::BadRecord { row: 0 }));
    assert_eq!(determinant(&[0], 0), Err(Refusal::SliceLength));
}

#[test]
fn a_record_of_another_length_is_refused_by_every_call() {
    for run in [0, 7, 8] {
        refused_by_all(&[1, 1, 1, 1, 0], run, Refusal::SliceLength);
        refused_by_all(&[1, 1, 1, 1, 0, 7, 7], run, Refusal::SliceLength);
        for words in [5, 7] {
            let (mut a, mut record) = ([0.0, 1.0, 7.0, 4.0], vec![99; words]);
            assert_eq!(lblt::factor(&mut a, &mut record, 2, run), Err(Refusal::SliceLength));
            assert_eq!(a, [0.0, 1.0, 7.0, 4.0]);
            assert_eq!(record, vec![99; words]);
        }
    }
}

#[test]
fn sizes_are_looked_at_before_the_run() {
    let mut lent = LENT;
    let mut d = |a: &[f64], numbers: usize, n| lblt::d(a, &of_run(7), &mut lent[..numbers], n, 8);
    assert_eq!(d(&A, 4, LARGEST + 1), Err(Refusal::OutOfRange));
    assert_eq!(d(&A[..3], 4, 2), Err(Refusal::MatrixLength));
    assert_eq!(d(&A, 3, 2), Err(Refusal::SliceLength));
    assert_eq!(lent, LENT);
}

#[test]
fn a_factor_knows_its_run_and_the_rest_of_it_does_not() {
    for n in 0..=24 {
        let a = Numbers(n as u64).symmetric(n);
        let first = LBLT::new(a.clone(), n, 7).unwrap();
        for run in NUMBERS {
            let factor = LBLT::new(a.clone(), n, run).unwrap();
            assert_eq!(factor.run(), run);
            assert_eq!(factor.record().len(), 2 * n + 2);
            assert_eq!(factor.record()[2 * n + 1], run);
            assert_eq!(factor.record()[..=2 * n], first.record()[..=2 * n]);
            assert_eq!(bits(factor.matrix()), bits(first.matrix()));
            assert_eq!(bits(&factor.solve(&a).unwrap()), bits(&first.solve(&a).unwrap()));
            assert_eq!(factor.determinant().to_bits(), first.determinant().to_bits());
            assert_eq!(bits(&factor.d()), bits(&first.d()));
            assert_eq!(bits(&factor.l_permuted()), bits(&first.l_permuted()));
        }
    }
}

#[test]
fn the_pivots_hold_neither_mark_nor_run() {
    for run in NUMBERS {
        for n in 0..=24 {
            let factor = LBLT::new(Numbers(n as u64).symmetric(n), n, run).unwrap();
            let words: Vec<u32> = factor.pivots().flat_map(|(i, size)| [i as u32, size as u32]).collect();
            assert_eq!(words, factor.record()[..2 * n]);
        }
        let marked = LBLT::new(vec![1.0, 2.0, 7.0, 4.0], 2, run).unwrap();
        assert_eq!(marked.zero_pivot(), Some(1));
        assert_eq!(marked.pivots().collect::<Vec<_>>(), [(1, 1), (1, 1)]);
    }
}

#[test]
fn mondays_record_is_refused_on_tuesday() {
    let n = 6;
    let monday = LBLT::new(Numbers(1116).symmetric(n), n, 1116).unwrap();
    let tuesday = LBLT::new(Numbers(1117).symmetric(n), n, 1117).unwrap();
    let sides: Vec<f64> = (0..n).map(|row| row as f64).collect();
    let mut x = sides.clone();
    let solved = lblt::solve_mut(tuesday.matrix(), monday.record(), &mut x, n, 1, tuesday.run());
    assert_eq!(solved, Err(Refusal::OtherRun));
    assert_eq!(bits(&x), bits(&sides));

    lblt::solve_mut(tuesday.matrix(), tuesday.record(), &mut x, n, 1, tuesday.run()).unwrap();
    assert_eq!(bits(&x), bits(&tuesday.solve(&sides).unwrap()));
}
