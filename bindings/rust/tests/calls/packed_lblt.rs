//! LBLT in the packed layout beside the full one: the same numbers, records, codes and places; and what it refuses.

use crate::numbers::{bits, by_chance, one_nan, strange, Numbers};
use crate::packed::{every_matrix, matrices, old_numbers, TOO_LARGE};
use urgyelpat::packed::{self, length, pack, unpack};
use urgyelpat::{lblt, PackedLBLT, Refusal, LARGEST, LBLT};

const RUN: u32 = 7;

/// Solves so many columns by a packed factor, and by the same factor in the full layout.
fn solved_alike(factor: &[f64], record: &[u32], n: usize, sides: &[f64], columns: usize, run: u32) {
    let (mut b, mut by_full) = (sides.to_vec(), sides.to_vec());
    let answer = packed::lblt_solve(factor, record, &mut b, n, columns, run);
    let full = unpack(factor, n).unwrap();
    assert_eq!(
        answer,
        lblt::solve_mut(&full, record, &mut by_full, n, columns, run),
        "order {n}"
    );
    assert_eq!(one_nan(&b), one_nan(&by_full), "order {n}, {columns} columns");
    if answer.is_err() {
        assert_eq!(bits(&b), bits(sides), "order {n}, {columns} columns");
    }
}

fn determined_alike(factor: &[f64], record: &[u32], n: usize, run: u32) {
    let full = unpack(factor, n).unwrap();
    let number = |answer: Result<f64, Refusal>| answer.map(|value| one_nan(&[value]));
    let (value, by_full) = (
        packed::lblt_determinant(factor, record, n, run),
        lblt::determinant(&full, record, n, run),
    );
    assert_eq!(number(value), number(by_full), "order {n}");
}

#[test]
fn lblt_is_the_full_layouts() {
    let mut marked = 0;
    every_matrix(|n, a| {
        let (mut factor, mut record) = (pack(a, n).unwrap(), vec![99; 2 * n + 2]);
        let (mut full, mut by_full) = (a.to_vec(), vec![88; 2 * n + 2]);
        packed::lblt_factor(&mut factor, &mut record, n, RUN).unwrap();
        lblt::factor(&mut full, &mut by_full, n, RUN).unwrap();
        assert_eq!(record, by_full, "order {n}");
        assert_eq!(one_nan(&factor), one_nan(&pack(&full, n).unwrap()), "order {n}");
        marked += usize::from(record[2 * n] != 0);

        determined_alike(&factor, &record, n, RUN);
        for columns in 0..=9 {
            let sides = by_chance(&mut Numbers(columns as u64), n * columns);
            solved_alike(&factor, &record, n, &sides, columns, RUN);
            solved_alike(&factor, &record, n, &strange(n * columns, columns), columns, RUN);
        }
    });
    assert!(marked > 50, "{marked}");
}

#[test]
fn any_numbers_are_read_as_a_factor_by_any_record() {
    for n in 0..=16 {
        let matrices = matrices(n);
        for (a, other) in matrices.iter().zip(matrices.iter().rev()) {
            let record = LBLT::new(other.clone(), n, RUN).unwrap().record().to_vec();
            let factor = pack(a, n).unwrap();
            determined_alike(&factor, &record, n, RUN);
            let sides = by_chance(&mut Numbers(n as u64), 5 * n);
            solved_alike(&factor, &record, n, &sides, 5, RUN);
            for word in 0..record.len() {
                // each word of the record damaged
                for changed in [0, 1, 2, 3, n as u32, n as u32 + 1, u32::MAX] {
                    let mut record = record.clone();
                    record[word] = changed;
                    determined_alike(&factor, &record, n, RUN);
                    solved_alike(&factor, &record, n, &sides[..n], 1, RUN);
                }
            }
        }
    }
}

#[test]
fn a_packed_lblt_says_what_the_full_one_says() {
    every_matrix(|n, a| {
        let factor = PackedLBLT::new(pack(a, n).unwrap(), n, RUN + n as u32).unwrap();
        let full = LBLT::new(a.to_vec(), n, RUN + n as u32).unwrap();
        assert_eq!(factor.order(), n);
        assert_eq!(one_nan(factor.matrix()), one_nan(&pack(full.matrix(), n).unwrap()));
        assert_eq!(factor.record(), full.record());
        assert!(factor.pivots().eq(full.pivots()));
        assert_eq!(factor.pivots().count(), n);
        assert_eq!(factor.zero_pivot(), full.zero_pivot());
        assert_eq!(factor.run(), RUN + n as u32);
        assert_eq!(one_nan(&[factor.determinant()]), one_nan(&[full.determinant()]));
        for row in 0..n {
            assert_eq!(factor.callers_row(row), full.callers_row(row));
        }
        for columns in [0, 1, 3, 4, 9] {
            let sides = by_chance(&mut Numbers(columns as u64), n * columns);
            let (x, by_full) = (factor.solve(&sides), full.solve(&sides));
            assert_eq!(x.map(|x| one_nan(&x)), by_full.map(|x| one_nan(&x)), "order {n}");
        }

        let pivots = factor.lapack_pivots();
        assert_eq!(pivots, full.lapack_pivots());
        let matrix = factor.matrix().to_vec();
        let back = PackedLBLT::from_lapack(matrix, n, &pivots.list, pivots.info, factor.run()).unwrap();
        assert_eq!(back.record(), factor.record());
        assert_eq!(bits(back.matrix()), bits(factor.matrix()));
        assert_eq!(back.order(), n);
    });
}

#[test]
fn lblt_factor_refuses_by_sizes_in_their_order() {
    let refused = |numbers, words, n, refusal| {
        let (mut a, mut record) = (old_numbers(numbers), vec![99; words]);
        let answer = packed::lblt_factor(&mut a, &mut record, n, RUN);
        assert_eq!(answer, Err(refusal), "order {n}, {numbers} numbers, {words} words");
        assert_eq!(bits(&a), bits(&old_numbers(numbers)));
        assert_eq!(record, vec![99; words]);
    };
    for n in TOO_LARGE {
        for numbers in 0..=1 {
            for words in 0..=2 {
                refused(numbers, words, n, Refusal::OutOfRange);
            }
        }
        assert_eq!(PackedLBLT::new(vec![], n, RUN), Err(Refusal::OutOfRange));
        let listed = PackedLBLT::from_lapack(vec![], n, &[], 0, RUN);
        assert_eq!(listed, Err(Refusal::OutOfRange));
    }
    for n in 0..=6 {
        for numbers in (0..=n * n + 2).filter(|&numbers| numbers != length(n)) {
            for words in 0..=2 * n + 4 {
                refused(numbers, words, n, Refusal::MatrixLength);
            }
            let matrix = old_numbers(numbers);
            assert_eq!(PackedLBLT::new(matrix.clone(), n, RUN), Err(Refusal::MatrixLength));
            let listed = PackedLBLT::from_lapack(matrix, n, &[0], 0, RUN);
            assert_eq!(listed, Err(Refusal::MatrixLength));
        }
        for words in (0..=2 * n + 4).filter(|&words| words != 2 * n + 2) {
            refused(length(n), words, n, Refusal::SliceLength);
        }
    }
    refused(LARGEST, 0, LARGEST, Refusal::MatrixLength);

    let listed = |list: &[i32], info| PackedLBLT::from_lapack(old_numbers(3), 2, list, info, RUN);
    assert_eq!(listed(&[1], 0), Err(Refusal::SliceLength));
    assert_eq!(listed(&[1, 2, 3], 0), Err(Refusal::SliceLength));
    assert_eq!(listed(&[1, 1], 0), Err(Refusal::BadList { row: 1 }));
    assert_eq!(listed(&[1, 2], 3), Err(Refusal::BadList { row: 2 }));
}

/// What the two readers of a packed factor are asked.
struct Asked {
    a: Vec<f64>,
    record: Vec<u32>,
    sides: usize,
    n: usize,
    columns: usize,
    run: u32,
}

/// The factor of the lower rows 0 / 1 4, its record, and sides that fit.
fn fitting() -> Asked {
    Asked {
        a: vec![4.0, 0.25, -0.25],
        record: vec![1, 1, 1, 1, 0, RUN],
        sides: 4,
        n: 2,
        columns: 2,
        run: RUN,
    }
}

impl Asked {
    /// Solves; a refusal leaves the sides.
    fn solved(&self) -> Result<(), Refusal> {
        let mut b = old_numbers(self.sides);
        let answer = packed::lblt_solve(&self.a, &self.record, &mut b, self.n, self.columns, self.run);
        if answer.is_err() {
            assert_eq!(bits(&b), bits(&old_numbers(self.sides)));
        }
        answer
    }

    fn determined(&self) -> Result<f64, Refusal> {
        packed::lblt_determinant(&self.a, &self.record, self.n, self.run)
    }

    #[track_caller]
    fn refused(self, refusal: Refusal) -> Asked {
        assert_eq!(self.solved(), Err(refusal));
        assert_eq!(self.determined(), Err(refusal));
        self
    }
}

/// All that can be wrong is wrong, and is put right one by one.
#[test]
fn the_readers_refuse_in_their_order() {
    for n in TOO_LARGE {
        let mut asked = Asked {
            a: vec![],
            record: vec![3, 3],
            sides: 0,
            n,
            columns: n,
            run: RUN + 1,
        };
        asked = asked.refused(Refusal::OutOfRange);
        asked.n = 2;
        assert_eq!(asked.solved(), Err(Refusal::OutOfRange));
        asked.columns = 2;
        asked = asked.refused(Refusal::MatrixLength);
        asked.a = fitting().a;
        asked = asked.refused(Refusal::SliceLength);
        asked.record = vec![1, 1, 1, 9, 0, RUN];
        assert_eq!(asked.solved(), Err(Refusal::SliceLength));
        asked.sides = 4;
        asked = asked.refused(Refusal::BadRecord { row: 1 });
        asked.record = vec![1, 1, 1, 1, 1, RUN];
        asked = asked.refused(Refusal::BadRecord { row: 2 });
        asked.record = vec![1, 1, 1, 1, 2, RUN];
        asked = asked.refused(Refusal::OtherRun);
        asked.run = RUN;
        assert_eq!(asked.solved(), Err(Refusal::ZeroMark { row: 1 }));
        assert_eq!(asked.determined(), Ok(-1.0));
        asked.record = fitting().record;
        assert_eq!(asked.solved(), Ok(()));
    }
}

#[test]
fn one_thing_that_is_wrong_is_refused() {
    for large in TOO_LARGE {
        Asked { n: large, ..fitting() }.refused(Refusal::OutOfRange);
        let columns = Asked {
            columns: large,
            ..fitting()
        };
        assert_eq!(columns.solved(), Err(Refusal::OutOfRange));
        let empty = Asked {
            a: vec![],
            record: vec![0, RUN],
            sides: 0,
            n: large,
            columns: 0,
            run: RUN,
        };
        empty.refused(Refusal::OutOfRange);
    }
    for numbers in [0, 1, 2, 4, 5, 6] {
        let a = old_numbers(numbers);
        Asked { a, ..fitting() }.refused(Refusal::MatrixLength);
    }
    for words in [0, 4, 5, 7, 8] {
        let record = vec![1; words];
        Asked { record, ..fitting() }.refused(Refusal::SliceLength);
    }
    for sides in [0, 2, 3, 5, 6] {
        assert_eq!(Asked { sides, ..fitting() }.solved(), Err(Refusal::SliceLength));
    }
    for run in [0, RUN - 1, RUN + 1, u32::MAX] {
        Asked { run, ..fitting() }.refused(Refusal::OtherRun);
    }
    for columns in 0..=2 {
        let sides = 2 * columns;
        let marked = Asked {
            record: vec![1, 1, 1, 1, 2, RUN],
            sides,
            columns,
            ..fitting()
        };
        assert_eq!(marked.solved(), Err(Refusal::ZeroMark { row: 1 }));
        let other = Asked {
            sides,
            columns,
            run: 0,
            ..fitting()
        };
        other.refused(Refusal::OtherRun);
    }
    assert_eq!(packed::lblt_determinant(&[], &[0, RUN], 0, RUN), Ok(1.0));
}

#[test]
fn a_packed_lblt_refuses_sides_that_do_not_fit_and_a_mark() {
    let factor = PackedLBLT::new(vec![1.0], 1, RUN).unwrap();
    assert_eq!(factor.solve(&[2.0; LARGEST]).unwrap(), [2.0; LARGEST]);
    assert_eq!(factor.solve(&[2.0; LARGEST + 1]), Err(Refusal::OutOfRange));
    let factor = PackedLBLT::new(vec![1.0, 2.0, 4.0], 2, RUN).unwrap();
    let mut b = [1.0, 2.0, 3.0];
    assert_eq!(factor.solve_mut(&mut b), Err(Refusal::SliceLength));
    assert_eq!(factor.solve_mut(&mut b[..2]), Err(Refusal::ZeroMark { row: 1 }));
    assert_eq!(b, [1.0, 2.0, 3.0]);
    assert_eq!([0, 1].map(|row| factor.callers_row(row)), [1, 0]);
    let none = PackedLBLT::new(vec![], 0, RUN).unwrap();
    assert_eq!(none.determinant(), 1.0);
    assert_eq!(none.solve(&[]).unwrap(), []);
    assert_eq!(none.solve(&[1.0]), Err(Refusal::SliceLength));
}

/// What the packed layout has no call for, of the unpacked factor with the packed one's record.
#[test]
fn the_unpacked_factor_serves_the_other_calls() {
    for n in 0..=24 {
        let a = Numbers(n as u64).symmetric(n);
        let full = LBLT::new(a.clone(), n, RUN).unwrap();
        let factor = PackedLBLT::new(pack(&a, n).unwrap(), n, RUN).unwrap();
        let matrix = unpack(factor.matrix(), n).unwrap();
        let mut filled = old_numbers(n * n);
        lblt::d(&matrix, factor.record(), &mut filled, n, RUN).unwrap();
        assert_eq!(bits(&filled), bits(&full.d()));
        lblt::l_permuted(&matrix, factor.record(), &mut filled, n, RUN).unwrap();
        assert_eq!(bits(&filled), bits(&full.l_permuted()));
    }
}
