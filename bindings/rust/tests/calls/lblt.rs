use crate::numbers::{apart, bits, product, transposed, Numbers};
use urgyelpat::{lblt, packed, Refusal, LARGEST, LBLT};

#[test]
fn a_block_of_two_stands_in_the_record() {
    let factor = LBLT::new(vec![0.0, 1.0, 7.0, 0.0], 2, 7).unwrap();
    assert_eq!(factor.order(), 2);
    assert_eq!(factor.matrix(), [0.0, 1.0, 7.0, 0.0]);
    assert_eq!(factor.record(), [1, 2, 1, 2, 0, 7]);
    assert_eq!(factor.pivots().collect::<Vec<_>>(), [(1, 2), (1, 2)]);
    assert_eq!(factor.zero_pivot(), None);
    assert_eq!(factor.solve(&[3.0, 5.0]).unwrap(), [5.0, 3.0]);
    assert_eq!(factor.determinant(), -1.0);
}

#[test]
fn a_marked_matrix_is_factored_and_not_solved() {
    let factor = LBLT::new(vec![0.0, f64::NAN, 7.0, 5.0], 2, 7).unwrap();
    assert_eq!(factor.zero_pivot(), Some(0));
    assert_eq!(factor.solve(&[3.0, 5.0]), Err(Refusal::ZeroMark { row: 0 }));
    assert_eq!(factor.determinant(), 0.0);
    assert_eq!(factor.d(), [0.0, 0.0, 0.0, 5.0]);
}

#[test]
fn a_mark_leads_back_to_the_callers_row() {
    let factor = LBLT::new(vec![1.0, 2.0, 7.0, 4.0], 2, 7).unwrap();
    assert_eq!(factor.record(), [1, 1, 1, 1, 2, 7]);
    assert_eq!(factor.zero_pivot(), Some(1));
    assert_eq!([0, 1].map(|row| factor.callers_row(row)), [1, 0]);
}

/// A record changed by hand: the factor never marks a row with another index.
#[test]
fn a_mark_on_a_row_with_another_index_is_refused_by_every_reader() {
    let a = [4.0, 0.25, 7.0, -0.25];
    let changed = [1, 1, 1, 1, 1, 7];
    let refused = Refusal::BadRecord { row: 2 };
    let mut lent = [3.0, 5.0, 7.0, 9.0];
    assert_eq!(lblt::solve_mut(&a, &changed, &mut lent, 2, 2, 7), Err(refused));
    assert_eq!(
        lblt::solve_bench(&a, &changed, &mut lent, &[1, 2], 2, 2, 1, 7),
        Err(refused)
    );
    assert_eq!(lblt::determinant(&a, &changed, 2, 7), Err(refused));
    assert_eq!(lblt::d(&a, &changed, &mut lent, 2, 7), Err(refused));
    assert_eq!(lblt::l_permuted(&a, &changed, &mut lent, 2, 7), Err(refused));
    let packed = packed::pack(&a, 2).unwrap();
    assert_eq!(packed::lblt_solve(&packed, &changed, &mut lent, 2, 2, 7), Err(refused));
    assert_eq!(packed::lblt_determinant(&packed, &changed, 2, 7), Err(refused));
    assert_eq!(lent, [3.0, 5.0, 7.0, 9.0]);

    let on_its_own_row = [1, 1, 1, 1, 2, 7];
    let marked = lblt::solve_mut(&a, &on_its_own_row, &mut lent, 2, 2, 7);
    assert_eq!(marked, Err(Refusal::ZeroMark { row: 1 }));
    assert_eq!(lblt::determinant(&a, &on_its_own_row, 2, 7), Ok(-1.0));
}

#[test]
#[should_panic(expected = "fewer than 2n words")]
fn a_record_too_short_has_no_rows() {
    urgyelpat::lblt::callers_row(&[0], 1, 0);
}

/// Row k of L ends with the 1 in column k, and so does the caller's row of Pᵀ·L.
#[test]
fn each_row_of_the_factor_is_the_callers_row_of_the_permuted_one() {
    let mut exchanged = 0;
    for seed in 0..600 {
        let n = 1 + seed as usize % 24;
        let factor = LBLT::new(Numbers(seed).symmetric(n), n, 7).unwrap();
        let l = factor.l_permuted();
        for row in 0..n {
            let came = factor.callers_row(row);
            assert_eq!(l[came + row * n], 1.0, "seed {seed}, row {row}");
            assert!((row + 1..n).all(|j| l[came + j * n] == 0.0), "seed {seed}, row {row}");
            exchanged += usize::from(came != row);
        }
    }
    assert!(exchanged > 1000);
}

#[test]
fn order_0_has_determinant_1() {
    let factor = LBLT::new(vec![], 0, 7).unwrap();
    assert_eq!(factor.determinant(), 1.0);
    assert_eq!(factor.solve(&[]).unwrap(), []);
    assert_eq!(factor.d(), []);
    assert_eq!(factor.l_permuted(), []);
    assert_eq!(factor.zero_pivot(), None);
    assert_eq!(factor.solve(&[1.0]), Err(Refusal::SliceLength));
}

#[test]
fn the_factors_multiply_back_and_the_solution_solves() {
    for n in 1..=24 {
        let mut numbers = Numbers(n as u64);
        let a = numbers.symmetric(n);
        let factor = LBLT::new(a.clone(), n, 7).unwrap();
        let l = factor.l_permuted();
        let back = product(&product(&l, &factor.d(), n), &transposed(&l, n), n);
        assert!(apart(&back, &a) < 1e-12 * n as f64, "order {n}");

        let b: Vec<f64> = (0..n * n).map(|_| numbers.next()).collect();
        let x = factor.solve(&b).unwrap();
        let size = x.iter().fold(1.0, |most: f64, entry| most.max(entry.abs()));
        assert!(apart(&product(&a, &x, n), &b) < 1e-12 * n as f64 * size, "order {n}");
        for (column, solved) in b.chunks(n).zip(x.chunks(n)) {
            assert_eq!(bits(&factor.solve(column).unwrap()), bits(solved), "order {n}");
        }
    }
}

#[test]
fn sizes_that_do_not_fit_are_refused() {
    assert_eq!(LBLT::new(vec![1.0; 4], LARGEST + 1, 7), Err(Refusal::OutOfRange));
    assert_eq!(LBLT::new(vec![], usize::MAX, 7), Err(Refusal::OutOfRange));
    assert_eq!(LBLT::new(vec![1.0; 3], 2, 7), Err(Refusal::MatrixLength));
    assert_eq!(LBLT::new(vec![1.0; 5], 2, 7), Err(Refusal::MatrixLength));
    let factor = LBLT::new(vec![1.0], 1, 7).unwrap();
    assert_eq!(factor.solve(&[2.0; LARGEST]).unwrap(), [2.0; LARGEST]);
    assert_eq!(factor.solve(&[2.0; LARGEST + 1]), Err(Refusal::OutOfRange));
    let factor = LBLT::new(vec![1.0, 0.0, 0.0, 1.0], 2, 7).unwrap();
    let mut b = [1.0, 2.0, 3.0];
    assert_eq!(factor.solve_mut(&mut b), Err(Refusal::SliceLength));
    assert_eq!(b, [1.0, 2.0, 3.0]);
}
