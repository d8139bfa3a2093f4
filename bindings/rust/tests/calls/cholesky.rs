use crate::numbers::{apart, bits, product, rows, transposed, Numbers};
use urgyelpat::{cholesky, BatchRefusal, Cholesky, Refusal, LARGEST};

#[test]
fn batches_at_every_cut_give_what_one_call_gives() {
    for n in 0..=12 {
        let mut numbers = Numbers(n as u64);
        let a = numbers.positive(n);
        let sides: Vec<f64> = (0..5 * n).map(|_| numbers.next()).collect();
        let whole = Cholesky::new(a.clone(), n).unwrap();
        let solved = bits(&whole.solve(&sides).unwrap());
        let insisted = Cholesky::new_insisting(a.clone(), n).unwrap();
        assert_eq!(bits(&insisted.l()), bits(&whole.l()));
        assert!(apart(&product(&whole.l(), &transposed(&whole.l(), n), n), &a) < 1e-12 * n as f64 + 1e-300);
        for first in 0..=n {
            for second in first..=n {
                let mut grown = Cholesky::default();
                for (from, to) in [(0, first), (first, second), (second, n)] {
                    grown.extend(&rows(&a, n, from, to)).unwrap();
                    assert_eq!(grown.order(), to);
                }
                assert_eq!(bits(&grown.l()), bits(&whole.l()));
                assert_eq!(grown.determinant().to_bits(), whole.determinant().to_bits());
                assert_eq!(bits(&grown.solve(&sides).unwrap()), solved);
                assert_eq!(bits(&grown.unpack()), bits(&whole.l()));
            }
        }
    }
}

#[test]
fn a_refused_batch_leaves_the_factor_and_another_may_follow() {
    let mut factor = Cholesky::with_room(3).unwrap();
    assert_eq!((factor.order(), factor.room()), (0, 3));
    factor.extend(&[4.0, 2.0, 5.0]).unwrap();
    let batch = [6.0, 5.0, 14.0, 6.0, 5.0, 14.0, 13.0];
    let refused = Refusal::CholeskyBelowZero { column: 3 };
    assert_eq!(factor.extend(&batch), Err(BatchRefusal::Refused(refused)));
    assert_eq!(factor.extend_insisting(&batch), Err(refused));
    assert_eq!(factor.order(), 2);
    assert_eq!(factor.l(), [2.0, 1.0, 0.0, 2.0]);
    factor.extend(&[6.0, 5.0, 14.0]).unwrap();
    assert_eq!(factor.l(), [2.0, 1.0, 3.0, 0.0, 2.0, 1.0, 0.0, 0.0, 2.0]);
    assert_eq!(factor.unpack(), [2.0, 1.0, 3.0, 0.0, 2.0, 1.0, 0.0, 0.0, 2.0]);
}

#[test]
fn a_diagonal_that_fails_is_named() {
    let zero = |column| Refusal::CholeskyZero { column };
    let below_zero = |column| Refusal::CholeskyBelowZero { column };
    let nan = |column| Refusal::CholeskyNan { column };
    let named: [(f64, &dyn Fn(usize) -> Refusal); 8] = [
        (0.0, &zero),
        (-0.0, &zero),
        (-1.0, &below_zero),
        (-f64::from_bits(1), &below_zero),
        (f64::NEG_INFINITY, &below_zero),
        (f64::NAN, &nan),
        (-f64::NAN, &nan),
        (f64::from_bits(0x7ff0_0000_0000_0001), &nan),
    ];
    for (diagonal, refused) in named {
        let whole = Cholesky::new(vec![diagonal], 1).unwrap_err();
        assert_eq!(whole, BatchRefusal::Refused(refused(0)));
        assert_eq!(Cholesky::new_insisting(vec![diagonal], 1).unwrap_err(), refused(0));
        let mut factor = Cholesky::new(vec![1.0], 1).unwrap();
        assert_eq!(factor.extend(&[0.0, diagonal]), Err(BatchRefusal::Refused(refused(1))));
    }
}

#[test]
fn the_solution_solves_and_each_column_stands_alone() {
    for n in 1..=24 {
        let mut numbers = Numbers(n as u64);
        let a = numbers.positive(n);
        let factor = Cholesky::new(a.clone(), n).unwrap();
        let b: Vec<f64> = (0..n * n).map(|_| numbers.next()).collect();
        let x = factor.solve(&b).unwrap();
        assert!(apart(&product(&a, &x, n), &b) < 1e-12 * n as f64, "order {n}");
        for (column, solved) in b.chunks(n).zip(x.chunks(n)) {
            assert_eq!(bits(&factor.solve(column).unwrap()), bits(solved), "order {n}");
        }

        let mut with_nan = b.clone();
        with_nan[n - 1] = f64::NAN;
        factor.solve_mut(&mut with_nan).unwrap();
        assert!(with_nan[..n].iter().all(|entry| entry.is_nan()), "order {n}");
        assert_eq!(bits(&with_nan[n..]), bits(&x[n..]), "order {n}");
    }
}

#[test]
fn nothing_outside_the_order_enters_a_solution() {
    let nan = f64::NAN;
    let in_room = [2.0, 1.0, nan, nan, 2.0, nan, nan, nan, nan];
    let mut b = [8.0, 11.0, 2.0, 5.0];
    cholesky::solve_mut(&in_room, &mut b, 3, 2, 2).unwrap();
    assert_eq!(b, [1.125, 1.75, 0.0, 1.0]);

    let mut factor = Cholesky::with_room(4).unwrap();
    factor.extend(&[4.0, 2.0, 5.0]).unwrap();
    let refused = BatchRefusal::Refused(Refusal::CholeskyNan { column: 2 });
    assert_eq!(factor.extend(&[nan; 3]), Err(refused));
    assert_eq!((factor.order(), factor.room()), (2, 4));
    assert_eq!(factor.solve(&[8.0, 11.0, 2.0, 5.0]).unwrap(), b);
}

#[test]
fn what_stands_on_the_diagonal_is_divided_by() {
    let (nan, infinity) = (f64::NAN, f64::INFINITY);
    let solved = |l: [f64; 4]| {
        let mut b = [8.0, 11.0];
        cholesky::solve_mut(&l, &mut b, 2, 2, 1).unwrap();
        b
    };
    assert_eq!(solved([2.0, 1.0, nan, 0.0]), [-infinity, infinity]);
    assert_eq!(solved([2.0, 1.0, nan, -2.0]), [1.125, 1.75]);
    assert_eq!(solved([0.0, 1.0, nan, 2.0]), [infinity, -infinity]);
    assert_eq!(bits(&solved([infinity, 1.0, nan, 2.0])), bits(&[-0.0, 2.75]));
    assert!(solved([2.0, 2.75, nan, 0.0]).iter().all(|entry| entry.is_nan()));
    assert!(solved([2.0, 1.0, nan, nan]).iter().all(|entry| entry.is_nan()));

    // what a refused factor left
    let mut a = [1.0, 1.0, nan, 1.0];
    let refused = Refusal::CholeskyZero { column: 1 };
    assert_eq!(cholesky::factor(&mut a, 2, 2), Err(refused));
    assert_eq!(solved(a), [-infinity, infinity]);
}

#[test]
fn order_0_has_determinant_1() {
    assert_eq!(Cholesky::default().determinant(), 1.0);
    assert_eq!(Cholesky::default().l(), []);
    assert_eq!(Cholesky::with_room(3).unwrap().unpack(), []);
    assert_eq!(Cholesky::new(vec![], 0).unwrap().determinant(), 1.0);
    for factor in [Cholesky::default(), Cholesky::with_room(3).unwrap()] {
        assert_eq!(factor.solve(&[]).unwrap(), []);
        assert_eq!(factor.solve(&[1.0]), Err(Refusal::SliceLength));
    }
}

#[test]
fn sizes_that_do_not_fit_are_refused() {
    for (matrix, n, refusal) in [
        (vec![], usize::MAX, Refusal::OutOfRange),
        (vec![1.0; 3], 2, Refusal::MatrixLength),
    ] {
        let whole = Cholesky::new(matrix.clone(), n).unwrap_err();
        assert_eq!(whole, BatchRefusal::Refused(refusal));
        assert_eq!(Cholesky::new_insisting(matrix, n).unwrap_err(), refusal);
    }
    assert_eq!(Cholesky::with_room(LARGEST + 1).unwrap_err(), Refusal::OutOfRange);
    let mut factor = Cholesky::default();
    factor.extend(&[4.0]).unwrap();
    for broken in [&[2.0][..], &[2.0, 5.0, 1.0]] {
        assert_eq!(factor.extend(broken), Err(BatchRefusal::Refused(Refusal::SliceLength)));
        assert_eq!(factor.extend_insisting(broken), Err(Refusal::SliceLength));
        assert_eq!(factor.batch_without(broken, 1), Err(Refusal::SliceLength));
    }
    assert_eq!(factor.order(), 1);
}

#[test]
fn right_hand_sides_that_do_not_fit_are_refused_and_left() {
    let factor = Cholesky::new(vec![1.0], 1).unwrap();
    assert_eq!(factor.solve(&[]).unwrap(), []);
    assert_eq!(factor.solve(&[2.0; LARGEST]).unwrap(), [2.0; LARGEST]);
    assert_eq!(factor.solve(&[2.0; LARGEST + 1]), Err(Refusal::OutOfRange));
    let factor = Cholesky::new(vec![4.0, 2.0, 0.0, 5.0], 2).unwrap();
    let mut b = [1.0, 2.0, 3.0];
    assert_eq!(factor.solve_mut(&mut b), Err(Refusal::SliceLength));
    assert_eq!(b, [1.0, 2.0, 3.0]);

    let a = [2.0, 1.0, 0.0, 2.0];
    for (room, n, columns, refusal) in [
        (LARGEST + 1, 2, 1, Refusal::OutOfRange),
        (2, LARGEST + 1, 1, Refusal::OutOfRange),
        (2, 3, LARGEST + 1, Refusal::OutOfRange),
        (3, 4, 1, Refusal::OrderAboveRoom),
        (3, 2, 1, Refusal::MatrixLength),
        (2, 2, 1, Refusal::SliceLength),
    ] {
        assert_eq!(cholesky::solve_mut(&a, &mut b, room, n, columns), Err(refusal));
        assert_eq!(b, [1.0, 2.0, 3.0]);
    }
}

#[test]
fn it_grows_to_the_largest_order_and_no_further() {
    let unit = |i: usize| (0..=i).map(move |j| f64::from(i == j));
    let mut factor = Cholesky::default();
    factor.extend(&(0..LARGEST).flat_map(unit).collect::<Vec<_>>()).unwrap();
    assert_eq!((factor.order(), factor.room()), (LARGEST, LARGEST));
    assert_eq!(factor.determinant(), 1.0);
    assert_eq!(factor.solve(&[2.0; LARGEST]).unwrap(), [2.0; LARGEST]);
    factor.extend(&[]).unwrap();
    let further: Vec<f64> = unit(LARGEST).collect();
    assert_eq!(factor.extend(&further), Err(BatchRefusal::Refused(Refusal::OutOfRange)));
    assert_eq!(factor.extend_insisting(&further), Err(Refusal::OutOfRange));
    assert_eq!(factor.batch_without(&further, LARGEST), Err(Refusal::OutOfRange));
}
