//! Each refusal through the library, with its code, its place and its sentence.

use urgyelpat::{cholesky, lblt, pivots, udu, Refusal};

fn all() -> Vec<Refusal> {
    let a = [1.0, 0.0, 0.0, 1.0];
    let mut b = [1.0; 2];
    let mut u = [0.0; 4];
    vec![
        cholesky::determinant(&a, 2, 1025).unwrap_err(),
        cholesky::extend(&mut a.clone(), 2, 2, 1).unwrap_err(),
        cholesky::unpack(&mut a.clone(), 3, 2).unwrap_err(),
        cholesky::l(&a, &mut b, 2, 2).unwrap_err(),
        lblt::determinant(&a, &[0, 1, 2, 1, 0, 7], 2, 7).unwrap_err(),
        lblt::solve_mut(&a, &[0, 1, 1, 1, 2, 7], &mut b, 2, 1, 7).unwrap_err(),
        cholesky::factor(&mut [1.0, 1.0, 0.0, 1.0], 2, 2).unwrap_err(),
        udu::factor(&[1.0, 0.0, 1.0, 0.0], &mut u, &mut b, 2).unwrap_err(),
        cholesky::factor(&mut [1.0, 2.0, 0.0, 1.0], 2, 2).unwrap_err(),
        cholesky::factor(&mut [1.0, f64::NAN, 0.0, 1.0], 2, 2).unwrap_err(),
        pivots::from_lapack(&[1, 1], 0, &mut [0; 6], 2, 7).unwrap_err(),
        lblt::determinant(&a, &[0, 1, 1, 1, 0, 7], 2, 8).unwrap_err(),
    ]
}

#[test]
fn each_has_its_code_and_place() {
    let expected = [
        Refusal::OutOfRange,
        Refusal::OrderAboveRoom,
        Refusal::MatrixLength,
        Refusal::SliceLength,
        Refusal::BadRecord { row: 1 },
        Refusal::ZeroMark { row: 1 },
        Refusal::CholeskyZero { column: 1 },
        Refusal::ZeroDiagonal { column: 1 },
        Refusal::CholeskyBelowZero { column: 1 },
        Refusal::CholeskyNan { column: 1 },
        Refusal::BadList { row: 1 },
        Refusal::OtherRun,
    ];
    assert_eq!(all(), expected);
    assert_eq!(expected.map(Refusal::code), [1, 2, 3, 4, 5, 6, 7, 8, 10, 11, 12, 13]);
    assert_eq!(expected.map(Refusal::place), [0, 0, 0, 0, 1, 1, 1, 1, 1, 1, 1, 0]);
}

#[test]
fn each_says_what_to_do_and_where() {
    for refusal in all() {
        let boxed: Box<dyn std::error::Error> = Box::new(refusal);
        let sentence = boxed.to_string();
        assert!(sentence.len() > 40, "{sentence}");
        assert_eq!(sentence.contains("row 1"), refusal.place() == 1, "{sentence}");
        for (code, words) in [
            (1, "above 64"),
            (7, "exactly zero"),
            (10, "fell below zero"),
            (11, "is NaN"),
            (12, "list is broken"),
            (13, "in another run"),
        ] {
            assert_eq!(sentence.contains(words), refusal.code() == code, "{sentence}");
        }
    }
}

#[test]
fn the_first_diagonal_that_fails_gives_its_code() {
    let of = |first, second| cholesky::factor(&mut [first, 0.0, 0.0, second], 2, 2).unwrap_err();
    assert_eq!(of(f64::NAN, 0.0), Refusal::CholeskyNan { column: 0 });
    assert_eq!(of(-1.0, f64::NAN), Refusal::CholeskyBelowZero { column: 0 });
    assert_eq!(of(0.0, -1.0), Refusal::CholeskyZero { column: 0 });
}
