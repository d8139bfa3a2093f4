use crate::numbers::{repeat_row, Numbers};
use urgyelpat::{first_twin, first_twin_since, Refusal, Twins, LARGEST};

#[test]
fn every_pair_of_rows_is_found() {
    let n = 7;
    for q in 1..n {
        for p in 0..q {
            let mut a = Numbers((p * n + q) as u64).symmetric(n);
            assert_eq!(first_twin(&a, n, n), Ok(None));
            repeat_row(&mut a, n, p, q);
            assert_eq!(first_twin(&a, n, n), Ok(Some(Twins { p, q })));
            assert_eq!(first_twin(&a, n, q), Ok(None));
            for earlier in 0..=n {
                let told = (earlier <= q).then_some(Twins { p, q });
                assert_eq!(first_twin_since(&a, n, earlier, n), Ok(told));
            }
        }
    }
}

#[test]
fn of_two_pairs_the_one_that_is_new_is_told() {
    let n = 6;
    let mut a = Numbers(1).symmetric(n);
    repeat_row(&mut a, n, 0, 2);
    repeat_row(&mut a, n, 3, 4);
    repeat_row(&mut a, n, 0, 5);
    let told = |earlier, order| first_twin_since(&a, n, earlier, order).unwrap().map(|t| (t.p, t.q));
    assert_eq!(told(0, 6), Some((0, 2)));
    assert_eq!(told(3, 6), Some((3, 4)));
    assert_eq!(told(3, 4), None);
    assert_eq!(told(5, 6), Some((0, 5)));
    assert_eq!(told(6, 6), None);
}

#[test]
fn sizes_that_do_not_fit_are_refused() {
    let a = [1.0; 4];
    assert_eq!(first_twin(&a, LARGEST + 1, 2), Err(Refusal::OutOfRange));
    assert_eq!(first_twin(&a, 2, 3), Err(Refusal::OrderAboveRoom));
    assert_eq!(first_twin(&a, 3, 2), Err(Refusal::MatrixLength));
    assert_eq!(first_twin_since(&a, LARGEST + 1, 1, 2), Err(Refusal::OutOfRange));
    assert_eq!(first_twin_since(&a, 2, 1, LARGEST + 1), Err(Refusal::OutOfRange));
    assert_eq!(first_twin_since(&a, 2, LARGEST + 1, 2), Err(Refusal::OutOfRange));
    assert_eq!(first_twin_since(&a, 2, 1, 3), Err(Refusal::OrderAboveRoom));
    assert_eq!(first_twin_since(&a, 2, 2, 1), Err(Refusal::OrderAboveRoom));
    assert_eq!(first_twin_since(&a, 3, 1, 2), Err(Refusal::MatrixLength));
}
