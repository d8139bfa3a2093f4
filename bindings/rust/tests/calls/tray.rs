//! Trays: beside `LBLT` on each item alone, what an item tells, and what is refused.

use crate::numbers::{bits, by_chance, one_nan, strange, Numbers};
use crate::packed::{matrices, TOO_LARGE};
use urgyelpat::lblt::{self, Item, Tray};
use urgyelpat::{Refusal, LBLT, TRAY_COUNT_LARGEST, TRAY_ORDER_LARGEST};

/// What a tray is lent.
#[derive(Clone)]
struct Lent {
    a: Vec<f64>,
    records: Vec<u32>,
    b: Vec<f64>,
    runs: Vec<u32>,
    answers: Vec<u64>,
    n: usize,
    count: usize,
}

/// All words of what is lent to be written.
type Words = (Vec<u64>, Vec<u32>, Vec<u64>, Vec<u64>);

impl Lent {
    /// The lower parts of these matrices, strange numbers above them, with sides and run numbers by chance. In records and
    /// answers stands what no call writes.
    fn new(n: usize, matrices: &[Vec<f64>], seed: u64) -> Lent {
        let count = matrices.len();
        let mut numbers = Numbers(seed);
        let mut a = matrices.concat();
        for (at, entry) in a.iter_mut().enumerate() {
            if at % n < at / n % n {
                *entry = strange(1, at)[0];
            }
        }
        Lent {
            a,
            records: vec![0x9e9e_9e9e; count * (2 * n + 2)],
            b: by_chance(&mut numbers, count * n),
            runs: (0..count).map(|_| numbers.below(1 << 32) as u32).collect(),
            answers: vec![u64::MAX; count],
            n,
            count,
        }
    }

    fn call(&mut self) -> Result<Tray<'_>, Refusal> {
        let Lent {
            a,
            records,
            b,
            runs,
            answers,
            n,
            count,
        } = self;
        lblt::tray(a, records, b, runs, answers, *n, *count)
    }

    fn words(&self) -> Words {
        (bits(&self.a), self.records.clone(), bits(&self.b), self.answers.clone())
    }

    fn matrix(&self, t: usize) -> &[f64] {
        let length = self.n * self.n;
        &self.a[t * length..(t + 1) * length]
    }

    fn side(&self, t: usize) -> &[f64] {
        &self.b[t * self.n..(t + 1) * self.n]
    }
}

/// An item is what `LBLT` makes of its matrix and its side.
fn as_alone(item: Item, matrix: &[f64], side: &[f64], run: u32, case: &str) {
    let n = side.len();
    let alone = LBLT::new(matrix.to_vec(), n, run).unwrap();
    assert_eq!(one_nan(item.matrix()), one_nan(alone.matrix()), "{case}");
    for at in (0..n * n).filter(|at| at % n < at / n) {
        assert_eq!(
            item.matrix()[at].to_bits(),
            matrix[at].to_bits(),
            "above the diagonal, {case}"
        );
    }
    assert_eq!(item.record(), alone.record(), "{case}");
    assert!(item.pivots().eq(alone.pivots()), "{case}");
    assert_eq!(item.zero_pivot(), alone.zero_pivot(), "{case}");
    assert_eq!(item.run(), run, "{case}");
    for row in 0..n {
        assert_eq!(item.callers_row(row), alone.callers_row(row), "{case}");
    }
    assert_eq!(
        item.solution().map(one_nan),
        alone.solve(side).map(|x| one_nan(&x)),
        "{case}"
    );
}

/// The call, all of whose items are as alone; a marked one's side keeps its bits. How many are marked.
fn solved(given: &Lent) -> usize {
    let mut lent = given.clone();
    let tray = lent.call().unwrap();
    assert_eq!((tray.len(), tray.order()), (given.count, given.n));
    for (t, item) in tray.iter().enumerate() {
        let case = format!("item {t} of {}, order {}", given.count, given.n);
        as_alone(item, given.matrix(t), given.side(t), given.runs[t], &case);
        assert_eq!(tray.item(t).record(), item.record(), "{case}");
        assert_eq!(tray.item(t).solution().map(bits), item.solution().map(bits), "{case}");
    }
    let results: Vec<_> = tray.iter().map(|item| item.solution().map(bits)).collect();
    assert!(tray.solutions().map(|x| x.map(bits)).eq(results.iter().cloned()));
    assert_eq!(lent.runs, given.runs);
    for (t, result) in results.iter().enumerate() {
        let left = bits(lent.side(t));
        let number = result
            .as_ref()
            .map_or_else(|refusal| 4096 * 6 + refusal.place() as u64, |_| 0);
        assert_eq!(lent.answers[t], number, "item {t}");
        assert_eq!(left, result.clone().unwrap_or_else(|_| bits(given.side(t))), "item {t}");
    }
    results.iter().filter(|result| result.is_err()).count()
}

#[test]
fn each_item_is_factored_and_solved_as_alone() {
    let (mut items, mut marked) = (0, 0);
    for n in (0..=24).chain([33, TRAY_ORDER_LARGEST - 1, TRAY_ORDER_LARGEST]) {
        let all = matrices(n);
        items += all.len();
        marked += solved(&Lent::new(n, &all, n as u64));
        let backwards: Vec<_> = all.into_iter().rev().collect();
        let mut lent = Lent::new(n, &backwards, n as u64 + 100);
        lent.b = strange(lent.b.len(), n);
        solved(&lent);
    }
    assert!(marked > 40 && items - marked > 200, "{marked} of {items} are marked");
}

/// Every matrix of order n that is made of some numbers.
fn every_small_matrix(n: usize) -> Vec<Vec<f64>> {
    const ENTRIES: [f64; 4] = [0.0, 1.0, f64::NAN, -2.0];
    let lower = n * (n + 1) / 2;
    let choices = 0..ENTRIES.len().pow(lower as u32);
    let matrix = |choice: usize| {
        let mut a = vec![0.0; n * n];
        let places = (0..n * n).filter(|at| at % n >= at / n);
        for (digit, at) in places.enumerate() {
            a[at] = ENTRIES[choice / ENTRIES.len().pow(digit as u32) % ENTRIES.len()];
        }
        a
    };
    choices.map(matrix).collect()
}

#[test]
fn every_small_matrix_is_factored_and_solved_as_alone() {
    for n in 1..=3 {
        for matrices in every_small_matrix(n).chunks(TRAY_COUNT_LARGEST) {
            let mut lent = Lent::new(n, matrices, 8);
            let marked = solved(&lent);
            lent.b = strange(lent.b.len(), n);
            assert_eq!(solved(&lent), marked);
        }
    }
}

#[test]
fn trays_of_many_lengths_are_solved() {
    for n in 0..=6 {
        for count in (0..=20).chain([31, 33, 64, 100]) {
            let mut numbers = Numbers((100 * n + count) as u64);
            let matrices: Vec<_> = (0..count).map(|_| numbers.symmetric(n)).collect();
            assert_eq!(solved(&Lent::new(n, &matrices, 7)), 0, "{count} items of order {n}");
        }
    }
}

/// Of order 2.
fn lower(a: &[f64]) -> [f64; 3] {
    [0, 1, 3].map(|at| a[at])
}

#[test]
fn a_marked_item_is_told_and_those_beside_it_are_solved() {
    let (sound, twins) = ([4.0, 2.0, 0.0, 3.0], [1.0, 1.0, 0.0, 1.0]);
    for count in 1..=9 {
        for marked in 0..count {
            let pick = |t| if t == marked { twins.to_vec() } else { sound.to_vec() };
            let mut lent = Lent::new(2, &(0..count).map(pick).collect::<Vec<_>>(), 1);
            lent.b = (0..count).flat_map(|_| [8.0, 8.0]).collect();
            lent.b[2 * marked..2 * marked + 2].copy_from_slice(&strange(2, marked));
            let given = lent.clone();
            let tray = lent.call().unwrap();
            for (t, item) in tray.iter().enumerate() {
                if t == marked {
                    assert_eq!(item.solution(), Err(Refusal::ZeroMark { row: 1 }));
                    assert_eq!(item.zero_pivot(), Some(1));
                    assert_eq!(lower(item.matrix()), [1.0, 1.0, 0.0]);
                    assert_eq!(item.record(), [0, 1, 1, 1, 2, given.runs[t]]);
                } else {
                    assert_eq!(item.solution(), Ok(&[1.0, 2.0][..]));
                    assert_eq!(lower(item.matrix()), [4.0, 0.5, 2.0]);
                    assert_eq!(item.record(), [0, 1, 1, 1, 0, given.runs[t]]);
                }
            }
            assert_eq!(tray.solutions().flatten().count(), count - 1);
            assert!(format!("{tray:?}").contains("ZeroMark { row: 1 }"));
            assert_eq!(bits(lent.side(marked)), bits(given.side(marked)));
            assert_eq!(lent.answers[marked], 6 * 4096 + 1);
            assert_eq!(lent.answers.iter().sum::<u64>(), 6 * 4096 + 1);
        }
    }
}

/// What is left of all items but one.
fn of_the_others(mut lent: Lent, t: usize) -> Vec<(Vec<u64>, Vec<u32>, Vec<u64>)> {
    let tray = lent.call().unwrap();
    let others = tray.iter().enumerate().filter(|&(other, _)| other != t);
    let left = others.map(|(_, item)| {
        (
            bits(item.matrix()),
            item.record().to_vec(),
            bits(item.solution().unwrap()),
        )
    });
    left.collect()
}

#[test]
fn no_item_feels_another() {
    for n in [1, 2, 3, 4, 5, 8, 16] {
        for count in 1..=8 {
            let mut numbers = Numbers((10 * n + count) as u64);
            let sound: Vec<_> = (0..count).map(|_| numbers.positive(n)).collect();
            let lent = Lent::new(n, &sound, 3);
            for t in 0..count {
                let left = of_the_others(lent.clone(), t);
                for (h, harm) in matrices(n).into_iter().enumerate() {
                    let mut harmed = lent.clone();
                    harmed.a[t * n * n..(t + 1) * n * n].copy_from_slice(&harm);
                    harmed.b[t * n..(t + 1) * n].copy_from_slice(&strange(n, h));
                    harmed.runs[t] ^= 0x8000_0001;
                    assert_eq!(
                        of_the_others(harmed, t),
                        left,
                        "item {t} of {count}, order {n}, harm {h}"
                    );
                }
            }
        }
    }
}

#[test]
fn what_stood_in_records_and_answers_is_not_read() {
    for n in 0..=8 {
        let given = Lent::new(n, &matrices(n), 5);
        let mut lent = given.clone();
        lent.call().unwrap();
        // the item's own record, and the one before it, which has another run number
        for turned in [0, 2 * n + 2] {
            for answer in [0, 6 * 4096] {
                let mut again = given.clone();
                again.records.clone_from(&lent.records);
                again.records.rotate_right(turned);
                again.answers.fill(answer);
                again.call().unwrap();
                assert_eq!((&again.records, &again.answers), (&lent.records, &lent.answers));
                assert_eq!(
                    (one_nan(&again.a), one_nan(&again.b)),
                    (one_nan(&lent.a), one_nan(&lent.b))
                );
            }
        }
    }
}

#[test]
fn order_0_and_no_items_are_done() {
    let mut lent = Lent::new(0, &vec![vec![]; 3], 2);
    let runs = lent.runs.clone();
    let tray = lent.call().unwrap();
    assert_eq!((tray.len(), tray.order(), tray.is_empty()), (3, 0, false));
    assert!(tray.solutions().all(|x| x == Ok(&[][..])));
    assert!(tray.iter().map(|item| item.run()).eq(runs));
    for n in [0, 1, 5, TRAY_ORDER_LARGEST] {
        let tray = lblt::tray(&mut [], &mut [], &mut [], &[], &mut [], n, 0).unwrap();
        assert_eq!((tray.len(), tray.order(), tray.is_empty()), (0, n, true));
        assert_eq!((tray.iter().count(), tray.solutions().count()), (0, 0));
    }
}

#[test]
fn items_go_both_ways_and_are_counted() {
    let mut lent = Lent::new(1, &[vec![1.0], vec![2.0], vec![4.0]], 2);
    lent.b.fill(4.0);
    let tray = lent.call().unwrap();
    assert_eq!((tray.iter().len(), tray.solutions().len()), (3, 3));
    let forth: Vec<f64> = tray.solutions().map(|x| x.unwrap()[0]).collect();
    let back: Vec<f64> = tray.solutions().rev().map(|x| x.unwrap()[0]).collect();
    assert_eq!((forth, back), (vec![4.0, 2.0, 1.0], vec![1.0, 2.0, 4.0]));
    let copy = tray;
    assert_eq!(copy, tray);
    assert_eq!(copy.item(2), tray.item(2));
    assert_ne!(copy.item(1), tray.item(2));
}

#[test]
#[should_panic(expected = "item 3 of a tray of 3")]
fn an_item_behind_the_last_is_not_there() {
    Lent::new(0, &vec![vec![]; 3], 2).call().unwrap().item(3);
}

#[test]
fn the_largest_tray_is_accepted() {
    for (n, count) in [
        (TRAY_ORDER_LARGEST, TRAY_COUNT_LARGEST),
        (1, TRAY_COUNT_LARGEST),
        (TRAY_ORDER_LARGEST, 2),
    ] {
        let mut numbers = Numbers(n as u64);
        let mut matrices: Vec<_> = (0..count).map(|_| numbers.positive(n)).collect();
        assert_eq!(solved(&Lent::new(n, &matrices, 9)), 0);
        matrices[0].fill(0.0);
        matrices[count - 1].fill(0.0);
        assert_eq!(solved(&Lent::new(n, &matrices, 9)), 2);
    }
}

/// A tray that is refused; nothing is written.
#[track_caller]
fn refused(mut lent: Lent, refusal: Refusal) {
    let before = lent.words();
    let case = format!("{} items of order {}", lent.count, lent.n);
    assert_eq!(lent.call(), Err(refusal), "{case}");
    assert!(lent.words() == before, "{case}");
}

#[test]
fn sizes_that_are_too_large_are_refused_and_nothing_is_written() {
    let above = (TRAY_ORDER_LARGEST + 1, TRAY_COUNT_LARGEST + 1);
    // these would be solved if they were not too large
    for (n, count) in [
        (above.0, 0),
        (above.0, 1),
        (above.0, 2),
        (0, above.1),
        (1, above.1),
        (2, above.1),
    ] {
        let mut numbers = Numbers(n as u64);
        let matrices: Vec<_> = (0..count).map(|_| numbers.positive(n)).collect();
        refused(Lent::new(n, &matrices, 4), Refusal::OutOfRange);
    }
    let large = TOO_LARGE.into_iter().chain([above.0, above.1]);
    for large in large {
        for (n, count) in [
            (large, 0),
            (large, 1),
            (0, large),
            (1, large),
            (2, large),
            (large, large),
            (large, 2),
        ] {
            if n <= TRAY_ORDER_LARGEST && count <= TRAY_COUNT_LARGEST {
                continue;
            }
            for fitting in 0..=2 {
                let lent = Lent::new(fitting, &vec![vec![1.0; fitting * fitting]; fitting], 4);
                refused(Lent { n, count, ..lent }, Refusal::OutOfRange);
            }
        }
    }
}

/// One more, or one less where there is one, of what a slice has.
fn off_by_one<T: Clone>(slice: &[T], more: bool, filler: T) -> Option<Vec<T>> {
    if more {
        return Some([slice, &[filler]].concat());
    }
    slice.split_last().map(|(_, rest)| rest.to_vec())
}

/// So many ways to change the five lengths: each as it is, one less, one more.
const WAYS: usize = 3 * 3 * 3 * 3 * 3;

/// The slices with their lengths changed in one of these ways, if there are such lengths.
fn changed(lent: &Lent, way: usize) -> Option<Lent> {
    let how = |slice: u32| way / 3usize.pow(slice) % 3;
    let mut out = lent.clone();
    if how(0) > 0 {
        out.a = off_by_one(&lent.a, how(0) == 2, 1.5)?;
    }
    if how(1) > 0 {
        out.records = off_by_one(&lent.records, how(1) == 2, 9)?;
    }
    if how(2) > 0 {
        out.b = off_by_one(&lent.b, how(2) == 2, 1.5)?;
    }
    if how(3) > 0 {
        out.runs = off_by_one(&lent.runs, how(3) == 2, 9)?;
    }
    if how(4) > 0 {
        out.answers = off_by_one(&lent.answers, how(4) == 2, 9)?;
    }
    Some(out)
}

#[test]
fn lengths_that_do_not_fit_are_refused_in_their_order_and_nothing_is_written() {
    for (n, count) in [
        (0, 0),
        (0, 1),
        (0, 3),
        (1, 0),
        (3, 0),
        (1, 1),
        (1, 3),
        (2, 2),
        (3, 2),
        (64, 1),
    ] {
        let mut numbers = Numbers(n as u64);
        let matrices: Vec<_> = (0..count).map(|_| numbers.positive(n)).collect();
        let lent = Lent::new(n, &matrices, 6);
        for way in 1..WAYS {
            let first = way % 3 > 0;
            if let Some(wrong) = changed(&lent, way) {
                refused(
                    wrong,
                    if first {
                        Refusal::MatrixLength
                    } else {
                        Refusal::SliceLength
                    },
                );
            }
        }
        assert_eq!(solved(&lent), 0);
    }
}
