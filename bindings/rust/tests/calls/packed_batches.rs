//! The packed Cholesky that grows by batches, beside the full one: what is taken, what is refused, and what each leaves.

use crate::numbers::{bits, one_nan, repeat_row, rows, strange, Numbers};
use crate::packed::{turned_down, TURNED_DOWN};
use urgyelpat::packed::{length, pack, unpack};
use urgyelpat::{cholesky, BatchRefusal, Cholesky, PackedCholesky, Refusal, Twins, LARGEST};

fn twins(p: usize, q: usize) -> BatchRefusal {
    BatchRefusal::Twins(Twins { p, q })
}

/// What can be seen of a factor: its order, itself and a solution.
fn seen(factor: &PackedCholesky) -> (usize, Vec<u64>, Vec<u64>) {
    let n = factor.order();
    let sides: Vec<f64> = (0..2 * n).map(|row| row as f64 - 1.5).collect();
    (n, bits(factor.matrix()), one_nan(&factor.solve(&sides).unwrap()))
}

/// The two layouts, which are given the same and have to say the same.
#[derive(Clone, Default)]
struct Both {
    full: Cholesky,
    packed: PackedCholesky,
}

impl Both {
    /// A factor that took these rows as one batch.
    fn with(batch: &[f64]) -> Both {
        let mut both = Both::default();
        both.extend(batch).unwrap();
        both
    }

    fn of(a: &[f64], n: usize) -> Result<Both, BatchRefusal> {
        let packed = PackedCholesky::new(pack(a, n).unwrap(), n);
        let full = Cholesky::new(a.to_vec(), n);
        assert_eq!(packed.as_ref().err(), full.as_ref().err());
        Ok(Both {
            full: full?,
            packed: packed?,
        }
        .the_same())
    }

    fn insisting(a: &[f64], n: usize) -> Result<Both, Refusal> {
        let packed = PackedCholesky::new_insisting(pack(a, n).unwrap(), n);
        let full = Cholesky::new_insisting(a.to_vec(), n);
        assert_eq!(packed.as_ref().err(), full.as_ref().err());
        Ok(Both {
            full: full?,
            packed: packed?,
        }
        .the_same())
    }

    fn the_same(self) -> Both {
        self.compare();
        self
    }

    fn compare(&self) {
        let n = self.packed.order();
        assert_eq!(n, self.full.order());
        assert_eq!(self.packed.matrix().len(), length(n));
        assert_eq!(bits(&self.packed.l()), bits(&self.full.l()));
        assert_eq!(bits(&unpack(self.packed.matrix(), n).unwrap()), bits(&self.full.l()));
        let determinant = cholesky::determinant(&self.packed.l(), n, n).unwrap();
        assert_eq!(one_nan(&[determinant]), one_nan(&[self.full.determinant()]));
        for columns in [0, 1, 5] {
            let sides: Vec<f64> = (0..columns * n).map(|at| at as f64 - 2.5).collect();
            let (x, by_full) = (self.packed.solve(&sides).unwrap(), self.full.solve(&sides).unwrap());
            assert_eq!(one_nan(&x), one_nan(&by_full));
        }
    }

    /// Adds a batch to both; where it is refused, nothing of them is other than it was.
    fn extend(&mut self, rows: &[f64]) -> Result<(), BatchRefusal> {
        let before = seen(&self.packed);
        let answer = self.packed.extend(rows);
        assert_eq!(answer, self.full.extend(rows));
        self.left(before, answer.is_err());
        answer
    }

    fn extend_insisting(&mut self, rows: &[f64]) -> Result<(), Refusal> {
        let before = seen(&self.packed);
        let answer = self.packed.extend_insisting(rows);
        assert_eq!(answer, self.full.extend_insisting(rows));
        self.left(before, answer.is_err());
        answer
    }

    fn left(&self, before: (usize, Vec<u64>, Vec<u64>), refused: bool) {
        self.compare();
        if refused {
            assert_eq!(seen(&self.packed), before);
        }
    }

    fn batch_without(&self, rows: &[f64], q: usize) -> Result<Vec<f64>, Refusal> {
        let shorter = self.packed.batch_without(rows, q);
        let number = |rows: &Vec<f64>| bits(rows);
        assert_eq!(
            shorter.as_ref().map(number),
            self.full.batch_without(rows, q).as_ref().map(number)
        );
        shorter
    }

    /// Hands a batch in until it is taken, each told row left out, and gives what was told.
    fn extend_dropping(&mut self, batch: &[f64]) -> Result<Vec<(usize, usize)>, Refusal> {
        let mut batch = batch.to_vec();
        let mut told = vec![];
        loop {
            match self.extend(&batch) {
                Ok(()) => return Ok(told),
                Err(BatchRefusal::Refused(refusal)) => return Err(refusal),
                Err(BatchRefusal::Twins(Twins { p, q })) => {
                    told.push((p, q));
                    batch = self.batch_without(&batch, q).unwrap();
                }
            }
        }
    }
}

#[test]
fn batches_at_every_cut_give_what_one_call_gives() {
    for n in 0..=10 {
        let a = Numbers(n as u64).positive(n);
        let whole = Both::of(&a, n).unwrap();
        assert_eq!(seen(&Both::insisting(&a, n).unwrap().packed), seen(&whole.packed));
        for first in 0..=n {
            for second in first..=n {
                let mut grown = Both::default();
                for (from, to) in [(0, first), (first, second), (second, n)] {
                    grown.extend(&rows(&a, n, from, to)).unwrap();
                    assert_eq!(grown.packed.order(), to);
                }
                assert_eq!(seen(&grown.packed), seen(&whole.packed));
            }
        }
    }
    let a = Numbers(64).positive(64);
    let mut grown = Both::default();
    for row in 0..64 {
        grown.extend(&rows(&a, 64, row, row + 1)).unwrap();
    }
    assert_eq!(seen(&grown.packed), seen(&Both::of(&a, 64).unwrap().packed));
}

#[test]
fn a_refused_batch_leaves_the_factor_and_the_rows_and_another_may_follow() {
    let n = 6;
    let a = Numbers(6).positive(n);
    for earlier in 0..n {
        for row in earlier..n {
            for (diagonal, refusal) in TURNED_DOWN {
                let broken = turned_down(&a, n, row, diagonal);
                let mut factor = Both::with(&rows(&a, n, 0, earlier));
                let batch = rows(&broken, n, earlier, n);
                assert_eq!(factor.extend(&batch), Err(BatchRefusal::Refused(refusal(row))));
                assert_eq!(factor.extend_insisting(&batch), Err(refusal(row)));
                let whole = Both::of(&broken, n).err();
                assert_eq!(whole, Some(BatchRefusal::Refused(refusal(row))));
                assert_eq!(Both::insisting(&broken, n).err(), Some(refusal(row)));

                // the rows that stand are asked as before, and those of the refused batch are not
                for p in 0..earlier {
                    let mut again = a.clone();
                    repeat_row(&mut again, n, p, earlier);
                    let batch = rows(&again, n, earlier, earlier + 1);
                    assert_eq!(factor.extend(&batch), Err(twins(p, earlier)));
                }
                factor.extend(&rows(&a, n, earlier, n)).unwrap();
                assert_eq!(seen(&factor.packed), seen(&Both::of(&a, n).unwrap().packed));
            }
        }
    }
}

#[test]
fn twins_that_the_factor_hides_are_told_and_others_are_not_invented() {
    let mut factor = Both::with(&[2.0]);
    assert_eq!(factor.extend(&[2.0, 2.0]), Err(twins(0, 1)));
    factor.extend_insisting(&[2.0, 2.0]).unwrap();
    let crumb = factor.packed.matrix()[2];
    assert!(0.0 < crumb && crumb < 1e-7, "{crumb}");

    let mut factor = Both::with(&[4.0]); // its root is 2
    factor.extend(&[2.0, 2.0]).unwrap();
    assert_eq!(factor.packed.matrix(), [2.0, 1.0, 1.0]);
}

#[test]
fn every_pair_is_told_at_every_cut_and_its_row_can_be_left_out() {
    let n = 6;
    for q in 1..n {
        for p in 0..q {
            let mut a = Numbers((p * n + q) as u64).positive(n);
            repeat_row(&mut a, n, p, q);
            assert_eq!(Both::of(&a, n).err(), Some(twins(p, q)));
            for first in 0..=q {
                let mut factor = Both::with(&rows(&a, n, 0, first));
                assert_eq!(factor.extend_dropping(&rows(&a, n, first, n)), Ok(vec![(p, q)]));
                assert_eq!(factor.packed.order(), n - 1);
            }
        }
    }
}

/// A row of zeros but for its diagonal, so that its twin is accepted by a factor that is insisted on.
fn set_apart(a: &mut [f64], n: usize, row: usize) {
    for k in 0..n {
        a[row + k * n] = if k == row { 2.0 } else { 0.0 };
        a[k + row * n] = a[row + k * n];
    }
}

/// Rows 0 and 1 are the same and were insisted on: each twin that comes later is told, whichever it is.
#[test]
fn no_twin_hides_behind_one_that_was_insisted_on() {
    let n = 7;
    for p in 0..n - 1 {
        for q in p.max(1) + 1..n {
            let mut a = Numbers((p * n + q) as u64).positive(n);
            set_apart(&mut a, n, 0);
            repeat_row(&mut a, n, 0, 1);
            repeat_row(&mut a, n, p, q);
            let least = if p == 1 { 0 } else { p }; // the twin of row 1 is row 0's too
            for earlier in 2..=q {
                let mut factor = Both::default();
                factor.extend_insisting(&rows(&a, n, 0, 2)).unwrap();
                factor.extend(&rows(&a, n, 2, earlier)).unwrap();
                assert_eq!(
                    factor.extend(&rows(&a, n, earlier, n)),
                    Err(twins(least, q)),
                    "{p}, {q}"
                );
                let told = factor.extend_dropping(&rows(&a, n, earlier, n));
                assert_eq!(told, Ok(vec![(least, q)]), "{p}, {q}");
            }
        }
    }
}

#[test]
fn a_pair_that_was_insisted_on_is_not_told_again() {
    let mut factor = Both::with(&[2.0]);
    assert_eq!(factor.extend(&[2.0, 2.0]), Err(twins(0, 1)));
    factor.extend_insisting(&[2.0, 2.0]).unwrap();
    factor.extend(&[]).unwrap();
    factor.extend(&[1.0, 1.0, 3.0]).unwrap();
    assert_eq!(factor.packed.order(), 3);
    assert_eq!(factor.extend(&[2.0, 2.0, 1.0, 2.0]), Err(twins(0, 3)));
    assert_eq!(factor.extend(&[1.0, 1.0, 3.0, 3.0]), Err(twins(2, 3)));
    // a later row parts the two, and they are twins no more
    factor.extend(&[0.0, 1.0, 0.0, 1e18]).unwrap();
    assert_eq!(factor.extend(&[1.0, 1.0, 3.0, 0.0, 3.0]), Err(twins(2, 4)));

    let mut whole = Both::insisting(&[2.0, 2.0, 0.0, 2.0], 2).unwrap();
    whole.extend(&[1.0, 1.0, 3.0]).unwrap();
    assert_eq!(whole.extend(&[1.0, 1.0, 3.0, 3.0]), Err(twins(2, 3)));
}

#[test]
fn rows_are_kept_whichever_call_took_them() {
    let n = 5;
    for p in 0..n - 1 {
        let mut a = Numbers(p as u64).positive(n);
        repeat_row(&mut a, n, p, n - 1);
        let before = (0..n * n).filter(|at| at % n < n - 1 && at / n < n - 1);
        let first: Vec<f64> = before.map(|at| a[at]).collect();
        let mut insisted = Both::default();
        insisted.extend_insisting(&rows(&a, n, 0, n - 1)).unwrap();
        let mut halves = Both::with(&rows(&a, n, 0, 2));
        halves.extend_insisting(&rows(&a, n, 2, n - 1)).unwrap();
        for mut factor in [
            Both::of(&first, n - 1).unwrap(),
            Both::insisting(&first, n - 1).unwrap(),
            insisted,
            halves,
        ] {
            assert_eq!(factor.extend(&rows(&a, n, n - 1, n)), Err(twins(p, n - 1)));
        }
    }
}

#[test]
fn nan_is_nan_and_the_zeros_are_two() {
    let nan = Refusal::CholeskyNan { column: 0 };
    let batch = [f64::NAN, -f64::NAN, f64::from_bits(0x7ff0_0000_0000_0001)];
    assert_eq!(Both::default().extend(&batch), Err(twins(0, 1)));
    assert_eq!(Both::default().extend_insisting(&batch), Err(nan));
    assert_eq!(Both::with(&[4.0, 0.0, 2.0]).extend(&[0.0, 2.0, 2.0]), Err(twins(1, 2)));
    assert_eq!(Both::with(&[4.0, 0.0, 2.0]).extend(&[-0.0, 2.0, 2.0]), Ok(()));
}

/// Rows by chance, many of them twins of others; each batch is handed in, insisted on or thinned out by chance.
#[test]
fn batches_by_chance_are_answered_as_the_full_layout_answers() {
    let (mut told, mut refused, mut insisted) = (0, 0, 0);
    for seed in 0..400 {
        let mut numbers = Numbers(seed);
        let n = 1 + numbers.below(10);
        let mut a = numbers.positive(n);
        if numbers.below(2) == 0 {
            set_apart(&mut a, n, 0);
        }
        for _ in 0..numbers.below(4) {
            let q = numbers.below(n);
            let p = numbers.below(q + 1) / 2;
            repeat_row(&mut a, n, p, q);
        }
        if numbers.below(4) == 0 {
            a[numbers.below(n * n)] = strange(1, numbers.below(11))[0];
        }
        let mut factor = Both::default();
        for _ in 0..n {
            let order = factor.packed.order();
            if order == n {
                break;
            }
            let to = order + 1 + numbers.below(n - order);
            let batch = rows(&a, n, order, to);
            match numbers.below(3) {
                0 => match factor.extend(&batch) {
                    Ok(()) => {}
                    Err(BatchRefusal::Twins(_)) => told += 1,
                    Err(BatchRefusal::Refused(_)) => refused += 1,
                },
                1 => match factor.extend_insisting(&batch) {
                    Ok(()) => insisted += 1,
                    Err(_) => refused += 1,
                },
                _ => match factor.extend_dropping(&batch) {
                    Ok(dropped) => told += dropped.len(),
                    Err(_) => refused += 1,
                },
            }
        }
    }
    assert!(
        told > 200 && refused > 200 && insisted > 200,
        "{told}, {refused}, {insisted}"
    );
}

#[test]
fn a_row_that_is_not_in_the_batch_cannot_be_left_out() {
    let factor = Both::with(&[4.0, 2.0, 5.0]);
    let batch = [6.0, 5.0, 14.0, 1.0, 2.0, 3.0, 9.0]; // rows 2 and 3
    assert_eq!(factor.batch_without(&batch, 2).unwrap(), [1.0, 2.0, 9.0]);
    assert_eq!(factor.batch_without(&batch, 3).unwrap(), [6.0, 5.0, 14.0]);
    for q in [0, 1, 4, usize::MAX] {
        assert_eq!(factor.batch_without(&batch, q), Err(Refusal::SliceLength));
    }
    assert_eq!(factor.batch_without(&[], 2), Err(Refusal::SliceLength));
}

#[test]
fn sizes_that_do_not_fit_are_refused() {
    for (matrix, n, refusal) in [
        (vec![], LARGEST + 1, Refusal::OutOfRange),
        (vec![], usize::MAX, Refusal::OutOfRange),
        (vec![1.0; 2], 2, Refusal::MatrixLength),
        (vec![4.0, 2.0, 0.0, 5.0], 2, Refusal::MatrixLength),
    ] {
        let whole = PackedCholesky::new(matrix.clone(), n).unwrap_err();
        assert_eq!(whole, BatchRefusal::Refused(refusal));
        assert_eq!(PackedCholesky::new_insisting(matrix, n).unwrap_err(), refusal);
    }
    let mut factor = Both::with(&[4.0]);
    for broken in [&[2.0][..], &[2.0, 5.0, 1.0], &[2.0, 5.0, 1.0, 1.0]] {
        assert_eq!(factor.extend(broken), Err(BatchRefusal::Refused(Refusal::SliceLength)));
        assert_eq!(factor.extend_insisting(broken), Err(Refusal::SliceLength));
        assert_eq!(factor.batch_without(broken, 1), Err(Refusal::SliceLength));
    }
    assert_eq!(factor.packed.order(), 1);
}

#[test]
fn right_hand_sides_that_do_not_fit_are_refused_and_left() {
    let factor = PackedCholesky::new(vec![1.0], 1).unwrap();
    assert_eq!(factor.solve(&[]).unwrap(), []);
    assert_eq!(factor.solve(&[2.0; LARGEST]).unwrap(), [2.0; LARGEST]);
    assert_eq!(factor.solve(&[2.0; LARGEST + 1]), Err(Refusal::OutOfRange));
    let factor = PackedCholesky::new(vec![4.0, 2.0, 5.0], 2).unwrap();
    let mut b = strange(3, 0);
    assert_eq!(factor.solve_mut(&mut b), Err(Refusal::SliceLength));
    assert_eq!(bits(&b), bits(&strange(3, 0)));
}

#[test]
fn order_0_is_a_factor_too() {
    for factor in [PackedCholesky::default(), PackedCholesky::new(vec![], 0).unwrap()] {
        assert_eq!(factor.order(), 0);
        assert_eq!(factor.matrix(), []);
        assert_eq!(factor.l(), []);
        assert_eq!(factor.solve(&[]).unwrap(), []);
        assert_eq!(factor.solve(&[1.0]), Err(Refusal::SliceLength));
    }
}

#[test]
fn it_grows_to_the_largest_order_and_no_further() {
    let unit = |i: usize| (0..=i).map(move |j| f64::from(i == j));
    let mut factor = PackedCholesky::default();
    factor.extend(&(0..LARGEST).flat_map(unit).collect::<Vec<_>>()).unwrap();
    assert_eq!(factor.order(), LARGEST);
    assert_eq!(factor.solve(&[2.0; LARGEST]).unwrap(), [2.0; LARGEST]);
    factor.extend(&[]).unwrap();
    let further: Vec<f64> = unit(LARGEST).collect();
    assert_eq!(factor.extend(&further), Err(BatchRefusal::Refused(Refusal::OutOfRange)));
    assert_eq!(factor.extend_insisting(&further), Err(Refusal::OutOfRange));
    assert_eq!(factor.batch_without(&further, LARGEST), Err(Refusal::OutOfRange));
    assert_eq!(factor.order(), LARGEST);
}
