use crate::batch::{batch_without, order_with};
use crate::cholesky::BatchRefusal;
use crate::packed::{cholesky_extend, cholesky_factor, cholesky_solve, first_twin, grown, length, unpack};
use crate::refusal::Refusal;
use crate::twins::{first_twin_since, Twins};
use crate::whole_columns;

/// [`Cholesky`](crate::Cholesky) with its matrix [packed](crate::packed): half the memory, and the same numbers and refusals. It
/// grows by batches of rows too, and takes no row twice unless the caller insists.
///
/// ```
/// use urgyelpat::{BatchRefusal, PackedCholesky, Refusal};
///
/// let mut factor = PackedCholesky::default();
/// factor.extend(&[4.0])?; // row 0
/// factor.extend(&[2.0, 5.0, 6.0, 5.0, 14.0])?; // rows 1 and 2, up to their diagonals
/// assert_eq!(factor.matrix(), [2.0, 1.0, 3.0, 2.0, 1.0, 2.0]); // L, column by column, each from its diagonal down
/// assert_eq!(factor.solve(&[12.0, 12.0, 25.0])?, [1.0, 1.0, 1.0]);
///
/// // a batch that is refused leaves the factor as it was
/// let refused = factor.extend(&[6.0, 5.0, 14.0, 13.0]);
/// assert_eq!(refused, Err(BatchRefusal::Refused(Refusal::CholeskyBelowZero { column: 3 })));
/// assert_eq!(factor.order(), 3);
/// # Ok::<(), BatchRefusal>(())
/// ```
///
/// # What is other than in `Cholesky`
///
/// A packed matrix has no room beyond its order, so there is no room to ask for, and each batch makes new buffers and copies what
/// stands: for many small batches [`Cholesky`](crate::Cholesky) is quicker. During a batch the memory of both orders is held.
///
/// There are no [substitutes](crate::Cholesky#substitutes): a diagonal that fails is always refused.
///
/// There is no `determinant`, for which the library has no packed call. That of the full layout takes [`l`](PackedCholesky::l):
///
/// ```
/// let factor = urgyelpat::PackedCholesky::new(vec![4.0, 2.0, 5.0], 2)?;
/// assert_eq!(urgyelpat::cholesky::determinant(&factor.l(), 2, 2)?, 16.0);
/// # Ok::<(), urgyelpat::BatchRefusal>(())
/// ```
///
/// # Rows that came twice
///
/// The rows are kept as they came, packed, in as much memory again, and are [asked for twins](first_twin) before a batch is
/// factored. A batch that brings a twin is refused with the pair, and the caller [leaves the row
/// out](PackedCholesky::batch_without) or [insists](PackedCholesky::extend_insisting). Where earlier twins stand, since the
/// caller insisted, later batches are asked in the full layout, [from their first row on](first_twin_since), which takes n·n
/// numbers more while it is asked: a new twin cannot hide behind an old one.
#[derive(Clone, Debug, Default)]
pub struct PackedCholesky {
    /// The rows as they came, packed; never factored.
    came: Vec<f64>,
    factor: Vec<f64>,
    order: usize,
}

impl PackedCholesky {
    /// Factors a matrix of order n, packed in n(n + 1)/2 numbers ([`pack`](crate::packed::pack) makes them of n·n).
    ///
    /// Refused by [`OutOfRange`](Refusal::OutOfRange) and [`MatrixLength`](Refusal::MatrixLength), with the
    /// [first twins](first_twin) of the matrix, and at a diagonal that is [zero](Refusal::CholeskyZero),
    /// [below zero](Refusal::CholeskyBelowZero) or [NaN](Refusal::CholeskyNan).
    ///
    /// ```
    /// use urgyelpat::{BatchRefusal, PackedCholesky, Twins};
    ///
    /// assert_eq!(PackedCholesky::new(vec![4.0, 2.0, 5.0], 2)?.matrix(), [2.0, 1.0, 2.0]);
    /// let refused = PackedCholesky::new(vec![2.0, 2.0, 2.0], 2);
    /// assert_eq!(refused.unwrap_err(), BatchRefusal::Twins(Twins { p: 0, q: 1 }));
    /// # Ok::<(), BatchRefusal>(())
    /// ```
    pub fn new(matrix: Vec<f64>, n: usize) -> Result<PackedCholesky, BatchRefusal> {
        match first_twin(&matrix, n)? {
            Some(twins) => Err(BatchRefusal::Twins(twins)),
            None => Ok(PackedCholesky::new_insisting(matrix, n)?),
        }
    }

    /// [`new`](PackedCholesky::new) for a matrix that may have twins: they are not looked for.
    ///
    /// Refused by [`OutOfRange`](Refusal::OutOfRange) and [`MatrixLength`](Refusal::MatrixLength), and at a diagonal that is
    /// [zero](Refusal::CholeskyZero), [below zero](Refusal::CholeskyBelowZero) or [NaN](Refusal::CholeskyNan); that test meets
    /// some twins and lets others through.
    ///
    /// ```
    /// use urgyelpat::{PackedCholesky, Refusal};
    ///
    /// let refused = PackedCholesky::new_insisting(vec![1.0, 1.0, 1.0], 2);
    /// assert_eq!(refused.unwrap_err(), Refusal::CholeskyZero { column: 1 });
    /// assert!(PackedCholesky::new_insisting(vec![2.0, 2.0, 2.0], 2).is_ok());
    /// ```
    pub fn new_insisting(matrix: Vec<f64>, n: usize) -> Result<PackedCholesky, Refusal> {
        let mut factor = matrix.clone();
        cholesky_factor(&mut factor, n)?;
        Ok(PackedCholesky {
            came: matrix,
            factor,
            order: n,
        })
    }

    /// The number of rows.
    pub fn order(&self) -> usize {
        self.order
    }

    /// The factor L as it stands, packed, n(n + 1)/2 numbers.
    pub fn matrix(&self) -> &[f64] {
        &self.factor
    }

    /// The factor L, n·n numbers, zero above the diagonal.
    ///
    /// ```
    /// let factor = urgyelpat::PackedCholesky::new(vec![4.0, 2.0, 5.0], 2)?;
    /// assert_eq!(factor.l(), [2.0, 1.0, 0.0, 2.0]);
    /// # Ok::<(), urgyelpat::BatchRefusal>(())
    /// ```
    pub fn l(&self) -> Vec<f64> {
        unpack(&self.factor, self.order).expect("an own factor's sizes are accepted")
    }

    /// Adds a batch of rows, end to end, each up to its diagonal: row i has i + 1 numbers.
    ///
    /// The factor is then the one that a single call gives for the whole matrix, to the bit. Refused by
    /// [`OutOfRange`](Refusal::OutOfRange), by [`SliceLength`](Refusal::SliceLength) if the last row is not whole, with the
    /// [first twins](first_twin_since) that the batch brings, and at a diagonal that is [zero](Refusal::CholeskyZero),
    /// [below zero](Refusal::CholeskyBelowZero) or [NaN](Refusal::CholeskyNan). The factor and the rows are then as they were,
    /// without any row of the batch.
    ///
    /// ```
    /// use urgyelpat::{BatchRefusal, PackedCholesky, Twins};
    ///
    /// let mut factor = PackedCholesky::default();
    /// factor.extend(&[2.0])?;
    /// assert_eq!(factor.extend(&[2.0, 2.0]), Err(BatchRefusal::Twins(Twins { p: 0, q: 1 })));
    /// factor.extend(&[1.0, 3.0])?;
    /// assert_eq!(factor.order(), 2);
    /// # Ok::<(), BatchRefusal>(())
    /// ```
    pub fn extend(&mut self, rows: &[f64]) -> Result<(), BatchRefusal> {
        let n = order_with(self.order, rows.len())?;
        let came = grown(&self.came, rows, self.order, n);
        match self.twins_since(&came, n)? {
            Some(twins) => Err(BatchRefusal::Twins(twins)),
            None => Ok(self.factor_with(rows, came, n)?),
        }
    }

    /// [`extend`](PackedCholesky::extend) for a batch that may bring twins: they are not looked for, and a pair that was taken is
    /// not told with later batches.
    ///
    /// Refused by [`OutOfRange`](Refusal::OutOfRange) and [`SliceLength`](Refusal::SliceLength), and at a diagonal that is
    /// [zero](Refusal::CholeskyZero), [below zero](Refusal::CholeskyBelowZero) or [NaN](Refusal::CholeskyNan); that test meets
    /// some twins and lets others through.
    ///
    /// ```
    /// use urgyelpat::{BatchRefusal, PackedCholesky, Twins};
    ///
    /// let mut factor = PackedCholesky::default();
    /// factor.extend(&[2.0])?;
    /// factor.extend_insisting(&[2.0, 2.0])?; // row 0 again
    /// factor.extend(&[1.0, 1.0, 3.0])?;
    /// assert_eq!(factor.extend(&[1.0, 1.0, 3.0, 3.0]), Err(BatchRefusal::Twins(Twins { p: 2, q: 3 })));
    /// # Ok::<(), BatchRefusal>(())
    /// ```
    pub fn extend_insisting(&mut self, rows: &[f64]) -> Result<(), Refusal> {
        let n = order_with(self.order, rows.len())?;
        let came = grown(&self.came, rows, self.order, n);
        self.factor_with(rows, came, n)
    }

    /// A batch for [`extend`](PackedCholesky::extend) without its row q: row q is left out, and so is entry q of each row after
    /// it. Rows are counted in the whole matrix, as in [`Twins`]; those after q have one index less.
    ///
    /// Refused by [`OutOfRange`](Refusal::OutOfRange) as the batch itself is, and by [`SliceLength`](Refusal::SliceLength) if
    /// its last row is not whole or row q is none of its rows.
    ///
    /// ```
    /// use urgyelpat::{PackedCholesky, Refusal};
    ///
    /// let mut factor = PackedCholesky::default();
    /// factor.extend(&[4.0])?;
    /// let batch = [2.0, 5.0, 6.0, 7.0, 14.0]; // rows 1 and 2
    /// assert_eq!(factor.batch_without(&batch, 1)?, [6.0, 14.0]);
    /// assert_eq!(factor.batch_without(&batch, 0), Err(Refusal::SliceLength));
    /// # Ok::<(), urgyelpat::BatchRefusal>(())
    /// ```
    pub fn batch_without(&self, rows: &[f64], q: usize) -> Result<Vec<f64>, Refusal> {
        batch_without(self.order, rows, q)
    }

    /// The first twins among n rows whose second row is one of the batch.
    ///
    /// Of all twins those with the least second row are told. Where that is one of the batch, or there are none, this is the
    /// answer. Where it is an earlier row the caller insisted on the pair, and twins of the batch may stand behind it: then the
    /// full layout is asked, whose search can begin at the batch.
    fn twins_since(&self, came: &[f64], n: usize) -> Result<Option<Twins>, Refusal> {
        match first_twin(came, n)? {
            Some(twins) if twins.q < self.order => first_twin_since(&unpack(came, n)?, n, self.order, n),
            told => Ok(told),
        }
    }

    /// Factors a batch, which makes the order n. `came` has all rows as they came, the batch among them; they and the new factor
    /// take the place of the old ones where the batch is not refused.
    fn factor_with(&mut self, rows: &[f64], came: Vec<f64>, n: usize) -> Result<(), Refusal> {
        let mut fresh = vec![0.0; length(n)];
        cholesky_extend(&self.factor, rows, &mut fresh, self.order, n)?;
        *self = PackedCholesky {
            came,
            factor: fresh,
            order: n,
        };
        Ok(())
    }

    /// The solution of A·X = B. `b` has n numbers for each right-hand side, one after the other.
    ///
    /// The solution of a right-hand side depends on the factor and that side alone, by the steps of
    /// [`cholesky::solve_mut`](crate::cholesky::solve_mut). Refused by [`OutOfRange`](Refusal::OutOfRange) and
    /// [`SliceLength`](Refusal::SliceLength) for `b`, and by nothing else.
    ///
    /// ```
    /// let factor = urgyelpat::PackedCholesky::new(vec![4.0, 2.0, 5.0], 2)?;
    /// assert_eq!(factor.solve(&[8.0, 11.0])?, [1.125, 1.75]);
    /// # Ok::<(), urgyelpat::BatchRefusal>(())
    /// ```
    pub fn solve(&self, b: &[f64]) -> Result<Vec<f64>, Refusal> {
        let mut x = b.to_vec();
        self.solve_mut(&mut x)?;
        Ok(x)
    }

    /// [`solve`](PackedCholesky::solve) in place; a refusal leaves `b` as it was.
    ///
    /// ```
    /// use urgyelpat::{PackedCholesky, Refusal};
    ///
    /// let mut factor = PackedCholesky::default();
    /// factor.extend(&[4.0])?; // row 0
    /// let mut sides = [8.0, 2.0, 11.0];
    /// factor.solve_mut(&mut sides)?;
    /// assert_eq!(sides, [2.0, 0.5, 2.75]);
    ///
    /// factor.extend(&[2.0, 5.0])?; // row 1: a right-hand side has two numbers
    /// assert_eq!(factor.solve_mut(&mut sides), Err(Refusal::SliceLength));
    /// assert_eq!(sides, [2.0, 0.5, 2.75]);
    /// # Ok::<(), urgyelpat::BatchRefusal>(())
    /// ```
    pub fn solve_mut(&self, b: &mut [f64]) -> Result<(), Refusal> {
        let columns = whole_columns(b.len(), self.order);
        cholesky_solve(&self.factor, b, self.order, columns)
    }
}
