use crate::lblt::{callers_row, LapackPivots};
use crate::packed::{lblt_determinant, lblt_factor, lblt_solve, length};
use crate::record::{self, OWN};
use crate::refusal::Refusal;
use crate::{whole_columns, LARGEST};

/// [`LBLT`](crate::LBLT) with its matrix [packed](crate::packed): half the memory, and the same numbers, record and refusals.
///
/// Not here are `solve_bench`, `d` and `l_permuted`, for which the library has no packed calls: the functions of
/// [`lblt`](crate::lblt) take the [unpacked](crate::packed::unpack) matrix with the record as it is.
///
/// ```
/// use urgyelpat::{lblt, packed, PackedLBLT};
///
/// // the symmetric matrix with the lower rows 0 / 1 4, column by column, each from its diagonal down; in run 1116
/// let factor = PackedLBLT::new(vec![0.0, 1.0, 4.0], 2, 1116)?;
/// assert_eq!(factor.solve(&[1.0, 6.0])?, [2.0, 1.0]);
/// assert_eq!(factor.determinant(), -1.0);
/// assert_eq!(factor.zero_pivot(), None);
/// assert_eq!(factor.run(), 1116);
///
/// let mut d = [0.0; 4];
/// lblt::d(&packed::unpack(factor.matrix(), 2)?, factor.record(), &mut d, 2, factor.run())?;
/// assert_eq!(d, [4.0, 0.0, 0.0, -0.25]);
/// # Ok::<(), urgyelpat::Refusal>(())
/// ```
#[derive(Clone, Debug, PartialEq)]
pub struct PackedLBLT {
    matrix: Vec<f64>,
    record: Vec<u32>,
    order: usize,
}

impl PackedLBLT {
    /// Factors a symmetric matrix of order n, packed in n(n + 1)/2 numbers ([`pack`](crate::packed::pack) makes them of n·n). The
    /// run number, any number of the caller's, stands at the end of the record.
    ///
    /// Refused by [`OutOfRange`](Refusal::OutOfRange) and [`MatrixLength`](Refusal::MatrixLength). A matrix in which a row has
    /// no pivot is factored too: see [`zero_pivot`](PackedLBLT::zero_pivot).
    ///
    /// ```
    /// use urgyelpat::{packed, PackedLBLT, Refusal};
    ///
    /// let full = vec![4.0, 2.0, 0.0, 3.0];
    /// let factor = PackedLBLT::new(packed::pack(&full, 2)?, 2, 1116)?;
    /// assert_eq!(factor.solve(&[8.0, 8.0])?, [1.0, 2.0]);
    /// assert_eq!(PackedLBLT::new(full, 2, 1116), Err(Refusal::MatrixLength)); // it is not packed
    /// # Ok::<(), Refusal>(())
    /// ```
    pub fn new(mut matrix: Vec<f64>, n: usize, run: u32) -> Result<PackedLBLT, Refusal> {
        let mut record = record::blank(n);
        lblt_factor(&mut matrix, &mut record, n, run)?;
        Ok(PackedLBLT {
            matrix,
            record,
            order: n,
        })
    }

    /// [`LBLT::from_lapack`](crate::LBLT::from_lapack) for a factor whose lower part stands packed in `matrix`, n(n + 1)/2
    /// numbers: one of LAPACK's with its pivots, of which [the same](crate::pivots#which-lists) may be handed in. By LAPACK's
    /// documentation `dsptrf` with UPLO = 'L' leaves its factor packed so; that was not compared.
    ///
    /// Refused by [`OutOfRange`](Refusal::OutOfRange), [`MatrixLength`](Refusal::MatrixLength),
    /// [`SliceLength`](Refusal::SliceLength) where the list does not have n numbers, and [`BadList`](Refusal::BadList), in this
    /// order.
    ///
    /// ```
    /// use urgyelpat::{PackedLBLT, Refusal};
    ///
    /// // what dsytrf left of the lower rows 0 / 1 4, packed
    /// let factor = PackedLBLT::from_lapack(vec![4.0, 0.25, -0.25], 2, &[2, 2], 0, 1116)?;
    /// assert_eq!(factor.solve(&[1.0, 6.0])?, [2.0, 1.0]);
    /// # Ok::<(), Refusal>(())
    /// ```
    pub fn from_lapack(matrix: Vec<f64>, n: usize, list: &[i32], info: i32, run: u32) -> Result<PackedLBLT, Refusal> {
        if n <= LARGEST && matrix.len() != length(n) {
            return Err(Refusal::MatrixLength);
        }
        Ok(PackedLBLT {
            matrix,
            record: record::from_lapack(list, info, n, run)?,
            order: n,
        })
    }

    /// The number of rows.
    pub fn order(&self) -> usize {
        self.order
    }

    /// The factor as it stands, packed, n(n + 1)/2 numbers.
    pub fn matrix(&self) -> &[f64] {
        &self.matrix
    }

    /// The pivot record as it stands, 2n + 2 words.
    pub fn record(&self) -> &[u32] {
        &self.record
    }

    /// The pivot of each row, as (index, block size).
    pub fn pivots(&self) -> impl Iterator<Item = (usize, usize)> + '_ {
        record::pivots(&self.record, self.order)
    }

    /// The pivots and the mark in LAPACK's words, as [`LBLT::lapack_pivots`](crate::LBLT::lapack_pivots) gives them.
    ///
    /// ```
    /// use urgyelpat::{LapackPivots, PackedLBLT};
    ///
    /// let factor = PackedLBLT::new(vec![0.0, 1.0, 0.0], 2, 1116)?;
    /// let LapackPivots { list, info } = factor.lapack_pivots();
    /// assert_eq!((list, info), (vec![-2, -2], 0));
    /// # Ok::<(), urgyelpat::Refusal>(())
    /// ```
    pub fn lapack_pivots(&self) -> LapackPivots {
        record::lapack_pivots(&self.record, self.order)
    }

    /// The first row of the factor that has no pivot, as [`LBLT::zero_pivot`](crate::LBLT::zero_pivot) has it.
    /// [`callers_row`](PackedLBLT::callers_row) says which row of the given matrix it was.
    pub fn zero_pivot(&self) -> Option<usize> {
        record::zero_pivot(&self.record, self.order)
    }

    /// The run number that the factor was made with.
    pub fn run(&self) -> u32 {
        record::run(&self.record, self.order)
    }

    /// The row of the given matrix that stands at a row of the factor.
    ///
    /// ```
    /// use urgyelpat::{PackedLBLT, Refusal};
    ///
    /// let factor = PackedLBLT::new(vec![1.0, 2.0, 4.0], 2, 1116)?;
    /// assert_eq!(factor.solve(&[1.0, 1.0]), Err(Refusal::ZeroMark { row: 1 }));
    /// assert_eq!(factor.callers_row(1), 0);
    /// # Ok::<(), Refusal>(())
    /// ```
    pub fn callers_row(&self, row: usize) -> usize {
        callers_row(&self.record, self.order, row)
    }

    /// The solution of A·X = B. `b` has n numbers for each right-hand side, one after the other.
    ///
    /// Refused by [`OutOfRange`](Refusal::OutOfRange) and [`SliceLength`](Refusal::SliceLength) for `b`. Where `b` fits, refused
    /// by [`ZeroMark`](Refusal::ZeroMark) exactly if there is a [`zero_pivot`](PackedLBLT::zero_pivot).
    pub fn solve(&self, b: &[f64]) -> Result<Vec<f64>, Refusal> {
        let mut x = b.to_vec();
        self.solve_mut(&mut x)?;
        Ok(x)
    }

    /// [`solve`](PackedLBLT::solve) in place; a refusal leaves `b` as it was.
    ///
    /// ```
    /// let factor = urgyelpat::PackedLBLT::new(vec![0.0, 1.0, 0.0], 2, 1116)?;
    /// let mut sides = [3.0, 5.0, 1.0, 0.0];
    /// factor.solve_mut(&mut sides)?;
    /// assert_eq!(sides, [5.0, 3.0, 0.0, 1.0]);
    /// # Ok::<(), urgyelpat::Refusal>(())
    /// ```
    pub fn solve_mut(&self, b: &mut [f64]) -> Result<(), Refusal> {
        let columns = whole_columns(b.len(), self.order);
        lblt_solve(&self.matrix, &self.record, b, self.order, columns, self.run())
    }

    /// The determinant; 1 for order 0.
    pub fn determinant(&self) -> f64 {
        lblt_determinant(&self.matrix, &self.record, self.order, self.run()).expect(OWN)
    }
}
