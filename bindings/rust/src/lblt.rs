//! LBLT: P·A·Pᵀ = L·D·Lᵀ on paper, by Bunch and Kaufman's pivoting, for any symmetric matrix.
//!
//! The pivot record of a factor of order n has 2n + 2 words: the index and the size (1 or 2) of each row's pivot, then the
//! mark, 0 or marked row + 1, then the run number. [`factor`] writes it, and the calls that read the factor check its rule.
//! Block by block from row 0 on: a block of size 1 at row k has an index in k..n; one of size 2 needs k + 1 < n, an index in
//! k + 1..n and the same pair at k + 1. The mark is 0, or names a row of size 1 whose index is that row: where there is no
//! pivot, nothing is exchanged. A record that breaks the rule is refused by [`BadRecord`](Refusal::BadRecord).
//!
//! The run number is the caller's: any `u32`, and none of them stands for "unchecked". A [`factor`] call that is done writes the one
//! that it is given, as its last argument; a refused one leaves the record that stood there, with its number. A call that
//! reads the factor is given the number that it expects, as its last argument, and refuses by
//! [`OtherRun`](Refusal::OtherRun) a record that keeps the rule but has another. Give each run (a day, a patient, a sheet) a
//! number of its own, and yesterday's record is refused today. A record that keeps the rule and has the expected number is
//! accepted, even if it is damaged or of another matrix: keep a factor and its record together, as [`LBLT`] does.
//!
//! The rows of the factor are not in the order in which they came: [`callers_row`] gives the way back.
//!
//! [`tray`] factors and solves many small systems in one call.

use crate::record::{self, OWN};
use crate::refusal::{done, value, Refusal};
use crate::{ffi, whole_columns, LARGEST};

pub use crate::tray::{tray, Item, Tray};

/// Factors the lower part of `a` (n·n numbers) in place and writes its pivot record (2n + 2 words), with `run` at its end.
///
/// Where the diagonal and the largest number below it are both zero in size, or one is zero and the other NaN (the largest is
/// NaN where the first number below is), there is no pivot: the column is passed over, and the first such row is marked. Below
/// the last row there is nothing, which counts as zero, so a NaN alone on the last diagonal is marked (`[NaN]`). With a NaN
/// or infinity among the numbers the mark is often the last row, wherever that number stands (`[NaN / 1 2]`: row 1). Only a
/// solve refuses the mark.
///
/// Refused by [`OutOfRange`](Refusal::OutOfRange), [`MatrixLength`](Refusal::MatrixLength),
/// [`SliceLength`](Refusal::SliceLength).
///
/// ```
/// let (mut a, mut record) = ([0.0, 1.0, 0.0, 4.0], [0; 6]);
/// urgyelpat::lblt::factor(&mut a, &mut record, 2, 1116)?; // in run 1116
/// assert_eq!(a, [4.0, 0.25, 0.0, -0.25]);
/// assert_eq!(record, [1, 1, 1, 1, 0, 1116]);
/// # Ok::<(), urgyelpat::Refusal>(())
/// ```
pub fn factor(a: &mut [f64], record: &mut [u32], n: usize, run: u32) -> Result<(), Refusal> {
    // SAFETY: each pointer and length are a slice's, and what is written is borrowed alone.
    done(unsafe { ffi::urgyelpat_lblt_factor(a.as_mut_ptr(), a.len(), record.as_mut_ptr(), record.len(), n, run) })
}

/// Solves A·X = B in `b` (n·columns numbers), by a factor and its record, which is expected to be of the run `run`.
///
/// Refused by [`OutOfRange`](Refusal::OutOfRange), [`MatrixLength`](Refusal::MatrixLength),
/// [`SliceLength`](Refusal::SliceLength), [`BadRecord`](Refusal::BadRecord), [`OtherRun`](Refusal::OtherRun),
/// [`ZeroMark`](Refusal::ZeroMark), which names a row of the factor: [`callers_row`] gives yours. Look first for NaN or
/// infinite numbers in all rows of A.
///
/// ```
/// use urgyelpat::{lblt, Refusal};
///
/// let (a, mondays) = ([0.0, 1.0, 0.0, 0.0], [1, 2, 1, 2, 0, 1116]);
/// let mut b = [3.0, 5.0];
/// // on Tuesday run 1117 is expected, and Monday's record is refused
/// assert_eq!(lblt::solve_mut(&a, &mondays, &mut b, 2, 1, 1117), Err(Refusal::OtherRun));
/// assert_eq!(b, [3.0, 5.0]);
///
/// lblt::solve_mut(&a, &mondays, &mut b, 2, 1, 1116)?;
/// assert_eq!(b, [5.0, 3.0]);
/// # Ok::<(), Refusal>(())
/// ```
pub fn solve_mut(a: &[f64], record: &[u32], b: &mut [f64], n: usize, columns: usize, run: u32) -> Result<(), Refusal> {
    // SAFETY: each pointer and length are a slice's, and what is written is borrowed alone.
    done(unsafe {
        ffi::urgyelpat_lblt_solve(
            a.as_ptr(),
            a.len(),
            record.as_ptr(),
            record.len(),
            b.as_mut_ptr(),
            b.len(),
            n,
            columns,
            run,
        )
    })
}

/// Solves the columns of one bench in `b` (n·columns numbers), by a factor and its record, which is expected to be of the run
/// `run`. `benches` has a bench number, any `u32`, for each column: column j is solved if `benches[j]` is `bench`, and else
/// stays as it was.
///
/// A solved column is what [`solve_mut`] gives for that column. What a bench gets, the answer too, depends on nothing that
/// stands in the columns of the others. Where it has no column, the same is checked and nothing is written. Four or more
/// columns of the bench that stand side by side are solved several at a time, fewer one by one.
///
/// Refused as [`solve_mut`] is, and by [`SliceLength`](Refusal::SliceLength) where `benches` does not have a number for each
/// column.
///
/// ```
/// use urgyelpat::{lblt, Refusal};
///
/// let (a, record) = ([0.0, 1.0, 0.0, 0.0], [1, 2, 1, 2, 0, 1116]);
/// // the left bench, 1, sent the first and the last column; the right bench, 2, the one between
/// let (mut b, benches) = ([3.0, 5.0, 7.0, 9.0, 1.0, 0.0], [1, 2, 1]);
/// lblt::solve_bench(&a, &record, &mut b, &benches, 2, 3, 1, 1116)?;
/// assert_eq!(b, [5.0, 3.0, 7.0, 9.0, 0.0, 1.0]);
///
/// // a number of the list is missing
/// let refused = lblt::solve_bench(&a, &record, &mut b, &benches[..2], 2, 3, 2, 1116);
/// assert_eq!(refused, Err(Refusal::SliceLength));
/// assert_eq!(b, [5.0, 3.0, 7.0, 9.0, 0.0, 1.0]);
/// # Ok::<(), Refusal>(())
/// ```
#[allow(clippy::too_many_arguments)] // those of the library's call
pub fn solve_bench(
    a: &[f64],
    record: &[u32],
    b: &mut [f64],
    benches: &[u32],
    n: usize,
    columns: usize,
    bench: u32,
    run: u32,
) -> Result<(), Refusal> {
    // SAFETY: each pointer and length are a slice's, and what is written is borrowed alone.
    done(unsafe {
        ffi::urgyelpat_lblt_solve_bench(
            a.as_ptr(),
            a.len(),
            record.as_ptr(),
            record.len(),
            b.as_mut_ptr(),
            b.len(),
            benches.as_ptr(),
            benches.len(),
            n,
            columns,
            bench,
            run,
        )
    })
}

/// The determinant by a factor and its record, which is expected to be of the run `run`; 1 for order 0.
///
/// Refused by [`OutOfRange`](Refusal::OutOfRange), [`MatrixLength`](Refusal::MatrixLength),
/// [`SliceLength`](Refusal::SliceLength), [`BadRecord`](Refusal::BadRecord), [`OtherRun`](Refusal::OtherRun).
///
/// ```
/// use urgyelpat::{lblt, Refusal};
///
/// let a = [0.0, 1.0, 0.0, 0.0];
/// assert_eq!(lblt::determinant(&a, &[1, 2, 1, 2, 0, 1116], 2, 1116), Ok(-1.0));
/// assert_eq!(lblt::determinant(&a, &[1, 2, 9, 2, 0, 1116], 2, 1116), Err(Refusal::BadRecord { row: 0 }));
/// ```
pub fn determinant(a: &[f64], record: &[u32], n: usize, run: u32) -> Result<f64, Refusal> {
    // SAFETY: each pointer and length are a slice's.
    value(unsafe { ffi::urgyelpat_lblt_determinant(a.as_ptr(), a.len(), record.as_ptr(), record.len(), n, run) })
}

/// Fills `d` (n·n numbers) with the block diagonal matrix of a factor, whose record is expected to be of the run `run`.
///
/// Refused by [`OutOfRange`](Refusal::OutOfRange), [`MatrixLength`](Refusal::MatrixLength),
/// [`SliceLength`](Refusal::SliceLength), [`BadRecord`](Refusal::BadRecord), [`OtherRun`](Refusal::OtherRun).
///
/// ```
/// let mut d = [9.0; 4];
/// urgyelpat::lblt::d(&[4.0, 0.25, 7.0, -0.25], &[1, 1, 1, 1, 0, 1116], &mut d, 2, 1116)?;
/// assert_eq!(d, [4.0, 0.0, 0.0, -0.25]);
/// # Ok::<(), urgyelpat::Refusal>(())
/// ```
pub fn d(a: &[f64], record: &[u32], d: &mut [f64], n: usize, run: u32) -> Result<(), Refusal> {
    // SAFETY: each pointer and length are a slice's, and what is written is borrowed alone.
    done(unsafe {
        ffi::urgyelpat_lblt_d(
            a.as_ptr(),
            a.len(),
            record.as_ptr(),
            record.len(),
            d.as_mut_ptr(),
            d.len(),
            n,
            run,
        )
    })
}

/// Fills `l` (n·n numbers) with Pᵀ·L; on paper the factored matrix is l·d·lᵀ. The record is expected to be of the run `run`.
///
/// Refused by [`OutOfRange`](Refusal::OutOfRange), [`MatrixLength`](Refusal::MatrixLength),
/// [`SliceLength`](Refusal::SliceLength), [`BadRecord`](Refusal::BadRecord), [`OtherRun`](Refusal::OtherRun).
///
/// ```
/// let mut l = [9.0; 4];
/// urgyelpat::lblt::l_permuted(&[4.0, 0.25, 7.0, -0.25], &[1, 1, 1, 1, 0, 1116], &mut l, 2, 1116)?;
/// assert_eq!(l, [0.25, 1.0, 1.0, 0.0]);
/// # Ok::<(), urgyelpat::Refusal>(())
/// ```
pub fn l_permuted(a: &[f64], record: &[u32], l: &mut [f64], n: usize, run: u32) -> Result<(), Refusal> {
    // SAFETY: each pointer and length are a slice's, and what is written is borrowed alone.
    done(unsafe {
        ffi::urgyelpat_lblt_l_permuted(
            a.as_ptr(),
            a.len(),
            record.as_ptr(),
            record.len(),
            l.as_mut_ptr(),
            l.len(),
            n,
            run,
        )
    })
}

/// The row of the given matrix that stands at a row of the factor: the exchanges of the record, taken back from the last to the
/// first. `record` is one that [`factor`], [`tray`], [`from_lapack`](crate::pivots::from_lapack) or
/// [`packed::lblt_factor`](crate::packed::lblt_factor) wrote for order n. Panics where it has fewer than 2n words.
///
/// ```
/// // the lower rows 1 / 2 4: row 1 is brought to the top, and the factor's row 1 has no pivot
/// let (mut a, mut record) = ([1.0, 2.0, 0.0, 4.0], [0; 6]);
/// urgyelpat::lblt::factor(&mut a, &mut record, 2, 1116)?;
/// assert_eq!(record, [1, 1, 1, 1, 2, 1116]);
/// assert_eq!(urgyelpat::lblt::callers_row(&record, 2, 1), 0);
/// # Ok::<(), urgyelpat::Refusal>(())
/// ```
pub fn callers_row(record: &[u32], n: usize, row: usize) -> usize {
    assert!(record.len() / 2 >= n, "a record of fewer than 2n words");
    let mut row = row;
    let mut rest = n; // the exchanges of the rows from here on are taken back
    while rest > 0 {
        let stands = rest - 1;
        let came = record[2 * stands] as usize;
        if row == stands {
            row = came;
        } else if row == came {
            row = stands;
        }
        rest -= if rest > 1 && record[2 * stands + 1] == 2 { 2 } else { 1 };
    }
    row
}

/// A factored symmetric matrix with its pivot record.
///
/// Its calls expect its own run number, so that none of them notices that a factor is yesterday's: that is for the calling
/// program to ask, by [`run`](LBLT::run). The functions of [this module](crate::lblt) take the number that they expect.
///
/// ```
/// use urgyelpat::LBLT;
///
/// let factor = LBLT::new(vec![0.0, 1.0, 0.0, 4.0], 2, 1116)?; // in run 1116
/// assert_eq!(factor.solve(&[1.0, 6.0])?, [2.0, 1.0]);
/// assert_eq!(factor.determinant(), -1.0);
/// assert_eq!(factor.zero_pivot(), None);
/// assert_eq!(factor.run(), 1116);
/// # Ok::<(), urgyelpat::Refusal>(())
/// ```
#[derive(Clone, Debug, PartialEq)]
pub struct LBLT {
    matrix: Vec<f64>,
    record: Vec<u32>,
    order: usize,
}

/// LAPACK's words for the pivots of a factor: [`LBLT::lapack_pivots`] gives them.
#[derive(Clone, Debug, PartialEq, Eq)]
pub struct LapackPivots {
    /// IPIV for the lower triangle: p > 0 at row k, counted from 1, where rows k and p were exchanged for a block of size 1;
    /// −p at rows k and k + 1 where rows k + 1 and p were exchanged for a block of size 2.
    pub list: Vec<i32>,
    /// INFO: 0, or the [`zero_pivot`](LBLT::zero_pivot), counted from 1. It need not be the first zero on the diagonal.
    pub info: i32,
}

impl LBLT {
    /// Factors a symmetric matrix of order n, n·n numbers, of which the lower part is read. The run number, any number of the
    /// caller's, stands at the end of the record.
    ///
    /// Refused by [`OutOfRange`](Refusal::OutOfRange) and [`MatrixLength`](Refusal::MatrixLength). A matrix in which a row has
    /// no pivot is factored too: see [`zero_pivot`](LBLT::zero_pivot).
    pub fn new(mut matrix: Vec<f64>, n: usize, run: u32) -> Result<LBLT, Refusal> {
        let mut record = record::blank(n);
        factor(&mut matrix, &mut record, n, run)?;
        Ok(LBLT {
            matrix,
            record,
            order: n,
        })
    }

    /// A factor that LAPACK's `dsytrf` or `dsytf2` left in the lower part of `matrix`, n·n numbers, with the pivots that it
    /// said: IPIV as `list`, n numbers, and INFO. The matrix is taken as it is, and no number of it is looked at. The run
    /// number stands at the end of the record, as for [`new`](LBLT::new).
    ///
    /// Only for UPLO = 'L', LDA = n, 32-bit integers and, where it is to be read, INFO 0. **Never** hand in what UPLO = 'U',
    /// `dsytrf_rook`, `dsytrf_rk` or `dsytrf_aa` left: it can mean other things, and is
    /// [not always refused](crate::pivots#which-lists).
    ///
    /// Refused by [`OutOfRange`](Refusal::OutOfRange), [`MatrixLength`](Refusal::MatrixLength),
    /// [`SliceLength`](Refusal::SliceLength) where the list does not have n numbers, and [`BadList`](Refusal::BadList), in this
    /// order.
    ///
    /// ```
    /// use urgyelpat::{Refusal, LBLT};
    ///
    /// // what dsytrf left of the lower rows 0 / 1 4
    /// let factor = LBLT::from_lapack(vec![4.0, 0.25, 0.0, -0.25], 2, &[2, 2], 0, 1116)?;
    /// assert_eq!(factor.solve(&[1.0, 6.0])?, [2.0, 1.0]);
    /// assert_eq!(factor.determinant(), -1.0);
    ///
    /// // a number of the list is damaged
    /// let refused = LBLT::from_lapack(vec![4.0, 0.25, 0.0, -0.25], 2, &[2, 0], 0, 1116);
    /// assert_eq!(refused, Err(Refusal::BadList { row: 1 }));
    /// # Ok::<(), Refusal>(())
    /// ```
    pub fn from_lapack(matrix: Vec<f64>, n: usize, list: &[i32], info: i32, run: u32) -> Result<LBLT, Refusal> {
        if n <= LARGEST && matrix.len() != n * n {
            return Err(Refusal::MatrixLength);
        }
        Ok(LBLT {
            matrix,
            record: record::from_lapack(list, info, n, run)?,
            order: n,
        })
    }

    /// The number of rows.
    pub fn order(&self) -> usize {
        self.order
    }

    /// The factor as it stands, n·n numbers; above the diagonal they are those of the given matrix.
    pub fn matrix(&self) -> &[f64] {
        &self.matrix
    }

    /// The pivot record as it stands, 2n + 2 words.
    pub fn record(&self) -> &[u32] {
        &self.record
    }

    /// The pivot of each row, as (index, block size).
    pub fn pivots(&self) -> impl Iterator<Item = (usize, usize)> + '_ {
        record::pivots(&self.record, self.order)
    }

    /// The pivots and the mark in LAPACK's words. With [`matrix`](LBLT::matrix) they are what `dsytrs` takes for UPLO = 'L' and
    /// LDA = n; they do not hold the run number.
    ///
    /// ```
    /// use urgyelpat::{LapackPivots, LBLT};
    ///
    /// let factor = LBLT::new(vec![0.0, 1.0, 0.0, 0.0], 2, 1116)?;
    /// let LapackPivots { list, info } = factor.lapack_pivots();
    /// assert_eq!((list, info), (vec![-2, -2], 0));
    ///
    /// let marked = LBLT::new(vec![1.0, 2.0, 0.0, 4.0], 2, 1116)?;
    /// assert_eq!(marked.zero_pivot(), Some(1)); // counted from 0, and INFO from 1
    /// let LapackPivots { list, info } = marked.lapack_pivots();
    /// assert_eq!((list, info), (vec![2, 2], 2));
    /// # Ok::<(), urgyelpat::Refusal>(())
    /// ```
    pub fn lapack_pivots(&self) -> LapackPivots {
        record::lapack_pivots(&self.record, self.order)
    }

    /// The first row of the factor that has no pivot: the diagonal and the largest number below it were both zero in size, or
    /// one was zero and the other NaN. Below the last row there is nothing, which counts as zero. Of a factor of LAPACK's it is
    /// the row that INFO named. [`callers_row`](LBLT::callers_row) says which row of the given matrix it was.
    pub fn zero_pivot(&self) -> Option<usize> {
        record::zero_pivot(&self.record, self.order)
    }

    /// The run number that the factor was made with.
    pub fn run(&self) -> u32 {
        record::run(&self.record, self.order)
    }

    /// The row of the given matrix that stands at a row of the factor.
    ///
    /// ```
    /// use urgyelpat::{Refusal, LBLT};
    ///
    /// let factor = LBLT::new(vec![1.0, 2.0, 0.0, 4.0], 2, 1116)?;
    /// assert_eq!(factor.solve(&[1.0, 1.0]), Err(Refusal::ZeroMark { row: 1 }));
    /// assert_eq!(factor.callers_row(1), 0);
    /// # Ok::<(), Refusal>(())
    /// ```
    pub fn callers_row(&self, row: usize) -> usize {
        callers_row(&self.record, self.order, row)
    }

    /// The solution of A·X = B. `b` has n numbers for each right-hand side, one after the other.
    ///
    /// Refused by [`OutOfRange`](Refusal::OutOfRange) and [`SliceLength`](Refusal::SliceLength) for `b`. Where `b` fits, refused
    /// by [`ZeroMark`](Refusal::ZeroMark) exactly if there is a [`zero_pivot`](LBLT::zero_pivot).
    pub fn solve(&self, b: &[f64]) -> Result<Vec<f64>, Refusal> {
        let mut x = b.to_vec();
        self.solve_mut(&mut x)?;
        Ok(x)
    }

    /// [`solve`](LBLT::solve) in place; a refusal leaves `b` as it was.
    ///
    /// ```
    /// use urgyelpat::{Refusal, LBLT};
    ///
    /// let factor = LBLT::new(vec![0.0, 1.0, 0.0, 0.0], 2, 1116)?;
    /// let mut sides = [3.0, 5.0, 1.0, 0.0];
    /// factor.solve_mut(&mut sides)?;
    /// assert_eq!(sides, [5.0, 3.0, 0.0, 1.0]);
    ///
    /// let marked = LBLT::new(vec![1.0, 1.0, 0.0, 1.0], 2, 1116)?;
    /// assert_eq!(marked.solve_mut(&mut sides), Err(Refusal::ZeroMark { row: 1 }));
    /// assert_eq!(sides, [5.0, 3.0, 0.0, 1.0]);
    /// # Ok::<(), Refusal>(())
    /// ```
    pub fn solve_mut(&self, b: &mut [f64]) -> Result<(), Refusal> {
        let columns = whole_columns(b.len(), self.order);
        solve_mut(&self.matrix, &self.record, b, self.order, columns, self.run())
    }

    /// [`solve_mut`](LBLT::solve_mut) for the columns of one bench: column j of `b` is solved if `benches[j]` is `bench`, and
    /// else stays as it was. A refusal leaves all of `b` as it was.
    ///
    /// Refused by [`OutOfRange`](Refusal::OutOfRange) for more than 1,024 bench numbers and by
    /// [`SliceLength`](Refusal::SliceLength) where `b` does not have n numbers for each of them. Where `b` fits, refused by
    /// [`ZeroMark`](Refusal::ZeroMark) exactly if there is a [`zero_pivot`](LBLT::zero_pivot), even if the bench has no column.
    ///
    /// ```
    /// use urgyelpat::{Refusal, LBLT};
    ///
    /// let factor = LBLT::new(vec![0.0, 1.0, 0.0, 0.0], 2, 1116)?;
    /// let mut sides = [3.0, 5.0, 7.0, f64::NAN];
    /// factor.solve_bench(&mut sides, &[1, 2], 1)?; // the left bench is 1, the right bench 2
    /// assert_eq!(sides[..2], [5.0, 3.0]);
    /// assert_eq!(sides[2], 7.0);
    /// assert!(sides[3].is_nan());
    /// # Ok::<(), Refusal>(())
    /// ```
    pub fn solve_bench(&self, b: &mut [f64], benches: &[u32], bench: u32) -> Result<(), Refusal> {
        solve_bench(
            &self.matrix,
            &self.record,
            b,
            benches,
            self.order,
            benches.len(),
            bench,
            self.run(),
        )
    }

    /// The determinant; 1 for order 0.
    pub fn determinant(&self) -> f64 {
        determinant(&self.matrix, &self.record, self.order, self.run()).expect(OWN)
    }

    /// The block diagonal matrix D, n·n numbers.
    ///
    /// ```
    /// let factor = urgyelpat::LBLT::new(vec![0.0, 1.0, 7.0, 0.0], 2, 1116)?;
    /// assert_eq!(factor.d(), [0.0, 1.0, 1.0, 0.0]);
    /// # Ok::<(), urgyelpat::Refusal>(())
    /// ```
    pub fn d(&self) -> Vec<f64> {
        let mut filled = vec![0.0; self.matrix.len()];
        d(&self.matrix, &self.record, &mut filled, self.order, self.run()).expect(OWN);
        filled
    }

    /// The factor Pᵀ·L, n·n numbers; on paper the matrix is l·d·lᵀ.
    ///
    /// ```
    /// let factor = urgyelpat::LBLT::new(vec![0.0, 1.0, 7.0, 4.0], 2, 1116)?;
    /// assert_eq!(factor.l_permuted(), [0.25, 1.0, 1.0, 0.0]);
    /// # Ok::<(), urgyelpat::Refusal>(())
    /// ```
    pub fn l_permuted(&self) -> Vec<f64> {
        let mut filled = vec![0.0; self.matrix.len()];
        l_permuted(&self.matrix, &self.record, &mut filled, self.order, self.run()).expect(OWN);
        filled
    }
}
