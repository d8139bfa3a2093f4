//! Cholesky: A = L·Lᵀ on paper, for a positive matrix, whole or in batches of rows.
//!
//! The matrix stands in a room s: s·s numbers, entry (i, j) at `i + j * s`, of which the first n rows and columns count.
//!
//! # A floor for the diagonal
//!
//! [`factor`] and [`extend`] refuse a matrix at the first column whose diagonal fails once it is updated. A number fails if it is
//! zero, below zero or NaN, and passes if it is above zero, infinity included. [`factor_floored`] and [`extend_floored`] take a
//! number more, the floor. Where a diagonal fails and the floor passes, it stands in for the diagonal: its root is stored there,
//! and the rows below are divided by that root. In all else they are the calls without a floor, step for step. They count the
//! columns that used it.
//!
//! **A floor hides what the calls without one show.** A row that came twice, a broken probe's NaN and a matrix that is not
//! positive are then accepted. The count is the only sign, and a row that came twice may leave a crumb above zero, which is not
//! even counted. So ask [`first_twin`] or [`first_twin_since`] before each call, of the rows as they came, and look at the count
//! after it. Where it is not 0 the factor is not the matrix's own: on paper it is that of the matrix with each counted diagonal
//! raised, by the floor less what was left there. It may hold NaN or infinities: a NaN left of the diagonal stays, and a small
//! floor makes large numbers below it.
//!
//! Proved of the library's calls, beside the call without a floor on the same numbers:
//!
//! - Where that call accepts, this one leaves the same, to the bit, and counts 0, whatever the floor.
//! - Where the count is 0, this one answers and leaves what that one does. So what that call turns down is refused here too, or
//!   counted.
//! - With a floor that fails the two are one. It does no harm while no diagonal needs it.
//! - With a floor that passes no diagonal is refused: sizes and lengths alone are.
//! - A call that is refused, for whatever reason, has used the floor for no column.
//! - Batches with one floor for all of them give what one call with that floor gives, to the bit, are refused by the same code at
//!   the same row, and their counts add up to its count.

use std::error::Error;
use std::fmt;

use crate::batch::{batch_without, each_row, order_with};
use crate::refusal::{count, done, value, Refusal};
use crate::twins::{first_twin, first_twin_since, Twins};
use crate::{ffi, kept, whole_columns, LARGEST};

/// Factors the first n rows and columns of the lower part of `a` (room·room numbers) in place.
///
/// Refused by [`OutOfRange`](Refusal::OutOfRange), [`OrderAboveRoom`](Refusal::OrderAboveRoom),
/// [`MatrixLength`](Refusal::MatrixLength), and at the first column j whose updated diagonal is
/// [zero](Refusal::CholeskyZero), [below zero](Refusal::CholeskyBelowZero) or [NaN](Refusal::CholeskyNan). The columns before
/// j are then finished, column j is updated and not divided, and later columns are as given.
///
/// ```
/// let mut a = [4.0, 2.0, 0.0, 5.0];
/// urgyelpat::cholesky::factor(&mut a, 2, 2)?;
/// assert_eq!(a, [2.0, 1.0, 0.0, 2.0]);
/// # Ok::<(), urgyelpat::Refusal>(())
/// ```
pub fn factor(a: &mut [f64], room: usize, n: usize) -> Result<(), Refusal> {
    // SAFETY: the pointer and the length are a slice's, which is borrowed alone.
    done(unsafe { ffi::urgyelpat_cholesky_factor(a.as_mut_ptr(), a.len(), room, n) })
}

/// Takes the first `earlier` rows as factored and factors the rows `earlier..n` in place.
///
/// The batches of a matrix give what one call on the whole gives, to the bit, and are refused by the same code at the same
/// row. Refused as [`factor`] is, a diagonal only from column `earlier` on; the rows before are left alone.
/// A row that came twice is often not refused: ask [`first_twin_since`] first, of the rows as they came and not of `a`.
///
/// ```
/// use urgyelpat::{cholesky, Refusal};
///
/// let mut a = [4.0, 0.0, 0.0, 0.0]; // room for two rows, one of them here
/// cholesky::factor(&mut a, 2, 1)?;
/// (a[1], a[3]) = (2.0, 5.0); // the second row
/// cholesky::extend(&mut a, 2, 1, 2)?;
/// assert_eq!(a, [2.0, 1.0, 0.0, 2.0]);
/// # Ok::<(), Refusal>(())
/// ```
pub fn extend(a: &mut [f64], room: usize, earlier: usize, n: usize) -> Result<(), Refusal> {
    // SAFETY: the pointer and the length are a slice's, which is borrowed alone.
    done(unsafe { ffi::urgyelpat_cholesky_extend(a.as_mut_ptr(), a.len(), room, earlier, n) })
}

/// The teaching engine, a plain Cholesky for the board: that of order n is that of order n − 1, and then the last row, found from
/// left to right.
///
/// It takes orders up to [`TEACHING_LARGEST`](crate::TEACHING_LARGEST). Where it accepts, `a` holds what [`factor`] leaves there,
/// to the bit. Larger orders and batches are for [`factor`] and [`extend`].
///
/// ```
/// use urgyelpat::{cholesky, Refusal};
///
/// let mut a = [4.0, 2.0, 6.0, 0.0, 5.0, 5.0, 0.0, 0.0, 14.0]; // the lower rows 4 / 2 5 / 6 5 14
/// cholesky::teaching(&mut a, 3, 3)?;
/// assert_eq!(a, [2.0, 1.0, 3.0, 0.0, 2.0, 1.0, 0.0, 0.0, 2.0]); // 2 / 1 2 / 3 1 2
/// # Ok::<(), Refusal>(())
/// ```
///
/// Refused by [`OutOfRange`](Refusal::OutOfRange), also for an order above [`TEACHING_LARGEST`](crate::TEACHING_LARGEST), by
/// [`OrderAboveRoom`](Refusal::OrderAboveRoom) and [`MatrixLength`](Refusal::MatrixLength), and at a diagonal as [`factor`] is, by
/// the same refusal at the same row. The rows up to that one, each up to and with its diagonal, are then as [`factor`] leaves
/// them. The rows below it, the entries right of the diagonals and all that is outside the first n rows and columns are as
/// given; [`factor`] works in the rows below too.
///
/// ```
/// use urgyelpat::{cholesky, Refusal};
///
/// let given = [1.0, 1.0, 2.0, 0.0, 1.0, 2.0, 0.0, 0.0, 9.0]; // the lower rows 1 / 1 1 / 2 2 9
/// let refused = Err(Refusal::CholeskyZero { column: 1 });
/// let mut a = given;
/// assert_eq!(cholesky::teaching(&mut a, 3, 3), refused);
/// assert_eq!(a, [1.0, 1.0, 2.0, 0.0, 0.0, 2.0, 0.0, 0.0, 9.0]); // 1 / 1 0, and row 2 as given
///
/// let mut a = given;
/// assert_eq!(cholesky::factor(&mut a, 3, 3), refused);
/// assert_eq!(a, [1.0, 1.0, 2.0, 0.0, 0.0, 0.0, 0.0, 0.0, 9.0]); // 1 / 1 0, and column 1 updated in row 2
///
/// let mut a = vec![0.0; 65 * 65];
/// assert_eq!(cholesky::teaching(&mut a, 65, 65), Err(Refusal::OutOfRange));
/// ```
pub fn teaching(a: &mut [f64], room: usize, n: usize) -> Result<(), Refusal> {
    // SAFETY: the pointer and the length are a slice's, which is borrowed alone.
    done(unsafe { ffi::urgyelpat_cholesky_teaching(a.as_mut_ptr(), a.len(), room, n) })
}

/// [`factor`] with a [floor](self#a-floor-for-the-diagonal) for the diagonal. Gives how many columns used it.
///
/// **Ask [`first_twin`] before, and look at the count after.** Where it is not 0, `a` does not hold the factor of the matrix that
/// was given, and may hold NaN or infinities.
///
/// Refused by [`OutOfRange`](Refusal::OutOfRange), [`OrderAboveRoom`](Refusal::OrderAboveRoom) and
/// [`MatrixLength`](Refusal::MatrixLength); and at a diagonal, as [`factor`] is and with `a` as that leaves it, only if the floor
/// fails.
///
/// ```
/// use urgyelpat::{cholesky, Refusal};
///
/// let mut a = [1.0, 1.0, 0.0, 1.0]; // the lower rows 1 / 1 1: zero is left at (1, 1)
/// assert_eq!(cholesky::factor_floored(&mut a, 2, 2, 4.0)?, 1);
/// assert_eq!(a, [1.0, 1.0, 0.0, 2.0]); // the factor of 1 / 1 5
///
/// let mut a = [4.0, 2.0, 0.0, 5.0]; // no diagonal needs the floor
/// assert_eq!(cholesky::factor_floored(&mut a, 2, 2, f64::NAN)?, 0);
/// assert_eq!(a, [2.0, 1.0, 0.0, 2.0]);
///
/// // the diagonal fails, and the floor with it
/// let refused = cholesky::factor_floored(&mut [-1.0], 1, 1, -1.0);
/// assert_eq!(refused, Err(Refusal::CholeskyBelowZero { column: 0 }));
/// # Ok::<(), Refusal>(())
/// ```
pub fn factor_floored(a: &mut [f64], room: usize, n: usize, floor: f64) -> Result<usize, Refusal> {
    // SAFETY: the pointer and the length are a slice's, which is borrowed alone.
    count(unsafe { ffi::urgyelpat_cholesky_factor_floored(a.as_mut_ptr(), a.len(), room, n, floor) })
}

/// [`extend`] with a [floor](self#a-floor-for-the-diagonal) for the diagonal. Gives how many of the columns `earlier..n` used it.
///
/// The diagonals of the first `earlier` rows are neither tested nor counted. With one floor for all of them the batches of a
/// matrix give what one call of [`factor_floored`] on the whole gives, to the bit, and their counts add up to its count.
///
/// **Ask [`first_twin_since`] before, and look at the count after each batch.** Where it is not 0, `a` does not hold the factor
/// of the rows that came, and may hold NaN or infinities.
///
/// Refused as [`factor_floored`] is, a diagonal only from column `earlier` on, with `a` as [`extend`] leaves it.
///
/// ```
/// use urgyelpat::{cholesky, first_twin_since, Refusal, Twins};
///
/// let mut a = [1.0, 0.0, 0.0, 0.0]; // room for two rows, one of them here
/// let mut came = a; // the rows as they came
/// let mut counted = cholesky::factor_floored(&mut a, 2, 1, 4.0)?;
/// assert_eq!(counted, 0);
///
/// (a[1], a[3]) = (1.0, 1.0); // the second row
/// (came[1], came[3]) = (1.0, 1.0);
/// assert_eq!(first_twin_since(&came, 2, 1, 2)?, Some(Twins { p: 0, q: 1 })); // it is the first once more
/// counted += cholesky::extend_floored(&mut a, 2, 1, 2, 4.0)?; // which the floor hides
/// assert_eq!(a, [1.0, 1.0, 0.0, 2.0]);
/// assert_eq!(counted, 1);
/// # Ok::<(), Refusal>(())
/// ```
pub fn extend_floored(a: &mut [f64], room: usize, earlier: usize, n: usize, floor: f64) -> Result<usize, Refusal> {
    // SAFETY: the pointer and the length are a slice's, which is borrowed alone.
    count(unsafe { ffi::urgyelpat_cholesky_extend_floored(a.as_mut_ptr(), a.len(), room, earlier, n, floor) })
}

/// Solves A·X = B in `b` (n·columns numbers, n for each column, whatever the room), by the factor that stands in `a`.
///
/// The solution of a column x depends on the factor l and that column alone. For i rising, x(i) is divided by l(i, i), and
/// then each later row r becomes x(r) + (−x(i))·l(r, i). After that, for i falling, x(i) becomes x(i) − l(r, i)·x(r) for r
/// rising from i + 1, and is then divided by l(i, i). Each product, sum and quotient is rounded once. These steps are
/// this project's own and were not taken from nalgebra, so the last bits may differ from those of its `Cholesky::solve`.
///
/// No number of the factor is refused: a zero on its diagonal gives infinities or NaN, and what a refused factor left is read
/// as it stands. Refused by [`OutOfRange`](Refusal::OutOfRange), [`OrderAboveRoom`](Refusal::OrderAboveRoom),
/// [`MatrixLength`](Refusal::MatrixLength), [`SliceLength`](Refusal::SliceLength).
///
/// ```
/// let mut b = [8.0, 11.0];
/// urgyelpat::cholesky::solve_mut(&[2.0, 1.0, 7.0, 2.0], &mut b, 2, 2, 1)?;
/// assert_eq!(b, [1.125, 1.75]);
/// # Ok::<(), urgyelpat::Refusal>(())
/// ```
pub fn solve_mut(a: &[f64], b: &mut [f64], room: usize, n: usize, columns: usize) -> Result<(), Refusal> {
    // SAFETY: each pointer and length are a slice's, and what is written is borrowed alone.
    done(unsafe { ffi::urgyelpat_cholesky_solve(a.as_ptr(), a.len(), b.as_mut_ptr(), b.len(), room, n, columns) })
}

/// Fills `l` (n·n numbers) with the factor that stands in `a`, zero above the diagonal.
///
/// Refused by [`OutOfRange`](Refusal::OutOfRange), [`OrderAboveRoom`](Refusal::OrderAboveRoom),
/// [`MatrixLength`](Refusal::MatrixLength), [`SliceLength`](Refusal::SliceLength).
///
/// ```
/// let mut l = [9.0; 4];
/// urgyelpat::cholesky::l(&[2.0, 1.0, 7.0, 2.0], &mut l, 2, 2)?;
/// assert_eq!(l, [2.0, 1.0, 0.0, 2.0]);
/// # Ok::<(), urgyelpat::Refusal>(())
/// ```
pub fn l(a: &[f64], l: &mut [f64], room: usize, n: usize) -> Result<(), Refusal> {
    // SAFETY: each pointer and length are a slice's, and what is written is borrowed alone.
    done(unsafe { ffi::urgyelpat_cholesky_l(a.as_ptr(), a.len(), l.as_mut_ptr(), l.len(), room, n) })
}

/// Sets the entries above the diagonal of the first n rows and columns of `a` to zero, where they stand.
///
/// Refused by [`OutOfRange`](Refusal::OutOfRange), [`OrderAboveRoom`](Refusal::OrderAboveRoom),
/// [`MatrixLength`](Refusal::MatrixLength).
///
/// ```
/// let mut a = [2.0, 1.0, 7.0, 2.0];
/// urgyelpat::cholesky::unpack(&mut a, 2, 2)?;
/// assert_eq!(a, [2.0, 1.0, 0.0, 2.0]);
/// # Ok::<(), urgyelpat::Refusal>(())
/// ```
pub fn unpack(a: &mut [f64], room: usize, n: usize) -> Result<(), Refusal> {
    // SAFETY: the pointer and the length are a slice's, which is borrowed alone.
    done(unsafe { ffi::urgyelpat_cholesky_unpack(a.as_mut_ptr(), a.len(), room, n) })
}

/// The determinant of the factored matrix, the square of the product of the diagonal; 1 for order 0.
///
/// Refused by [`OutOfRange`](Refusal::OutOfRange), [`OrderAboveRoom`](Refusal::OrderAboveRoom),
/// [`MatrixLength`](Refusal::MatrixLength).
///
/// ```
/// assert_eq!(urgyelpat::cholesky::determinant(&[2.0, 1.0, 7.0, 2.0], 2, 2), Ok(16.0));
/// ```
pub fn determinant(a: &[f64], room: usize, n: usize) -> Result<f64, Refusal> {
    // SAFETY: the pointer and the length are a slice's.
    value(unsafe { ffi::urgyelpat_cholesky_determinant(a.as_ptr(), a.len(), room, n) })
}

/// Why a batch of rows was not taken.
#[derive(Clone, Copy, Debug, PartialEq, Eq, Hash)]
pub enum BatchRefusal {
    /// The batch brings a row that has come already: row q is one of the batch, and row p one before it.
    Twins(Twins),
    /// The sizes do not fit, or the rows cannot be factored.
    Refused(Refusal),
}

impl From<Refusal> for BatchRefusal {
    fn from(refusal: Refusal) -> BatchRefusal {
        BatchRefusal::Refused(refusal)
    }
}

impl fmt::Display for BatchRefusal {
    fn fmt(&self, f: &mut fmt::Formatter<'_>) -> fmt::Result {
        match *self {
            BatchRefusal::Twins(Twins { p, q }) => write!(
                f,
                "row {q} is row {p} again, number for number: perhaps its batch came twice, or its point was entered twice. Leave row {q} out and hand in the rest; insist only if both rows are meant"
            ),
            BatchRefusal::Refused(refusal) => refusal.fmt(f),
        }
    }
}

impl Error for BatchRefusal {}

/// A factored positive matrix that grows by batches of rows, and takes no row twice unless the caller insists.
///
/// A row is refused if its diagonal fails, unless the caller gives a [substitute](#substitutes) for it.
///
/// ```
/// use urgyelpat::{BatchRefusal, Cholesky, Refusal};
///
/// let mut factor = Cholesky::default();
/// factor.extend(&[4.0])?; // row 0
/// factor.extend(&[2.0, 5.0, 6.0, 5.0, 14.0])?; // rows 1 and 2, up to their diagonals
/// assert_eq!(factor.l(), [2.0, 1.0, 3.0, 0.0, 2.0, 1.0, 0.0, 0.0, 2.0]);
/// assert_eq!(factor.solve(&[12.0, 12.0, 25.0])?, [1.0, 1.0, 1.0]);
/// assert_eq!(factor.determinant(), 64.0);
///
/// // a batch that is refused leaves the factor as it was
/// let refused = factor.extend(&[6.0, 5.0, 14.0, 13.0]);
/// assert_eq!(refused, Err(BatchRefusal::Refused(Refusal::CholeskyBelowZero { column: 3 })));
/// assert_eq!(factor.order(), 3);
/// # Ok::<(), BatchRefusal>(())
/// ```
///
/// # Rows that came twice
///
/// The factor does not notice them reliably, and cannot be asked: its rows are not those that came. So the rows are kept as
/// they came, in as much memory again, and are [asked for twins](first_twin_since) before a batch is factored: rows that are
/// the same as far as the matrix has come. A batch that brings a twin is refused with the pair, and the caller leaves the row
/// out or [insists](Cholesky::extend_insisting). A batch that brings several is handed in again until it is taken:
///
/// ```
/// use urgyelpat::{BatchRefusal, Cholesky, Twins};
///
/// let mut factor = Cholesky::default();
/// factor.extend(&[2.0, 1.0, 3.0])?; // rows 0 and 1
///
/// let mut batch = vec![2.0, 1.0, 2.0, 1.0, 3.0, 1.0, 3.0]; // the same two once more, as rows 2 and 3
/// let mut told = vec![];
/// while let Err(refusal) = factor.extend(&batch) {
///     match refusal {
///         BatchRefusal::Twins(twins) => {
///             told.push(twins);
///             batch = factor.batch_without(&batch, twins.q)?;
///         }
///         BatchRefusal::Refused(_) => return Err(refusal),
///     }
/// }
/// assert_eq!(told, [Twins { p: 0, q: 2 }, Twins { p: 1, q: 2 }]);
/// assert_eq!((batch.len(), factor.order()), (0, 2));
/// # Ok::<(), BatchRefusal>(())
/// ```
///
/// # Substitutes
///
/// A diagonal fails if it is zero, below zero or NaN once it is updated by the columns before it.
/// [`new_with_substitute`](Cholesky::new_with_substitute) and [`extend_with_substitute`](Cholesky::extend_with_substitute) take
/// a number that then stands in for it, if it does not fail itself: its root is stored, and the rows below are divided by that
/// root. It is the [floor](self#a-floor-for-the-diagonal) of the library's calls.
///
/// **A substitute hides what the other calls refuse**: a broken probe's NaN, a matrix that is not positive, twins that were
/// insisted on. [`substituted`](Cholesky::substituted) is the only sign. Look at it before the factor is used: where it is not 0
/// the factor, its solutions and its determinant are those of another matrix, and may be NaN or infinite.
///
/// ```
/// use urgyelpat::{BatchRefusal, Cholesky};
///
/// let mut factor = Cholesky::new(vec![4.0, 2.0, 0.0, 5.0], 2)?;
/// // row 2 as a broken probe sent it, and row 3, which contradicts row 0
/// let columns = factor.extend_with_substitute(&[6.0, 5.0, f64::NAN, 4.0, 0.0, 0.0, 1.0], 4.0)?;
/// assert_eq!(columns, 2); // of the batch
/// assert_eq!(factor.substituted(), 2); // of all
/// # Ok::<(), BatchRefusal>(())
/// ```
///
/// Unlike nalgebra's `new_with_substitute`, they say why they refuse (a `Result` and no `Option`), look first for twins, which a
/// substitute would hide, and count the columns that used the substitute.
#[derive(Clone, Debug, Default)]
pub struct Cholesky {
    /// The rows as they came, in a room like the factor's; never factored.
    came: Vec<f64>,
    factor: Vec<f64>,
    room: usize,
    order: usize,
    /// How many of the factor's columns used a substitute.
    substituted: usize,
}

/// Why the calls on an own factor are not refused by size.
const OWN: &str = "an own factor's sizes are accepted";

impl Cholesky {
    /// Factors a matrix of order n, n·n numbers, of which the lower part is read.
    ///
    /// Refused by [`OutOfRange`](Refusal::OutOfRange) and [`MatrixLength`](Refusal::MatrixLength), with the
    /// [first twins](first_twin) of the matrix, and at a diagonal that is [zero](Refusal::CholeskyZero),
    /// [below zero](Refusal::CholeskyBelowZero) or [NaN](Refusal::CholeskyNan).
    ///
    /// ```
    /// use urgyelpat::{BatchRefusal, Cholesky, Twins};
    ///
    /// assert_eq!(Cholesky::new(vec![4.0, 2.0, 0.0, 5.0], 2)?.l(), [2.0, 1.0, 0.0, 2.0]);
    /// let refused = Cholesky::new(vec![2.0, 2.0, 0.0, 2.0], 2);
    /// assert_eq!(refused.unwrap_err(), BatchRefusal::Twins(Twins { p: 0, q: 1 }));
    /// # Ok::<(), BatchRefusal>(())
    /// ```
    pub fn new(matrix: Vec<f64>, n: usize) -> Result<Cholesky, BatchRefusal> {
        Cholesky::without_twins(matrix, n, None)
    }

    /// [`new`](Cholesky::new) for a matrix that may have twins: they are not looked for.
    ///
    /// Refused by [`OutOfRange`](Refusal::OutOfRange) and [`MatrixLength`](Refusal::MatrixLength), and at a diagonal that is
    /// [zero](Refusal::CholeskyZero), [below zero](Refusal::CholeskyBelowZero) or [NaN](Refusal::CholeskyNan); that test meets
    /// some twins and lets others through.
    ///
    /// ```
    /// use urgyelpat::{Cholesky, Refusal};
    ///
    /// let refused = Cholesky::new_insisting(vec![1.0, 1.0, 0.0, 1.0], 2);
    /// assert_eq!(refused.unwrap_err(), Refusal::CholeskyZero { column: 1 });
    /// let refused = Cholesky::new_insisting(vec![3.0, 3.0, 0.0, 3.0], 2);
    /// assert_eq!(refused.unwrap_err(), Refusal::CholeskyBelowZero { column: 1 });
    /// assert!(Cholesky::new_insisting(vec![2.0, 2.0, 0.0, 2.0], 2).is_ok());
    /// ```
    pub fn new_insisting(matrix: Vec<f64>, n: usize) -> Result<Cholesky, Refusal> {
        Cholesky::of(matrix, n, None)
    }

    /// [`new`](Cholesky::new) with a [substitute](#substitutes), which stands in for each diagonal that fails.
    ///
    /// **Look at [`substituted`](Cholesky::substituted) before the factor is used.** Where no diagonal fails it is 0, and the
    /// factor is that of [`new`](Cholesky::new), whatever the substitute.
    ///
    /// Refused by [`OutOfRange`](Refusal::OutOfRange) and [`MatrixLength`](Refusal::MatrixLength), and with the
    /// [first twins](first_twin) of the matrix. At a diagonal it is refused, as [`new`](Cholesky::new) is, only if the
    /// substitute fails too.
    ///
    /// ```
    /// use urgyelpat::{BatchRefusal, Cholesky, Refusal, Twins};
    ///
    /// // the lower rows 1 / 2 1: -3 is left at (1, 1)
    /// let factor = Cholesky::new_with_substitute(vec![1.0, 2.0, 0.0, 1.0], 2, 4.0)?;
    /// assert_eq!(factor.substituted(), 1);
    /// assert_eq!(factor.l(), [1.0, 2.0, 0.0, 2.0]); // the factor of 1 / 2 8
    ///
    /// let refused = Cholesky::new_with_substitute(vec![1.0, 2.0, 0.0, 1.0], 2, -4.0);
    /// assert_eq!(refused.unwrap_err(), BatchRefusal::Refused(Refusal::CholeskyBelowZero { column: 1 }));
    /// let refused = Cholesky::new_with_substitute(vec![1.0, 1.0, 0.0, 1.0], 2, 4.0);
    /// assert_eq!(refused.unwrap_err(), BatchRefusal::Twins(Twins { p: 0, q: 1 }));
    /// # Ok::<(), BatchRefusal>(())
    /// ```
    pub fn new_with_substitute(matrix: Vec<f64>, n: usize, substitute: f64) -> Result<Cholesky, BatchRefusal> {
        Cholesky::without_twins(matrix, n, Some(substitute))
    }

    /// [`new_with_substitute`](Cholesky::new_with_substitute) for a matrix that may have twins: they are not looked for, and a
    /// substitute above zero lets all of them through.
    ///
    /// Refused by [`OutOfRange`](Refusal::OutOfRange) and [`MatrixLength`](Refusal::MatrixLength). At a diagonal it is refused,
    /// as [`new_insisting`](Cholesky::new_insisting) is, only if the substitute fails too.
    ///
    /// ```
    /// use urgyelpat::{Cholesky, Refusal};
    ///
    /// let factor = Cholesky::new_insisting_with_substitute(vec![1.0, 1.0, 0.0, 1.0], 2, 4.0)?;
    /// assert_eq!(factor.l(), [1.0, 1.0, 0.0, 2.0]);
    /// assert_eq!(factor.substituted(), 1);
    ///
    /// // rounding leaves a crumb above zero: no substitute is needed, and the twins are not even counted
    /// let factor = Cholesky::new_insisting_with_substitute(vec![2.0, 2.0, 0.0, 2.0], 2, 4.0)?;
    /// assert_eq!(factor.substituted(), 0);
    /// # Ok::<(), Refusal>(())
    /// ```
    pub fn new_insisting_with_substitute(matrix: Vec<f64>, n: usize, substitute: f64) -> Result<Cholesky, Refusal> {
        Cholesky::of(matrix, n, Some(substitute))
    }

    /// The factor of a matrix that has no twins, with or without a substitute.
    fn without_twins(matrix: Vec<f64>, n: usize, substitute: Option<f64>) -> Result<Cholesky, BatchRefusal> {
        match first_twin(&matrix, n, n)? {
            Some(twins) => Err(BatchRefusal::Twins(twins)),
            None => Ok(Cholesky::of(matrix, n, substitute)?),
        }
    }

    /// The factor of a matrix, with or without a substitute.
    fn of(matrix: Vec<f64>, n: usize, substitute: Option<f64>) -> Result<Cholesky, Refusal> {
        let mut made = Cholesky {
            factor: matrix.clone(),
            came: matrix,
            room: n,
            ..Cholesky::default()
        };
        made.factor_up_to(n, substitute)?;
        Ok(made)
    }

    /// A factor of no rows, with room for some. Refused by [`OutOfRange`](Refusal::OutOfRange).
    pub fn with_room(room: usize) -> Result<Cholesky, Refusal> {
        let mut buffer = vec![0.0; kept(room) * kept(room)];
        factor(&mut buffer, room, 0)?;
        Ok(Cholesky {
            came: buffer.clone(),
            factor: buffer,
            room,
            ..Cholesky::default()
        })
    }

    /// The number of rows.
    pub fn order(&self) -> usize {
        self.order
    }

    /// The number of rows that fit before the next batch takes more memory.
    pub fn room(&self) -> usize {
        self.room
    }

    /// How many of the factor's columns used a [substitute](#substitutes), in all calls that made it.
    ///
    /// Calls without a substitute add nothing, and neither do those in which no diagonal failed. At 0 the factor is what calls
    /// without a substitute give for the same rows; above 0 it is that of another matrix.
    ///
    /// ```
    /// use urgyelpat::{BatchRefusal, Cholesky};
    ///
    /// let mut factor = Cholesky::new_with_substitute(vec![-1.0], 1, 4.0)?; // 4 stands in for -1
    /// factor.extend(&[2.0, 5.0])?; // row 1 leaves 5 - 1
    /// assert_eq!(factor.substituted(), 1);
    /// assert_eq!(factor.extend_with_substitute(&[6.0, 7.0, 8.0], 4.0)?, 1); // row 2 leaves 8 - 9 - 4
    /// assert_eq!(factor.substituted(), 2);
    /// assert_eq!(factor.l(), [2.0, 1.0, 3.0, 0.0, 2.0, 2.0, 0.0, 0.0, 2.0]);
    /// # Ok::<(), BatchRefusal>(())
    /// ```
    pub fn substituted(&self) -> usize {
        self.substituted
    }

    /// Adds a batch of rows, end to end, each up to its diagonal: row i has i + 1 numbers. Takes more room where it must.
    ///
    /// The factor is then the one that a single call gives for the whole matrix, to the bit; where earlier batches came with one
    /// substitute, that is a call with it. Refused by [`OutOfRange`](Refusal::OutOfRange), by
    /// [`SliceLength`](Refusal::SliceLength) if the last row is not whole, with the [first twins](first_twin_since) that the
    /// batch brings, and at a diagonal that is [zero](Refusal::CholeskyZero), [below zero](Refusal::CholeskyBelowZero) or
    /// [NaN](Refusal::CholeskyNan). The factor and the rows are then as they were, without any row of the batch, and only the
    /// room may be larger.
    ///
    /// ```
    /// use urgyelpat::{BatchRefusal, Cholesky, Twins};
    ///
    /// let mut factor = Cholesky::default();
    /// factor.extend(&[2.0])?;
    /// assert_eq!(factor.extend(&[2.0, 2.0]), Err(BatchRefusal::Twins(Twins { p: 0, q: 1 })));
    /// factor.extend(&[1.0, 3.0])?;
    /// assert_eq!(factor.order(), 2);
    /// # Ok::<(), BatchRefusal>(())
    /// ```
    pub fn extend(&mut self, rows: &[f64]) -> Result<(), BatchRefusal> {
        self.add_without_twins(rows, None).map(|_| ())
    }

    /// [`extend`](Cholesky::extend) for a batch that may bring twins: they are not looked for, and a pair that was taken is
    /// not told with later batches.
    ///
    /// Refused by [`OutOfRange`](Refusal::OutOfRange) and [`SliceLength`](Refusal::SliceLength), and at a diagonal that is
    /// [zero](Refusal::CholeskyZero), [below zero](Refusal::CholeskyBelowZero) or [NaN](Refusal::CholeskyNan); that test meets
    /// some twins and lets others through.
    ///
    /// ```
    /// let mut factor = urgyelpat::Cholesky::default();
    /// factor.extend(&[2.0])?;
    /// factor.extend_insisting(&[2.0, 2.0])?; // row 0 again
    /// factor.extend(&[1.0, 1.0, 3.0])?;
    /// assert_eq!(factor.order(), 3);
    /// # Ok::<(), urgyelpat::BatchRefusal>(())
    /// ```
    pub fn extend_insisting(&mut self, rows: &[f64]) -> Result<(), Refusal> {
        self.add(rows, None).map(|_| ())
    }

    /// [`extend`](Cholesky::extend) with a [substitute](#substitutes), which stands in for each diagonal of the batch that fails.
    /// Gives how many columns of the batch used it.
    ///
    /// **Look at the count, or at [`substituted`](Cholesky::substituted), before the factor is used.** Where no diagonal of the
    /// batch fails the count is 0, and the call is [`extend`](Cholesky::extend), whatever the substitute.
    ///
    /// With one substitute for all batches the factor is the one that a single call with it gives for the whole matrix, to the
    /// bit, and the counts of the batches add up to that call's. A batch may have a substitute of its own; then no single call
    /// need give that factor.
    ///
    /// Refused by [`OutOfRange`](Refusal::OutOfRange) and [`SliceLength`](Refusal::SliceLength), and with the
    /// [first twins](first_twin_since) that the batch brings. At a diagonal it is refused, as [`extend`](Cholesky::extend) is,
    /// only if the substitute fails too. The factor, the rows and [`substituted`](Cholesky::substituted) are then as they were,
    /// without any row of the batch, and only the room may be larger.
    ///
    /// ```
    /// use urgyelpat::{BatchRefusal, Cholesky, Refusal, Twins};
    ///
    /// let mut factor = Cholesky::default();
    /// assert_eq!(factor.extend_with_substitute(&[1.0], 4.0)?, 0);
    /// assert_eq!(factor.extend_with_substitute(&[1.0, 1.0], 4.0), Err(BatchRefusal::Twins(Twins { p: 0, q: 1 })));
    /// let refused = Refusal::CholeskyBelowZero { column: 1 };
    /// assert_eq!(factor.extend_with_substitute(&[2.0, 1.0], 0.0), Err(BatchRefusal::Refused(refused)));
    /// assert_eq!((factor.order(), factor.substituted()), (1, 0));
    ///
    /// assert_eq!(factor.extend_with_substitute(&[2.0, 1.0], 4.0)?, 1);
    /// assert_eq!(factor.l(), [1.0, 2.0, 0.0, 2.0]);
    /// # Ok::<(), BatchRefusal>(())
    /// ```
    pub fn extend_with_substitute(&mut self, rows: &[f64], substitute: f64) -> Result<usize, BatchRefusal> {
        self.add_without_twins(rows, Some(substitute))
    }

    /// [`extend_with_substitute`](Cholesky::extend_with_substitute) for a batch that may bring twins: they are not looked for, a
    /// pair that was taken is not told with later batches, and a substitute above zero lets all of them through.
    ///
    /// Refused by [`OutOfRange`](Refusal::OutOfRange) and [`SliceLength`](Refusal::SliceLength). At a diagonal it is refused, as
    /// [`extend_insisting`](Cholesky::extend_insisting) is, only if the substitute fails too.
    ///
    /// ```
    /// let mut factor = urgyelpat::Cholesky::new(vec![1.0], 1)?;
    /// assert_eq!(factor.extend_insisting_with_substitute(&[1.0, 1.0], 4.0)?, 1); // row 0 again
    /// factor.extend(&[1.0, 1.0, 3.0])?;
    /// assert_eq!((factor.order(), factor.substituted()), (3, 1));
    /// # Ok::<(), urgyelpat::BatchRefusal>(())
    /// ```
    pub fn extend_insisting_with_substitute(&mut self, rows: &[f64], substitute: f64) -> Result<usize, Refusal> {
        self.add(rows, Some(substitute))
    }

    /// A batch for [`extend`](Cholesky::extend) without its row q: row q is left out, and so is entry q of each row after it.
    /// Rows are counted in the whole matrix, as in [`Twins`]; those after q have one index less.
    ///
    /// Refused by [`OutOfRange`](Refusal::OutOfRange) as the batch itself is, and by [`SliceLength`](Refusal::SliceLength) if
    /// its last row is not whole or row q is none of its rows.
    ///
    /// ```
    /// use urgyelpat::{Cholesky, Refusal};
    ///
    /// let mut factor = Cholesky::default();
    /// factor.extend(&[4.0])?;
    /// let batch = [2.0, 5.0, 6.0, 7.0, 14.0]; // rows 1 and 2
    /// assert_eq!(factor.batch_without(&batch, 1)?, [6.0, 14.0]);
    /// assert_eq!(factor.batch_without(&batch, 2)?, [2.0, 5.0]);
    /// assert_eq!(factor.batch_without(&batch, 0), Err(Refusal::SliceLength));
    /// # Ok::<(), urgyelpat::BatchRefusal>(())
    /// ```
    pub fn batch_without(&self, rows: &[f64], q: usize) -> Result<Vec<f64>, Refusal> {
        batch_without(self.order, rows, q)
    }

    /// Adds a batch that brings no twins, with or without a substitute. Gives how many of its columns used it.
    fn add_without_twins(&mut self, rows: &[f64], substitute: Option<f64>) -> Result<usize, BatchRefusal> {
        let n = self.place(rows)?;
        match first_twin_since(&self.came, self.room, self.order, n)? {
            Some(twins) => Err(BatchRefusal::Twins(twins)),
            None => Ok(self.factor_up_to(n, substitute)?),
        }
    }

    /// Adds a batch, with or without a substitute. Gives how many of its columns used it.
    fn add(&mut self, rows: &[f64], substitute: Option<f64>) -> Result<usize, Refusal> {
        let n = self.place(rows)?;
        self.factor_up_to(n, substitute)
    }

    /// Writes a batch behind the rows that stand, and gives the order with it.
    fn place(&mut self, rows: &[f64]) -> Result<usize, Refusal> {
        let n = order_with(self.order, rows.len())?;
        if n > self.room {
            self.set_room(n.max(2 * self.room).min(LARGEST));
        }
        for (i, row) in each_row(rows, self.order..n) {
            for (j, entry) in row.iter().enumerate() {
                self.came[i + j * self.room] = *entry;
                self.factor[i + j * self.room] = *entry;
            }
        }
        Ok(n)
    }

    /// Factors the rows that were placed, which makes the order n. Gives how many of their columns used the substitute.
    fn factor_up_to(&mut self, n: usize, substitute: Option<f64>) -> Result<usize, Refusal> {
        let used = match substitute {
            Some(floor) => extend_floored(&mut self.factor, self.room, self.order, n, floor)?,
            None => extend(&mut self.factor, self.room, self.order, n).map(|()| 0)?,
        };
        self.order = n;
        self.substituted += used;
        Ok(used)
    }

    /// Moves the rows and the factor into another room, which is at least the order.
    fn set_room(&mut self, room: usize) {
        self.came = moved(&self.came, self.order, self.room, room);
        self.factor = moved(&self.factor, self.order, self.room, room);
        self.room = room;
    }

    /// The solution of A·X = B. `b` has n numbers for each right-hand side, one after the other.
    ///
    /// The solution of a right-hand side depends on the factor and that side alone, by [these steps](solve_mut). They are this
    /// project's own, so the last bits may differ from those of nalgebra's `Cholesky::solve`. Refused by
    /// [`OutOfRange`](Refusal::OutOfRange) and [`SliceLength`](Refusal::SliceLength) for `b`, and by nothing else.
    ///
    /// ```
    /// let factor = urgyelpat::Cholesky::new(vec![4.0, 2.0, 0.0, 5.0], 2)?;
    /// assert_eq!(factor.solve(&[8.0, 11.0])?, [1.125, 1.75]);
    /// # Ok::<(), urgyelpat::BatchRefusal>(())
    /// ```
    pub fn solve(&self, b: &[f64]) -> Result<Vec<f64>, Refusal> {
        let mut x = b.to_vec();
        self.solve_mut(&mut x)?;
        Ok(x)
    }

    /// [`solve`](Cholesky::solve) in place; a refusal leaves `b` as it was.
    ///
    /// ```
    /// use urgyelpat::{Cholesky, Refusal};
    ///
    /// let mut factor = Cholesky::default();
    /// factor.extend(&[4.0])?; // row 0
    /// let mut sides = [8.0, 2.0, 11.0];
    /// factor.solve_mut(&mut sides)?;
    /// assert_eq!(sides, [2.0, 0.5, 2.75]);
    ///
    /// factor.extend(&[2.0, 5.0])?; // row 1: a right-hand side has two numbers
    /// assert_eq!(factor.solve_mut(&mut sides), Err(Refusal::SliceLength));
    /// assert_eq!(sides, [2.0, 0.5, 2.75]);
    /// # Ok::<(), urgyelpat::BatchRefusal>(())
    /// ```
    pub fn solve_mut(&self, b: &mut [f64]) -> Result<(), Refusal> {
        let columns = whole_columns(b.len(), self.order);
        solve_mut(&self.factor, b, self.room, self.order, columns)
    }

    /// The factor L, n·n numbers, zero above the diagonal.
    pub fn l(&self) -> Vec<f64> {
        let mut filled = vec![0.0; self.order * self.order];
        l(&self.factor, &mut filled, self.room, self.order).expect(OWN);
        filled
    }

    /// The factor L, n·n numbers, zero above the diagonal, in the memory of this one where its room is its order.
    ///
    /// ```
    /// let factor = urgyelpat::Cholesky::new(vec![4.0, 2.0, 7.0, 5.0], 2)?;
    /// assert_eq!(factor.unpack(), [2.0, 1.0, 0.0, 2.0]);
    /// # Ok::<(), urgyelpat::BatchRefusal>(())
    /// ```
    pub fn unpack(self) -> Vec<f64> {
        let n = self.order;
        let mut l = if self.room == n {
            self.factor
        } else {
            moved(&self.factor, n, self.room, n)
        };
        unpack(&mut l, n, n).expect(OWN);
        l
    }

    /// The determinant of the factored matrix; 1 for order 0.
    pub fn determinant(&self) -> f64 {
        determinant(&self.factor, self.room, self.order).expect(OWN)
    }
}

/// The first n rows and columns of a buffer of one room, in a buffer of another.
fn moved(buffer: &[f64], n: usize, room: usize, other: usize) -> Vec<f64> {
    let mut there = vec![0.0; other * other];
    for j in 0..n {
        there[j * other..j * other + n].copy_from_slice(&buffer[j * room..j * room + n]);
    }
    there
}
