//! LBLT and Cholesky on a packed lower triangle: half the memory, and the same numbers.
//!
//! A packed matrix of order n has n(n + 1)/2 numbers: its columns one after the other, each from its diagonal down. Entry (i, j)
//! with i ≥ j is at `i + j * (2 * n - j - 1) / 2`, which [`place`] works out; above the diagonal nothing stands. [`pack`] makes
//! it of a matrix of n·n numbers and [`unpack`] leads back.
//!
//! No result depends on the layout. Unpacked, what a call leaves here is the lower part of what the same call of the full layout
//! leaves ([`lblt::factor`](crate::lblt::factor) for [`lblt_factor`], and so on; a Cholesky's room is then its order), with the
//! same refusal at the same place; and the record, the right-hand sides, the determinant and the twins that are told are the
//! same (proved; all NaNs count as one). So a pivot record fits its factor in either layout.
//!
//! A packed matrix has no room beyond its order: [`cholesky_extend`] fills a new one.

use crate::refusal::{done, value, Refusal};
use crate::twins::{pair, Twins};
use crate::{ffi, LARGEST};

/// How many numbers a packed matrix of order n has: n(n + 1)/2, or `usize::MAX` where that is no `usize`.
///
/// ```
/// let triangle = [0.0; urgyelpat::packed::length(3)];
/// assert_eq!(triangle.len(), 6);
/// ```
pub const fn length(n: usize) -> usize {
    if n % 2 == 0 {
        (n / 2).saturating_mul(n + 1)
    } else {
        (n / 2 + 1).saturating_mul(n)
    }
}

/// Where entry (i, j) of a packed matrix of order n stands. Panics where there is no such entry: unless j ≤ i < n, and n is at
/// most [`LARGEST`].
///
/// ```
/// use urgyelpat::packed::place;
///
/// // column 0, then column 1, then column 2, each from its diagonal down
/// assert_eq!([place(3, 0, 0), place(3, 1, 0), place(3, 2, 0)], [0, 1, 2]);
/// assert_eq!([place(3, 1, 1), place(3, 2, 1)], [3, 4]);
/// assert_eq!(place(3, 2, 2), 5);
/// ```
pub const fn place(n: usize, i: usize, j: usize) -> usize {
    assert!(n <= LARGEST, "an order above the largest");
    assert!(j <= i && i < n, "an entry that a packed matrix does not have");
    i + j * (2 * n - j - 1) / 2
}

/// The lower part of a matrix of order n, n·n numbers column by column, packed. Above the diagonal nothing is read.
///
/// Refused by [`OutOfRange`](Refusal::OutOfRange) and [`MatrixLength`](Refusal::MatrixLength).
///
/// ```
/// use urgyelpat::{packed, Refusal};
///
/// assert_eq!(packed::pack(&[4.0, 2.0, 7.0, 3.0], 2)?, [4.0, 2.0, 3.0]);
/// assert_eq!(packed::pack(&[4.0, 2.0, 7.0], 2), Err(Refusal::MatrixLength));
/// # Ok::<(), Refusal>(())
/// ```
pub fn pack(full: &[f64], n: usize) -> Result<Vec<f64>, Refusal> {
    if n > LARGEST {
        return Err(Refusal::OutOfRange);
    }
    if full.len() != n * n {
        return Err(Refusal::MatrixLength);
    }
    Ok((0..n).flat_map(|j| &full[j + j * n..(j + 1) * n]).copied().collect())
}

/// A packed matrix of order n as one of n·n numbers column by column, +0 above the diagonal.
///
/// Refused by [`OutOfRange`](Refusal::OutOfRange) and [`MatrixLength`](Refusal::MatrixLength).
///
/// ```
/// use urgyelpat::{packed, Refusal};
///
/// assert_eq!(packed::unpack(&[4.0, 2.0, 3.0], 2)?, [4.0, 2.0, 0.0, 3.0]);
/// assert_eq!(packed::unpack(&[4.0, 2.0, 7.0, 3.0], 2), Err(Refusal::MatrixLength));
/// # Ok::<(), Refusal>(())
/// ```
pub fn unpack(packed: &[f64], n: usize) -> Result<Vec<f64>, Refusal> {
    if n > LARGEST {
        return Err(Refusal::OutOfRange);
    }
    if packed.len() != length(n) {
        return Err(Refusal::MatrixLength);
    }
    let mut full = vec![0.0; n * n];
    for j in 0..n {
        full[j + j * n..(j + 1) * n].copy_from_slice(column(packed, n, j));
    }
    Ok(full)
}

/// Column j of a packed matrix of order n, from its diagonal down.
fn column(packed: &[f64], n: usize, j: usize) -> &[f64] {
    &packed[place(n, j, j)..=place(n, n - 1, j)]
}

/// The packed matrix of order n whose first rows are those of `old`, of order `earlier`, and whose further rows are `rows`, end
/// to end.
pub(crate) fn grown(old: &[f64], rows: &[f64], earlier: usize, n: usize) -> Vec<f64> {
    let mut all = Vec::with_capacity(length(n));
    for j in 0..n {
        if j < earlier {
            all.extend_from_slice(column(old, earlier, j));
        }
        // row i begins behind the rows from `earlier` to i - 1
        all.extend((earlier.max(j)..n).map(|i| rows[length(i) - length(earlier) + j]));
    }
    all
}

/// [`lblt::factor`](crate::lblt::factor) on a packed matrix: factors `a` (n(n + 1)/2 numbers) in place and writes its pivot
/// record (2n + 2 words), with `run` at its end.
///
/// Refused by [`OutOfRange`](Refusal::OutOfRange), [`MatrixLength`](Refusal::MatrixLength),
/// [`SliceLength`](Refusal::SliceLength). Both slices are then as they were.
///
/// ```
/// let (mut a, mut record) = ([0.0, 1.0, 4.0], [0; 6]); // the lower rows 0 / 1 4
/// urgyelpat::packed::lblt_factor(&mut a, &mut record, 2, 1116)?; // in run 1116
/// assert_eq!(a, [4.0, 0.25, -0.25]);
/// assert_eq!(record, [1, 1, 1, 1, 0, 1116]);
/// # Ok::<(), urgyelpat::Refusal>(())
/// ```
pub fn lblt_factor(a: &mut [f64], record: &mut [u32], n: usize, run: u32) -> Result<(), Refusal> {
    // SAFETY: each pointer and length are a slice's, and what is written is borrowed alone.
    done(unsafe {
        ffi::urgyelpat_packed_lblt_factor(a.as_mut_ptr(), a.len(), record.as_mut_ptr(), record.len(), n, run)
    })
}

/// [`lblt::solve_mut`](crate::lblt::solve_mut) by a packed factor: solves A·X = B in `b` (n·columns numbers), by a factor
/// (n(n + 1)/2 numbers) and its record, which is expected to be of the run `run`.
///
/// Refused by [`OutOfRange`](Refusal::OutOfRange), [`MatrixLength`](Refusal::MatrixLength),
/// [`SliceLength`](Refusal::SliceLength), [`BadRecord`](Refusal::BadRecord), [`OtherRun`](Refusal::OtherRun),
/// [`ZeroMark`](Refusal::ZeroMark), which names a row of the factor: [`callers_row`](crate::lblt::callers_row) gives yours. `b`
/// is then as it was.
///
/// ```
/// use urgyelpat::{packed, Refusal};
///
/// let (a, mondays) = ([0.0, 1.0, 0.0], [1, 2, 1, 2, 0, 1116]);
/// let mut b = [3.0, 5.0];
/// // on Tuesday run 1117 is expected, and Monday's record is refused
/// assert_eq!(packed::lblt_solve(&a, &mondays, &mut b, 2, 1, 1117), Err(Refusal::OtherRun));
/// assert_eq!(b, [3.0, 5.0]);
///
/// packed::lblt_solve(&a, &mondays, &mut b, 2, 1, 1116)?;
/// assert_eq!(b, [5.0, 3.0]);
/// # Ok::<(), Refusal>(())
/// ```
pub fn lblt_solve(a: &[f64], record: &[u32], b: &mut [f64], n: usize, columns: usize, run: u32) -> Result<(), Refusal> {
    // SAFETY: each pointer and length are a slice's, and what is written is borrowed alone.
    done(unsafe {
        ffi::urgyelpat_packed_lblt_solve(
            a.as_ptr(),
            a.len(),
            record.as_ptr(),
            record.len(),
            b.as_mut_ptr(),
            b.len(),
            n,
            columns,
            run,
        )
    })
}

/// [`lblt::determinant`](crate::lblt::determinant) by a packed factor (n(n + 1)/2 numbers) and its record, which is expected to
/// be of the run `run`; 1 for order 0.
///
/// Refused by [`OutOfRange`](Refusal::OutOfRange), [`MatrixLength`](Refusal::MatrixLength),
/// [`SliceLength`](Refusal::SliceLength), [`BadRecord`](Refusal::BadRecord), [`OtherRun`](Refusal::OtherRun).
///
/// ```
/// use urgyelpat::{packed, Refusal};
///
/// let a = [0.0, 1.0, 0.0];
/// assert_eq!(packed::lblt_determinant(&a, &[1, 2, 1, 2, 0, 1116], 2, 1116), Ok(-1.0));
/// assert_eq!(packed::lblt_determinant(&a, &[1, 2, 9, 2, 0, 1116], 2, 1116), Err(Refusal::BadRecord { row: 0 }));
/// ```
pub fn lblt_determinant(a: &[f64], record: &[u32], n: usize, run: u32) -> Result<f64, Refusal> {
    // SAFETY: each pointer and length are a slice's.
    value(unsafe { ffi::urgyelpat_packed_lblt_determinant(a.as_ptr(), a.len(), record.as_ptr(), record.len(), n, run) })
}

/// [`cholesky::factor`](crate::cholesky::factor) on a packed matrix: factors `a` (n(n + 1)/2 numbers) in place.
///
/// Refused by [`OutOfRange`](Refusal::OutOfRange), [`MatrixLength`](Refusal::MatrixLength), and at the first column j whose
/// updated diagonal is [zero](Refusal::CholeskyZero), [below zero](Refusal::CholeskyBelowZero) or
/// [NaN](Refusal::CholeskyNan). The columns before j are then finished, column j is updated and not divided, and later columns
/// are as given.
///
/// ```
/// let mut a = [4.0, 2.0, 5.0]; // the lower rows 4 / 2 5
/// urgyelpat::packed::cholesky_factor(&mut a, 2)?;
/// assert_eq!(a, [2.0, 1.0, 2.0]);
/// # Ok::<(), urgyelpat::Refusal>(())
/// ```
pub fn cholesky_factor(a: &mut [f64], n: usize) -> Result<(), Refusal> {
    // SAFETY: the pointer and the length are a slice's, which is borrowed alone.
    done(unsafe { ffi::urgyelpat_packed_cholesky_factor(a.as_mut_ptr(), a.len(), n) })
}

/// [`cholesky::extend`](crate::cholesky::extend) on packed matrices: fills `fresh` (n(n + 1)/2 numbers) with the factor that
/// `old`, the factor of the first `earlier` rows, becomes with the rows `earlier..n`.
///
/// `rows` has these end to end, each up to its diagonal, i + 1 numbers for row i: unlike the columns of a packed matrix. `old`
/// and `rows` stay as they are. The batches of a matrix give what one call on the whole gives, to the bit, and are refused by
/// the same code at the same row. A row that came twice is often not refused: ask [`first_twin`] first, of the rows as they
/// came and not of a factor. [`PackedCholesky`](crate::PackedCholesky) keeps the rows and asks by itself.
///
/// Refused by [`OutOfRange`](Refusal::OutOfRange), by [`OrderAboveRoom`](Refusal::OrderAboveRoom) if `earlier` is above n, by
/// [`MatrixLength`](Refusal::MatrixLength) for `old` and [`SliceLength`](Refusal::SliceLength) for `rows` and `fresh`, which is
/// then as it was; and at a diagonal from column `earlier` on as [`cholesky_factor`] is. Then `fresh` has the rows of `old`, and
/// the further ones as that call leaves them.
///
/// ```
/// use urgyelpat::{packed, Refusal};
///
/// let mut fresh = [0.0; 6];
/// packed::cholesky_extend(&[2.0], &[2.0, 5.0, 6.0, 5.0, 14.0], &mut fresh, 1, 3)?; // rows 1 and 2
/// assert_eq!(fresh, [2.0, 1.0, 3.0, 2.0, 1.0, 2.0]);
///
/// let refused = packed::cholesky_extend(&[2.0], &[2.0, 1.0], &mut fresh[..3], 1, 2);
/// assert_eq!(refused, Err(Refusal::CholeskyZero { column: 1 }));
/// assert_eq!(fresh[..3], [2.0, 1.0, 0.0]);
/// # Ok::<(), Refusal>(())
/// ```
pub fn cholesky_extend(old: &[f64], rows: &[f64], fresh: &mut [f64], earlier: usize, n: usize) -> Result<(), Refusal> {
    // SAFETY: each pointer and length are a slice's, and what is written is borrowed alone.
    done(unsafe {
        ffi::urgyelpat_packed_cholesky_extend(
            old.as_ptr(),
            old.len(),
            rows.as_ptr(),
            rows.len(),
            fresh.as_mut_ptr(),
            fresh.len(),
            earlier,
            n,
        )
    })
}

/// [`cholesky::solve_mut`](crate::cholesky::solve_mut) by a packed factor: solves A·X = B in `b` (n·columns numbers), by the
/// factor that stands in `a` (n(n + 1)/2 numbers). No number of the factor is refused.
///
/// Refused by [`OutOfRange`](Refusal::OutOfRange), [`MatrixLength`](Refusal::MatrixLength),
/// [`SliceLength`](Refusal::SliceLength). `b` is then as it was.
///
/// ```
/// let mut b = [8.0, 11.0];
/// urgyelpat::packed::cholesky_solve(&[2.0, 1.0, 2.0], &mut b, 2, 1)?;
/// assert_eq!(b, [1.125, 1.75]);
/// # Ok::<(), urgyelpat::Refusal>(())
/// ```
pub fn cholesky_solve(a: &[f64], b: &mut [f64], n: usize, columns: usize) -> Result<(), Refusal> {
    // SAFETY: each pointer and length are a slice's, and what is written is borrowed alone.
    done(unsafe { ffi::urgyelpat_packed_cholesky_solve(a.as_ptr(), a.len(), b.as_mut_ptr(), b.len(), n, columns) })
}

/// [`first_twin`](crate::first_twin) of a packed matrix (n(n + 1)/2 numbers): the first twin rows, with the least q, and then the
/// least p.
///
/// **`a` has to hold the rows as they came**, and no factor. The call always looks from row 0 on: where twins stand that were
/// kept, it tells them and not those that a later batch brings behind them. There [`unpack`] the rows and ask
/// [`first_twin_since`](crate::first_twin_since), as [`PackedCholesky`](crate::PackedCholesky) does by itself.
///
/// Refused by [`OutOfRange`](Refusal::OutOfRange) and [`MatrixLength`](Refusal::MatrixLength).
///
/// ```
/// use urgyelpat::{packed, Twins};
///
/// assert_eq!(packed::first_twin(&[4.0, 2.0, 3.0], 2)?, None);
/// assert_eq!(packed::first_twin(&[2.0, 2.0, 2.0], 2)?, Some(Twins { p: 0, q: 1 }));
/// # Ok::<(), urgyelpat::Refusal>(())
/// ```
pub fn first_twin(a: &[f64], n: usize) -> Result<Option<Twins>, Refusal> {
    // SAFETY: the pointer and the length are a slice's.
    pair(unsafe { ffi::urgyelpat_packed_first_twin(a.as_ptr(), a.len(), n) })
}
