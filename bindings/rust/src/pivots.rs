//! LAPACK's pivot lists, read to the pivot record of an LBLT factor and written from one.
//!
//! LAPACK's `dsytrf` and `dsytf2` say their pivots by IPIV, a list of n signed numbers, and by INFO. [`from_lapack`] reads them
//! into a record (its words and its rule stand in [`lblt`](crate::lblt)), and [`to_lapack`] writes a record so. For the lower
//! triangle (UPLO = 'L'), rows counted from 1:
//!
//! - p > 0 at row k is a block of size 1, with rows k and p exchanged. In the record it is the pair (p − 1, 1).
//! - −p at row k and again at row k + 1 is a block of size 2, with rows k + 1 and p exchanged: the pair (p − 1, 2) at both.
//! - INFO, 0 or the row of the first diagonal that is exactly zero, is the mark's word, number for number.
//!
//! The list is judged by the rule of the record that it stands for: block by block from the first row on, and then INFO, which
//! is 0 or a row k at which the list has k itself. So a list is read exactly if some record that keeps the rule is written so.
//! From such a record to its list and back is the same record, its run number too; from such a list to its record and back is
//! the same list, with the same INFO.
//!
//! INFO and the mark need not mean the same. LAPACK says of INFO that this diagonal of D is the first that is exactly zero; the
//! mark is the first row at which a factor call found no pivot. For the lower rows 0 / 2⁻⁶⁰⁰ 0 / 0 2⁶⁰⁰ 0 the mark is row 2,
//! counted from 0, and is written as INFO 3, though the factor has a zero at row 0. A list whose INFO is not 0 gives a marked
//! record, which a solve refuses by [`ZeroMark`](Refusal::ZeroMark).
//!
//! # Which lists
//!
//! The factor beside a list is taken as it is. By LAPACK's documentation it stands in the lower part as that of
//! [`lblt::factor`](crate::lblt::factor) does (compared, not proved), if `dsytrf` or `dsytf2` wrote it with UPLO = 'L' and
//! LDA = n (or its columns are copied together so), and IPIV has 32-bit integers. Use it where INFO is 0. With another INFO a
//! solve is refused, and `determinant`, `d` and `l_permuted` are not: where `dsytrf` works by blocks it may leave in that column
//! what is not its D and L. **Never** hand in lists of UPLO = 'U', nor those of `dsytrf_rook`, `dsytrf_rk` and `dsytrf_aa`: they
//! can mean other things, and are not always refused, those of `dsytrf_aa` hardly ever. docs/DIFFERENCES.md of the repository
//! has what was seen.

use crate::ffi;
use crate::refusal::{done, Refusal};

/// Reads a LAPACK pivot list (n numbers) and its INFO into a pivot record (2n + 2 words), with `run` at its end: the number
/// that is then expected where the factor is read. The page of the module says [which lists](self#which-lists) may be handed
/// in.
///
/// Every `i32` is a content: a 0 in the list, `i32::MIN`, an INFO below 0 (by which LAPACK says that it factored nothing) and
/// one above n are refused by [`BadList`](Refusal::BadList). It names the first row of the first broken block, counted from 0,
/// or n for INFO.
///
/// Refused by [`OutOfRange`](Refusal::OutOfRange), [`SliceLength`](Refusal::SliceLength), [`BadList`](Refusal::BadList). The
/// record is then as it was.
///
/// ```
/// use urgyelpat::{lblt, pivots, Refusal};
///
/// // dsytrf's factor of the lower rows 0 / 1 0, and what it says of its pivots
/// let (a, list, info) = ([0.0, 1.0, 0.0, 0.0], [-2, -2], 0);
/// let mut record = [0; 6];
/// pivots::from_lapack(&list, info, &mut record, 2, 1116)?; // in run 1116
/// assert_eq!(record, [1, 2, 1, 2, 0, 1116]);
/// let mut b = [3.0, 5.0];
/// lblt::solve_mut(&a, &record, &mut b, 2, 1, 1116)?;
/// assert_eq!(b, [5.0, 3.0]);
///
/// // half a block of two
/// let refused = pivots::from_lapack(&[-2, 2], 0, &mut record, 2, 1117);
/// assert_eq!(refused, Err(Refusal::BadList { row: 0 }));
/// // row 1, counted from 1, is exchanged with row 2: it cannot be one without a pivot
/// let refused = pivots::from_lapack(&[2, 2], 1, &mut record, 2, 1117);
/// assert_eq!(refused, Err(Refusal::BadList { row: 2 }));
/// assert_eq!(record, [1, 2, 1, 2, 0, 1116]);
/// # Ok::<(), Refusal>(())
/// ```
pub fn from_lapack(list: &[i32], info: i32, record: &mut [u32], n: usize, run: u32) -> Result<(), Refusal> {
    // SAFETY: each pointer and length are a slice's, and what is written is borrowed alone.
    done(unsafe {
        ffi::urgyelpat_pivots_from_lapack(
            list.as_ptr(),
            list.len(),
            info,
            record.as_mut_ptr(),
            record.len(),
            n,
            run,
        )
    })
}

/// What [`to_lapack`] gives beside the list.
#[derive(Clone, Copy, Debug, PartialEq, Eq, Hash)]
pub struct Listed {
    /// INFO: 0, or the marked row, counted from 1.
    pub info: i32,
    /// The run number of the record.
    pub run: u32,
}

/// Writes a pivot record as LAPACK's list (n numbers), and gives its INFO and the record's run number. No run number is
/// expected: compare the one that is given with your own. A marked record is accepted.
///
/// Refused by [`OutOfRange`](Refusal::OutOfRange), [`SliceLength`](Refusal::SliceLength), [`BadRecord`](Refusal::BadRecord).
/// The list is then as it was.
///
/// ```
/// use urgyelpat::pivots::{self, Listed};
///
/// // row 0 was exchanged with row 1, and then row 1 had no pivot
/// let mut list = [0; 2];
/// let listed = pivots::to_lapack(&[1, 1, 1, 1, 2, 1116], &mut list, 2)?;
/// assert_eq!(list, [2, 2]);
/// assert_eq!(listed, Listed { info: 2, run: 1116 });
/// # Ok::<(), urgyelpat::Refusal>(())
/// ```
pub fn to_lapack(record: &[u32], list: &mut [i32], n: usize) -> Result<Listed, Refusal> {
    // SAFETY: each pointer and length are a slice's, and what is written is borrowed alone.
    let ffi::Listed { answer, info, run } =
        unsafe { ffi::urgyelpat_pivots_to_lapack(record.as_ptr(), record.len(), list.as_mut_ptr(), list.len(), n) };
    done(answer).map(|()| Listed { info, run })
}
