//! LBLT, Cholesky and UDU factors of symmetric `f64` matrices: nalgebra's, proved to the bit against its steps as this project
//! wrote them down, and compared with its text. Cholesky's solve has steps of this project's own.
//!
//! This crate is a safe face of `liburgyelpat.a`. Each call of that library is proved, on every input, to give the answer and
//! to leave the slices that its page here and docs/PROMISES.md of the repository say. What this crate adds is tested and not
//! proved. What is said to hold *on paper* holds for exact numbers: that a factor multiplies back, or that a solution solves,
//! up to rounding, is not proved, and is not true of every matrix.
//!
//! ```
//! use urgyelpat::LBLT;
//!
//! // the symmetric matrix with the lower rows 4 / 2 3, column by column; the entry above the diagonal is not read.
//! // 1116 is the run number: any number that you give to this run
//! let factor = LBLT::new(vec![4.0, 2.0, 0.0, 3.0], 2, 1116)?;
//! assert_eq!(factor.determinant(), 8.0);
//! assert_eq!(factor.solve(&[8.0, 8.0])?, [1.0, 2.0]);
//! # Ok::<(), urgyelpat::Refusal>(())
//! ```
//!
//! # Two faces
//!
//! - [`LBLT`], [`Cholesky`] and [`UDU`] own their numbers and carry nalgebra's names; so do [`PackedLBLT`] and [`PackedCholesky`].
//! - The modules [`lblt`], [`pivots`], [`cholesky`], [`packed`] and [`udu`] have a function for each call of the library, over slices
//!   that the caller lends; two stand at the crate's root, in no module: [`first_twin`] and [`first_twin_since`]. They take no
//!   memory. [`handheld`] has two that take and give their numbers by value.
//!
//! # Matrices
//!
//! A matrix stands column by column: entry (i, j) of an n-by-n matrix is at `i + j * n`. In a Cholesky room s it is at
//! `i + j * s`, and what is outside the first n rows and columns is kept. Of a symmetric matrix LBLT, Cholesky and the search
//! for twins look at the entries with i ≥ j alone, UDU at those with i ≤ j. Orders, rooms and column counts go up to
//! [`LARGEST`], the order of the [teaching engine](cholesky::teaching) up to [`TEACHING_LARGEST`], that of a [tray](lblt::tray) up
//! to [`TRAY_ORDER_LARGEST`] and its items up to [`TRAY_COUNT_LARGEST`]. Every `f64` is a content, infinities and NaN too; which
//! NaN a result holds is not promised.
//!
//! # Packed triangles
//!
//! Half of a full symmetric matrix is an upper part that LBLT and Cholesky never read. [`PackedLBLT`], [`PackedCholesky`] and the
//! functions of [`packed`] work on the lower part alone, in n(n + 1)/2 numbers, and give the same bits, records, codes and places
//! as the full layout (proved of the library's calls). Take them where memory counts, or where the numbers come packed;
//! [`packed::pack`] and [`packed::unpack`] lead from one layout to the other. They have no room for rows to come, so that each
//! batch of a Cholesky makes new buffers, and no `solve_bench`, `d`, `l_permuted` nor, for Cholesky, `determinant`: for these
//! unpack the factor. UDU, a Cholesky with a [substitute](Cholesky#substitutes) and the [teaching engine](cholesky::teaching) are
//! in the full layout alone.
//!
//! # A tray
//!
//! Many small systems of one order, each with one right-hand side, are factored and solved in one call by [`lblt::tray`], over
//! slices in which they stand end to end. Item by item it leaves what [`lblt::factor`] and [`lblt::solve_mut`] leave (proved of the
//! library's calls), and gives a `Result` for each: where one is refused, those beside it are solved.
//!
//! # Three unknowns
//!
//! A probe that solves three unknowns has no buffers to lend. The functions of [`handheld`] take and give `[[f64; 3]; 3]`,
//! pivots and `[f64; 3]` by value, and give the same bits, pivots, codes and places as [`lblt`] with order 3 and one column
//! (proved of the library's calls). They have no run number.
//!
//! # Where it runs
//!
//! The library is compiled for x86-64 Linux. The build takes it from the folder that `URGYELPAT_LIB_DIR` names, or from
//! target/staticlib of the repository, where `./staticlib urgyelpat` writes it.

#![warn(missing_docs)]

mod batch;
mod ffi;
mod record;
mod refusal;

pub mod cholesky;
pub mod handheld;
pub mod lblt;
pub mod packed;
pub mod pivots;
pub mod udu;

mod packed_cholesky;
mod packed_lblt;
mod tray;
mod twins;

pub use cholesky::{BatchRefusal, Cholesky};
pub use lblt::{LapackPivots, LBLT};
pub use packed_cholesky::PackedCholesky;
pub use packed_lblt::PackedLBLT;
pub use refusal::Refusal;
pub use twins::{first_twin, first_twin_since, Twins};
pub use udu::UDU;

/// The largest order, room and column count.
pub const LARGEST: usize = 1024;

/// The largest order of the teaching engine, [`cholesky::teaching`].
pub const TEACHING_LARGEST: usize = 64;

/// The largest order of a tray, [`lblt::tray`].
pub const TRAY_ORDER_LARGEST: usize = 64;

/// The most items that a tray, [`lblt::tray`], can have.
pub const TRAY_COUNT_LARGEST: usize = 1024;

/// The order to take memory for: 0 above [`LARGEST`], where a call is refused before it looks at a length.
fn kept(order: usize) -> usize {
    if order <= LARGEST {
        order
    } else {
        0
    }
}

/// How many whole columns of an order stand in so many numbers. A rest is refused by the call, since the slice is then longer
/// than the columns.
fn whole_columns(numbers: usize, order: usize) -> usize {
    numbers.checked_div(order).unwrap_or(0)
}
