//! LBLT of three unknowns, by value, for a probe that has no buffers to lend.
//!
//! A matrix is three columns of three numbers: entry (i, j) is `matrix[j][i]`. Matrix, pivots and right-hand side are passed and
//! returned by value, and no memory is taken.
//!
//! Proved of the library's two calls, beside [`lblt::factor`] and [`lblt::solve_mut`] with order 3, one column and one run number
//! on the same numbers, column by column: the same lower entries, pivots and mark, the same refusal, and the same solution, to
//! the bit. The three numbers above the diagonal come back unchanged. There is no run number, so that yesterday's pivots are not
//! told from today's: keep a factor and its pivots together, as [`Factored`] does.
//!
//! ```
//! use urgyelpat::handheld;
//!
//! // the symmetric matrix with the lower rows 4 / 2 5 / 6 5 14, column by column; above the diagonal nothing is looked at
//! let factor = handheld::factor([[4.0, 2.0, 6.0], [0.0, 5.0, 5.0], [0.0, 0.0, 14.0]]);
//! assert_eq!(factor.solve([26.0, 27.0, 58.0])?, [1.0, 2.0, 3.0]);
//! # Ok::<(), urgyelpat::Refusal>(())
//! ```

use std::fmt;

use crate::ffi::{self, Column3, Factored3, Matrix3, Pivots3, Solved3};
use crate::lblt;
use crate::refusal::{done, Refusal};

/// The pivots of a factor: what a [pivot record](lblt) of order 3 holds, without its run number. The rule is the record's.
///
/// They are plain words, to be stored with the factor and read again: [`solve`] checks them.
#[derive(Clone, Copy, Debug, PartialEq, Eq, Hash)]
pub struct Pivots {
    /// The index of each row's pivot.
    pub index: [u32; 3],
    /// The size of each row's pivot, 1 or 2.
    pub size: [u32; 3],
    /// The mark: 0, or marked row + 1.
    pub mark: u32,
}

impl Pivots {
    /// The row that the mark names: the first row of the factor that has no pivot, as
    /// [`LBLT::zero_pivot`](crate::LBLT::zero_pivot) has it. A solve refuses it.
    pub fn zero_pivot(&self) -> Option<usize> {
        (self.mark as usize).checked_sub(1)
    }

    /// The row of the given matrix that stands at a row of the factor, by pivots that [`factor`] gave.
    ///
    /// ```
    /// use urgyelpat::handheld::Pivots;
    ///
    /// // row 0 was exchanged with row 1, and then row 1 had no pivot
    /// let pivots = Pivots { index: [1, 1, 2], size: [1, 1, 1], mark: 2 };
    /// assert_eq!(pivots.zero_pivot(), Some(1));
    /// assert_eq!(pivots.callers_row(1), 0);
    /// ```
    pub fn callers_row(&self, row: usize) -> usize {
        let Pivots { index, size, .. } = self;
        lblt::callers_row(&[index[0], size[0], index[1], size[1], index[2], size[2]], 3, row)
    }
}

/// A factored matrix of order 3 with its pivots: [`factor`] gives it.
///
/// ```
/// use urgyelpat::{handheld, Refusal};
///
/// // the lower rows 1 / 2 4 / 0 0 3: row 1 is brought to the top, and what is left of row 0 has no pivot
/// let factor = handheld::factor([[1.0, 2.0, 0.0], [0.0, 4.0, 0.0], [0.0, 0.0, 3.0]]);
/// assert_eq!(factor.zero_pivot(), Some(1));
/// assert_eq!(factor.solve([1.0, 1.0, 1.0]), Err(Refusal::ZeroMark { row: 1 }));
/// assert_eq!(factor.callers_row(1), 0);
/// ```
#[derive(Clone, Copy, PartialEq)]
pub struct Factored {
    // as the library gave it, so that a solve passes it on as it is
    given: Factored3,
}

impl Factored {
    /// The factor as it stands, three columns; above the diagonal the numbers are those of the given matrix.
    pub fn matrix(&self) -> [[f64; 3]; 3] {
        self.given.matrix.column.map(|column| column.row)
    }

    /// The pivots and the mark.
    pub fn pivots(&self) -> Pivots {
        let Pivots3 { index, size, mark } = self.given.pivots;
        Pivots { index, size, mark }
    }

    /// The first row of the factor that has no pivot, as [`LBLT::zero_pivot`](crate::LBLT::zero_pivot) has it.
    /// [`callers_row`](Factored::callers_row) says which row of the given matrix it was.
    pub fn zero_pivot(&self) -> Option<usize> {
        self.pivots().zero_pivot()
    }

    /// The row of the given matrix that stands at a row of the factor.
    pub fn callers_row(&self, row: usize) -> usize {
        self.pivots().callers_row(row)
    }

    /// The solution of A·x = `side`.
    ///
    /// Refused by [`ZeroMark`](Refusal::ZeroMark) exactly if there is a [`zero_pivot`](Factored::zero_pivot).
    pub fn solve(&self, side: [f64; 3]) -> Result<[f64; 3], Refusal> {
        solved(self.given.matrix, self.given.pivots, side)
    }
}

impl fmt::Debug for Factored {
    fn fmt(&self, f: &mut fmt::Formatter<'_>) -> fmt::Result {
        f.debug_struct("Factored")
            .field("matrix", &self.matrix())
            .field("pivots", &self.pivots())
            .finish()
    }
}

/// Factors a symmetric matrix of order 3, of which the lower part is looked at. There is no refusal: a matrix in which a row has
/// no pivot is factored too, and the first such row is marked, as by [`lblt::factor`].
///
/// ```
/// use urgyelpat::handheld::{self, Pivots};
///
/// let factor = handheld::factor([[0.0, 2.0, 1.0], [7.0, 0.0, 4.0], [7.0, 7.0, 5.0]]);
/// assert_eq!(factor.matrix(), [[0.0, 2.0, 2.0], [7.0, 0.0, 0.5], [7.0, 7.0, 1.0]]);
/// assert_eq!(factor.pivots(), Pivots { index: [1, 1, 2], size: [2, 2, 1], mark: 0 });
/// assert_eq!(factor.zero_pivot(), None);
/// ```
pub fn factor(matrix: [[f64; 3]; 3]) -> Factored {
    // SAFETY: numbers are passed and returned by value, and every number is taken.
    let given = unsafe { ffi::urgyelpat_handheld_factor(lowered(matrix)) };
    Factored { given }
}

/// Solves A·x = `side` by a factor and its pivots, which may have been stored elsewhere: [`Factored::solve`] by parts.
///
/// Refused by [`BadRecord`](Refusal::BadRecord), which names the first row that breaks the rule, or 3 if the mark alone does, and
/// by [`ZeroMark`](Refusal::ZeroMark), which names a row of the factor: [`callers_row`](Pivots::callers_row) gives yours. Look
/// first for NaN or infinite numbers in all rows of A.
///
/// ```
/// use urgyelpat::{handheld, handheld::Pivots, Refusal};
///
/// let matrix = [[0.0, 2.0, 2.0], [0.0, 0.0, 0.5], [0.0, 0.0, 1.0]];
/// let pivots = Pivots { index: [1, 1, 2], size: [2, 2, 1], mark: 0 };
/// assert_eq!(handheld::solve(matrix, pivots, [7.0, 14.0, 24.0])?, [1.0, 2.0, 3.0]);
///
/// // a word of the pivots is damaged, and then the mark
/// let damaged = Pivots { index: [1, 1, 9], ..pivots };
/// assert_eq!(handheld::solve(matrix, damaged, [7.0, 14.0, 24.0]), Err(Refusal::BadRecord { row: 2 }));
/// let damaged = Pivots { mark: 9, ..pivots };
/// assert_eq!(handheld::solve(matrix, damaged, [7.0, 14.0, 24.0]), Err(Refusal::BadRecord { row: 3 }));
/// # Ok::<(), Refusal>(())
/// ```
pub fn solve(matrix: [[f64; 3]; 3], pivots: Pivots, side: [f64; 3]) -> Result<[f64; 3], Refusal> {
    let Pivots { index, size, mark } = pivots;
    solved(lowered(matrix), Pivots3 { index, size, mark }, side)
}

fn solved(matrix: Matrix3, pivots: Pivots3, side: [f64; 3]) -> Result<[f64; 3], Refusal> {
    // SAFETY: numbers are passed and returned by value, and every number is taken.
    let Solved3 { answer, side } = unsafe { ffi::urgyelpat_handheld_solve(matrix, pivots, Column3 { row: side }) };
    done(answer).map(|()| side.row)
}

/// Number by number, which compiles to plain moves; column by column it does not.
fn lowered(matrix: [[f64; 3]; 3]) -> Matrix3 {
    let [[a, b, c], [d, e, f], [g, h, i]] = matrix;
    Matrix3 {
        column: [
            Column3 { row: [a, b, c] },
            Column3 { row: [d, e, f] },
            Column3 { row: [g, h, i] },
        ],
    }
}
