use std::error::Error;
use std::fmt;

use crate::ffi::{Determined, Floored};

/// Why a call was refused, and where.
///
/// The checks 1 to 5, then 13, then 6 run in that order, and the first that fails is the answer; every slice is then as it
/// was. For a LAPACK pivot list, 12 stands where 5 does for a record. Cholesky and UDU go on from there column by column, UDU
/// from the last one back, the [teaching engine](crate::cholesky::teaching) row by row, and the first diagonal that fails
/// gives its code: for Cholesky just one of 7, 10 and 11 fits it. A [floor](crate::cholesky#a-floor-for-the-diagonal) above zero
/// stands in for such a diagonal, and none of the three is given. What 7, 8, 10 and 11 leave is said at the calls that give them.
#[derive(Clone, Copy, Debug, PartialEq, Eq, Hash)]
#[non_exhaustive]
pub enum Refusal {
    /// Code 1: an order, room or column count is above [`LARGEST`](crate::LARGEST), UDU has order 0, the
    /// [teaching engine](crate::cholesky::teaching) an order above [`TEACHING_LARGEST`](crate::TEACHING_LARGEST), or a
    /// [tray](crate::lblt::tray) an order above [`TRAY_ORDER_LARGEST`](crate::TRAY_ORDER_LARGEST) or more than
    /// [`TRAY_COUNT_LARGEST`](crate::TRAY_COUNT_LARGEST) items.
    OutOfRange,
    /// Code 2: an order is above its room, or the earlier order above the order.
    OrderAboveRoom,
    /// Code 3: the first matrix, or those of a [tray](crate::lblt::tray), have the wrong length.
    MatrixLength,
    /// Code 4: another slice has the wrong length.
    SliceLength,
    /// Code 5: the pivot record breaks its rule, or the pivots of the [`handheld`](crate::handheld) do.
    BadRecord {
        /// The first row that breaks it, or the order if the mark does.
        row: usize,
    },
    /// Code 6: no solution is given, since a row of the factor has no pivot: zeros, or NaN beside a zero. Below the last row
    /// there is nothing, which counts as zero.
    ZeroMark {
        /// The first such row of the factor; [`callers_row`](crate::lblt::callers_row) says which row that was as given.
        row: usize,
    },
    /// Code 7: a diagonal of Cholesky is zero, of either sign.
    CholeskyZero {
        /// Its row and column.
        column: usize,
    },
    /// Code 8: a diagonal of UDU is zero.
    ZeroDiagonal {
        /// Its row and column.
        column: usize,
    },
    /// Code 10: a diagonal of Cholesky is below zero, minus infinity included.
    CholeskyBelowZero {
        /// Its row and column.
        column: usize,
    },
    /// Code 11: a diagonal of Cholesky is NaN. A NaN on the diagonal of a row that is factored, or left of it, is never
    /// accepted without a floor: where the sizes fit, the row ends so, if none before it is refused. With a floor above zero it
    /// is accepted and counted.
    CholeskyNan {
        /// Its row and column.
        column: usize,
    },
    /// Code 12: a LAPACK pivot list, with its INFO, stands for no pivot record that keeps its rule.
    BadList {
        /// The first row of its first broken block, counted from 0, or the order if INFO alone is wrong.
        row: usize,
    },
    /// Code 13: the pivot record has another run number than the one that is expected.
    OtherRun,
}

impl Refusal {
    /// The code on the stand.
    pub fn code(self) -> u32 {
        match self {
            Refusal::OutOfRange => 1,
            Refusal::OrderAboveRoom => 2,
            Refusal::MatrixLength => 3,
            Refusal::SliceLength => 4,
            Refusal::BadRecord { .. } => 5,
            Refusal::ZeroMark { .. } => 6,
            Refusal::CholeskyZero { .. } => 7,
            Refusal::ZeroDiagonal { .. } => 8,
            Refusal::CholeskyBelowZero { .. } => 10,
            Refusal::CholeskyNan { .. } => 11,
            Refusal::BadList { .. } => 12,
            Refusal::OtherRun => 13,
        }
    }

    /// The place on the stand; 0 where the refusal names none.
    pub fn place(self) -> usize {
        match self {
            Refusal::OutOfRange
            | Refusal::OrderAboveRoom
            | Refusal::MatrixLength
            | Refusal::SliceLength
            | Refusal::OtherRun => 0,
            Refusal::BadRecord { row } | Refusal::ZeroMark { row } | Refusal::BadList { row } => row,
            Refusal::CholeskyZero { column }
            | Refusal::ZeroDiagonal { column }
            | Refusal::CholeskyBelowZero { column }
            | Refusal::CholeskyNan { column } => column,
        }
    }
}

impl fmt::Display for Refusal {
    fn fmt(&self, f: &mut fmt::Formatter<'_>) -> fmt::Result {
        match *self {
            Refusal::OutOfRange => write!(
                f,
                "an order, a room, a column count or the items of a tray are above 1,024 (for the teaching engine and a tray an order above 64), or a UDU of order 0 was asked for: check the sizes that were sent"
            ),
            Refusal::OrderAboveRoom => write!(
                f,
                "the rows do not fit the room, or more rows are said to be factored than there are: lend a larger room, or check the two orders"
            ),
            Refusal::MatrixLength => write!(
                f,
                "the matrix does not have order times order numbers (for a Cholesky, room times room; packed, order times (order + 1) / 2; in a tray, as many for each item): check that it arrived whole"
            ),
            Refusal::SliceLength => write!(
                f,
                "the pivot record, the LAPACK pivot list, the right-hand sides, the bench numbers, the new rows, the matrix to fill or the run numbers and answers of a tray do not have the length that the order, the columns and the items ask for: check that they belong to this matrix or tray"
            ),
            Refusal::BadRecord { row } => write!(
                f,
                "the pivot record is damaged at row {row} (at its mark, if the order is {row}): take the record that the factor call wrote, or factor the matrix again"
            ),
            Refusal::ZeroMark { row } => write!(
                f,
                "the factor found nothing to divide by at its row {row}: zeros, NaN beside a zero, or NaN on the last diagonal. Look first for NaN or infinite numbers in all rows. Which row of yours this one is, callers_row tells. Look there for zeros, a broken reading or a batch that came twice"
            ),
            Refusal::CholeskyZero { column } => write!(
                f,
                "the diagonal of row {column} became exactly zero: perhaps the row came twice, or adds nothing to the rows before it. Ask first_twin of the rows as they came, and leave out the later of the two that it names; if it names none, look at the points of that row"
            ),
            Refusal::ZeroDiagonal { column } => write!(
                f,
                "the diagonal of row {column} became zero, and UDU cannot go on: perhaps the row adds nothing to the rows after it. Leave its batch out, or measure it again"
            ),
            Refusal::CholeskyBelowZero { column } => write!(
                f,
                "the diagonal of row {column} fell below zero: perhaps the row came twice and rounding left a crumb below zero, or it contradicts the rows before it, or a number is far too large. Ask first_twin of the rows as they came; if it names none, measure the row again"
            ),
            Refusal::CholeskyNan { column } => write!(
                f,
                "the diagonal of row {column} is NaN, not a number: look for NaN, infinite or far too large numbers, first in that row, and for a broken probe or cable. Measure again"
            ),
            Refusal::BadList { row } => write!(
                f,
                "the LAPACK pivot list is broken at row {row}, counted from 0 (at its INFO, if the order is {row}), or it was not written by dsytrf for the lower triangle: have the list, its INFO and its factor sent again, or factor the matrix here"
            ),
            Refusal::OtherRun => write!(
                f,
                "the pivot record was made in another run, perhaps yesterday's: take the record that this run's factor call wrote, or factor this run's matrix again"
            ),
        }
    }
}

impl Error for Refusal {}

/// The refusal of an answer's number, code·4,096 + place, or `Ok` for 0.
pub(crate) fn done(answer: u64) -> Result<(), Refusal> {
    let place = (answer % 4096) as usize;
    Err(match answer / 4096 {
        0 => return Ok(()),
        1 => Refusal::OutOfRange,
        2 => Refusal::OrderAboveRoom,
        3 => Refusal::MatrixLength,
        4 => Refusal::SliceLength,
        5 => Refusal::BadRecord { row: place },
        6 => Refusal::ZeroMark { row: place },
        7 => Refusal::CholeskyZero { column: place },
        8 => Refusal::ZeroDiagonal { column: place },
        10 => Refusal::CholeskyBelowZero { column: place },
        11 => Refusal::CholeskyNan { column: place },
        12 => Refusal::BadList { row: place },
        13 => Refusal::OtherRun,
        code => {
            panic!("liburgyelpat.a answers code {code}, which this crate does not know: build both from one version")
        }
    })
}

/// The value of a determinant call, or its refusal.
pub(crate) fn value(determined: Determined) -> Result<f64, Refusal> {
    done(determined.answer).map(|()| determined.value)
}

/// How many columns used the floor of a call, or its refusal.
pub(crate) fn count(floored: Floored) -> Result<usize, Refusal> {
    done(floored.answer).map(|()| floored.used as usize)
}
