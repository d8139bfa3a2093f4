//! Many small systems by LBLT in one call.

use std::fmt;

use crate::refusal::{done, Refusal};
use crate::{ffi, lblt, record};

/// Factors and solves `count` systems of order n in one call, each with one right-hand side and its own run number.
///
/// The items stand end to end: n·n numbers of `a` for each, 2n + 2 words of `records`, n numbers of `b`, one number of `runs` and
/// one of `answers`. What stood in `records` and `answers` before is not read. Item by item the call leaves, to the bit, what
/// [`factor`](lblt::factor) and then [`solve_mut`](lblt::solve_mut) with one column leave: the factor where the matrix stood, the
/// record, and the solution where the side stood. No item feels another.
///
/// `Ok` says that all items were worked on, and the [`Tray`] which of them are solved: an item's
/// [`solution`](Item::solution) is refused by [`ZeroMark`](Refusal::ZeroMark) exactly if its factor has a
/// [`zero_pivot`](Item::zero_pivot). Such an item keeps its factor and its record, and its side is as it was. The slices are free
/// again where the tray is no longer used; `answers` then holds the items' answers as the stand shows them, code·4,096 + place.
///
/// The tray is refused as a whole, and no slice is written, by [`OutOfRange`](Refusal::OutOfRange) for an order above
/// [`TRAY_ORDER_LARGEST`](crate::TRAY_ORDER_LARGEST) or a count above [`TRAY_COUNT_LARGEST`](crate::TRAY_COUNT_LARGEST), then by
/// [`MatrixLength`](Refusal::MatrixLength) for `a`, then by [`SliceLength`](Refusal::SliceLength) for the other slices.
///
/// ```
/// use urgyelpat::{lblt, Refusal};
///
/// // the lower rows 4 / 2 3, then 1 / 1 1, in which a row came twice, then 0 / 1 4
/// let mut a = [4.0, 2.0, 0.0, 3.0, 1.0, 1.0, 0.0, 1.0, 0.0, 1.0, 0.0, 4.0];
/// let mut b = [8.0, 8.0, 7.0, 9.0, 1.0, 6.0];
/// let (mut records, mut answers) = ([0; 3 * 6], [0; 3]);
/// let tray = lblt::tray(&mut a, &mut records, &mut b, &[1116, 1117, 1118], &mut answers, 2, 3)?;
/// assert_eq!(tray.item(0).solution()?, [1.0, 2.0]);
/// assert_eq!(tray.item(1).solution(), Err(Refusal::ZeroMark { row: 1 }));
/// assert_eq!(tray.item(2).solution()?, [2.0, 1.0]);
///
/// assert_eq!(b, [1.0, 2.0, 7.0, 9.0, 2.0, 1.0]);
/// assert_eq!(answers, [0, 6 * 4096 + 1, 0]);
/// # Ok::<(), Refusal>(())
/// ```
pub fn tray<'a>(
    a: &'a mut [f64],
    records: &'a mut [u32],
    b: &'a mut [f64],
    runs: &[u32],
    answers: &'a mut [u64],
    n: usize,
    count: usize,
) -> Result<Tray<'a>, Refusal> {
    // SAFETY: each pointer and length are a slice's, and what is written is borrowed alone.
    done(unsafe {
        ffi::urgyelpat_lblt_tray(
            a.as_mut_ptr(),
            a.len(),
            records.as_mut_ptr(),
            records.len(),
            b.as_mut_ptr(),
            b.len(),
            runs.as_ptr(),
            runs.len(),
            answers.as_mut_ptr(),
            answers.len(),
            n,
            count,
        )
    })?;
    Ok(Tray {
        a,
        records,
        b,
        answers,
        order: n,
    })
}

/// What [`tray`] left in the slices that it was lent, item by item.
///
/// ```
/// use urgyelpat::{lblt, Refusal};
///
/// // 2·x = 6, 0·x = 1 and 4·x = 2
/// let (mut a, mut b) = ([2.0, 0.0, 4.0], [6.0, 1.0, 2.0]);
/// let (mut records, mut answers) = ([0; 3 * 4], [0; 3]);
/// let tray = lblt::tray(&mut a, &mut records, &mut b, &[1116; 3], &mut answers, 1, 3)?;
/// for (t, solution) in tray.solutions().enumerate() {
///     match solution {
///         Ok(x) => println!("item {t}: x = {x:?}"),
///         Err(refusal) => println!("item {t} is not solved: {refusal}"),
///     }
/// }
/// let all: Result<Vec<&[f64]>, Refusal> = tray.solutions().collect();
/// assert_eq!(all, Err(Refusal::ZeroMark { row: 0 }));
/// let solved: Vec<&[f64]> = tray.solutions().flatten().collect();
/// assert_eq!(solved, [[3.0], [0.5]]);
/// # Ok::<(), Refusal>(())
/// ```
#[derive(Clone, Copy, PartialEq)]
pub struct Tray<'a> {
    a: &'a [f64],
    records: &'a [u32],
    b: &'a [f64],
    answers: &'a [u64],
    order: usize,
}

impl<'a> Tray<'a> {
    /// The number of items.
    pub fn len(&self) -> usize {
        self.answers.len()
    }

    /// Whether there are no items.
    pub fn is_empty(&self) -> bool {
        self.answers.is_empty()
    }

    /// The order of every item.
    pub fn order(&self) -> usize {
        self.order
    }

    /// Item t, counted from 0. Panics where there is none.
    pub fn item(&self, t: usize) -> Item<'a> {
        assert!(t < self.len(), "item {t} of a tray of {}", self.len());
        let n = self.order;
        Item {
            matrix: part(self.a, n * n, t),
            record: part(self.records, 2 * n + 2, t),
            side: part(self.b, n, t),
            answer: self.answers[t],
        }
    }

    /// The items, in turn.
    pub fn iter(&self) -> impl DoubleEndedIterator<Item = Item<'a>> + ExactSizeIterator + 'a {
        let tray = *self;
        (0..tray.len()).map(move |t| tray.item(t))
    }

    /// The solution of each item, in turn, or why there is none.
    pub fn solutions(&self) -> impl DoubleEndedIterator<Item = Result<&'a [f64], Refusal>> + ExactSizeIterator + 'a {
        self.iter().map(|item| item.solution())
    }
}

impl fmt::Debug for Tray<'_> {
    fn fmt(&self, f: &mut fmt::Formatter<'_>) -> fmt::Result {
        f.debug_list().entries(self.iter()).finish()
    }
}

/// What stands for item t in a slice with so many for each.
fn part<T>(slice: &[T], each: usize, t: usize) -> &[T] {
    &slice[t * each..(t + 1) * each]
}

/// One item of a [`Tray`]: a factor with its pivot record, as [`LBLT`](crate::LBLT) has them, and its solution.
///
/// Further sides are solved by [`solve_mut`](lblt::solve_mut), which takes its [`matrix`](Item::matrix), [`record`](Item::record)
/// and [`run`](Item::run).
///
/// ```
/// use urgyelpat::{lblt, Refusal};
///
/// // the lower rows 1 / 2 4: row 1 is brought to the top, and what is left of row 0 has no pivot
/// let (mut a, mut b) = ([1.0, 2.0, 0.0, 4.0], [7.0, 9.0]);
/// let (mut records, mut answers) = ([0; 6], [0]);
/// let tray = lblt::tray(&mut a, &mut records, &mut b, &[1116], &mut answers, 2, 1)?;
/// let item = tray.item(0);
/// assert_eq!(item.solution(), Err(Refusal::ZeroMark { row: 1 }));
/// assert_eq!(item.zero_pivot(), Some(1));
/// assert_eq!(item.callers_row(1), 0);
/// assert_eq!(item.record(), [1, 1, 1, 1, 2, 1116]);
/// assert_eq!(item.matrix(), [4.0, 0.5, 0.0, 0.0]);
/// # Ok::<(), Refusal>(())
/// ```
#[derive(Clone, Copy, PartialEq)]
pub struct Item<'a> {
    matrix: &'a [f64],
    record: &'a [u32],
    /// The solution, or the side as it was given.
    side: &'a [f64],
    answer: u64,
}

impl<'a> Item<'a> {
    /// The solution, n numbers.
    ///
    /// Refused by [`ZeroMark`](Refusal::ZeroMark) exactly if there is a [`zero_pivot`](Item::zero_pivot); its side is then as it was
    /// given. Look first for NaN or infinite numbers in all rows of the matrix as it was given;
    /// [`callers_row`](Item::callers_row) says which row the marked one was.
    pub fn solution(&self) -> Result<&'a [f64], Refusal> {
        done(self.answer).map(|()| self.side)
    }

    /// The factor as it stands, n·n numbers; above the diagonal they are those of the given matrix.
    pub fn matrix(&self) -> &'a [f64] {
        self.matrix
    }

    /// The pivot record as it stands, 2n + 2 words.
    pub fn record(&self) -> &'a [u32] {
        self.record
    }

    /// The pivot of each row, as (index, block size).
    pub fn pivots(&self) -> impl Iterator<Item = (usize, usize)> + 'a {
        record::pivots(self.record, self.order())
    }

    /// The first row of the factor that has no pivot, as [`LBLT::zero_pivot`](crate::LBLT::zero_pivot) has it.
    pub fn zero_pivot(&self) -> Option<usize> {
        record::zero_pivot(self.record, self.order())
    }

    /// The run number that the item was given.
    pub fn run(&self) -> u32 {
        record::run(self.record, self.order())
    }

    /// The row of the given matrix that stands at a row of the factor.
    pub fn callers_row(&self, row: usize) -> usize {
        lblt::callers_row(self.record, self.order(), row)
    }

    fn order(&self) -> usize {
        self.side.len()
    }
}

impl fmt::Debug for Item<'_> {
    fn fmt(&self, f: &mut fmt::Formatter<'_>) -> fmt::Result {
        f.debug_struct("Item")
            .field("matrix", &self.matrix)
            .field("record", &self.record)
            .field("solution", &self.solution())
            .finish()
    }
}
