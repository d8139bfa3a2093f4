use crate::ffi;
use crate::refusal::{done, Refusal};

/// Two rows of a symmetric matrix that are the same, p before q.
#[derive(Clone, Copy, Debug, PartialEq, Eq, Hash)]
pub struct Twins {
    /// The first of the two rows.
    pub p: usize,
    /// The second.
    pub q: usize,
}

/// The numbers of pairs start here: (4,096 + q)·4,096 + p.
const PAIRS: u64 = 4096 * 4096;

/// The first twin rows of a symmetric matrix, as a batch that came twice leaves them.
///
/// Looks at the first n rows of the lower part of `a` (room·room numbers, entry (i, j) at `i + j * room`). Twins have the same
/// numbers bit for bit, NaN equal to NaN. The pair with the least q is found, and then the least p. The factors are no
/// detector of twins: they let many through, and a Cholesky with a [floor](crate::cholesky#a-floor-for-the-diagonal) above zero
/// all of them. Ask before a matrix is factored, of the rows as they came; see [`first_twin_since`] for batches.
///
/// Refused by [`OutOfRange`](Refusal::OutOfRange), [`OrderAboveRoom`](Refusal::OrderAboveRoom),
/// [`MatrixLength`](Refusal::MatrixLength).
///
/// ```
/// use urgyelpat::{first_twin, Twins};
///
/// assert_eq!(first_twin(&[4.0, 2.0, 0.0, 3.0], 2, 2)?, None);
/// assert_eq!(first_twin(&[2.0, 2.0, 0.0, 2.0], 2, 2)?, Some(Twins { p: 0, q: 1 }));
/// # Ok::<(), urgyelpat::Refusal>(())
/// ```
pub fn first_twin(a: &[f64], room: usize, n: usize) -> Result<Option<Twins>, Refusal> {
    // SAFETY: the pointer and the length are a slice's.
    pair(unsafe { ffi::urgyelpat_first_twin(a.as_ptr(), a.len(), room, n) })
}

/// The first twin rows whose second row is `earlier` or a later one, as [`first_twin`] finds them from row 0 on.
///
/// Asked before each batch of a matrix that grows, with the order before the batch as `earlier`: a pair that was kept is not
/// told again. **`a` has to hold the rows as they came**, in memory of their own. Of a Cholesky buffer, whose earlier rows are
/// factored, twins are missed and others invented. [`Cholesky`](crate::Cholesky) keeps the rows and asks by itself.
///
/// Refused by [`OutOfRange`](Refusal::OutOfRange), by [`OrderAboveRoom`](Refusal::OrderAboveRoom) also if `earlier` is above n,
/// and by [`MatrixLength`](Refusal::MatrixLength).
///
/// ```
/// use urgyelpat::{first_twin_since, Twins};
///
/// // rows 0 and 1 are the same and were kept; row 2 is row 0 once more
/// let rows = [2.0, 2.0, 2.0, 0.0, 2.0, 2.0, 0.0, 0.0, 2.0];
/// assert_eq!(first_twin_since(&rows, 3, 1, 2)?, Some(Twins { p: 0, q: 1 }));
/// assert_eq!(first_twin_since(&rows, 3, 2, 3)?, Some(Twins { p: 0, q: 2 }));
/// assert_eq!(first_twin_since(&rows, 3, 3, 3)?, None);
/// # Ok::<(), urgyelpat::Refusal>(())
/// ```
pub fn first_twin_since(a: &[f64], room: usize, earlier: usize, n: usize) -> Result<Option<Twins>, Refusal> {
    // SAFETY: the pointer and the length are a slice's.
    pair(unsafe { ffi::urgyelpat_first_twin_since(a.as_ptr(), a.len(), room, earlier, n) })
}

/// The pair of an answer's number, nothing for 0, or the refusal.
pub(crate) fn pair(answer: u64) -> Result<Option<Twins>, Refusal> {
    if answer < PAIRS {
        return done(answer).map(|()| None);
    }
    Ok(Some(Twins {
        p: (answer % 4096) as usize,
        q: (answer / 4096 - 4096) as usize,
    }))
}
