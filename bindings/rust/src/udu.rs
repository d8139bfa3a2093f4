//! UDU: P = U·D·Uᵀ on paper, with U upper triangular and D diagonal.

use crate::refusal::{done, Refusal};
use crate::{ffi, kept};

/// Fills `u` (n·n numbers) and `d` (n numbers) with the factors of `p` (n·n numbers), of which the upper part is read.
///
/// Refused by [`OutOfRange`](Refusal::OutOfRange) (for order 0 too), [`MatrixLength`](Refusal::MatrixLength),
/// [`SliceLength`](Refusal::SliceLength), and by [`ZeroDiagonal`](Refusal::ZeroDiagonal) at column j. Then `d` has the zero
/// that was found at j and zeros before it, the columns up to j of `u` are zero, and what comes after j in both is finished.
///
/// Done or refused at a column, rows and columns m to n − 1 of `u` and `d` are what this call leaves for that block of `p`
/// alone, for every m below n. The block is refused at j − m if the whole is refused at a column j ≥ m, and else done. So the
/// tail behind a refused column is a factor, too.
///
/// ```
/// let (mut u, mut d) = ([9.0; 4], [9.0; 2]);
/// urgyelpat::udu::factor(&[5.0, 0.0, 2.0, 1.0], &mut u, &mut d, 2)?;
/// assert_eq!((u, d), ([1.0, 0.0, 2.0, 1.0], [1.0, 1.0]));
/// # Ok::<(), urgyelpat::Refusal>(())
/// ```
pub fn factor(p: &[f64], u: &mut [f64], d: &mut [f64], n: usize) -> Result<(), Refusal> {
    // SAFETY: each pointer and length are a slice's, and what is written is borrowed alone.
    done(unsafe { ffi::urgyelpat_udu_factor(p.as_ptr(), p.len(), u.as_mut_ptr(), u.len(), d.as_mut_ptr(), d.len(), n) })
}

/// The factors of a symmetric matrix.
///
/// ```
/// use urgyelpat::{Refusal, UDU};
///
/// let factor = UDU::new(&[5.0, 0.0, 2.0, 1.0], 2)?;
/// assert_eq!(factor.u, [1.0, 0.0, 2.0, 1.0]);
/// assert_eq!(factor.d, [1.0, 1.0]);
/// assert_eq!(UDU::new(&[4.0, 0.0, 2.0, 1.0], 2), Err(Refusal::ZeroDiagonal { column: 0 }));
/// # Ok::<(), Refusal>(())
/// ```
///
/// A filter that loses its first rows and columns is not factored again: the others of `u` and `d` are the factors of what is
/// left, to the last bit (proved of the library's call).
///
/// ```
/// use urgyelpat::{Refusal, UDU};
///
/// let UDU { u, d } = UDU::new(&[12.0, 0.0, 0.0, 7.0, 5.0, 0.0, 4.0, 2.0, 2.0], 3)?;
/// let tail = UDU { u: vec![u[4], u[5], u[7], u[8]], d: d[1..].to_vec() };
/// assert_eq!(tail, UDU::new(&[5.0, 0.0, 2.0, 2.0], 2)?);
/// # Ok::<(), Refusal>(())
/// ```
#[derive(Clone, Debug, PartialEq)]
pub struct UDU {
    /// The upper triangular matrix U, n·n numbers, zero below the diagonal. Its diagonal is 1, except that the last entry is
    /// (1/d)·d rounded, which can be just below 1.
    pub u: Vec<f64>,
    /// The diagonal of D, n numbers.
    pub d: Vec<f64>,
}

impl UDU {
    /// Factors a symmetric matrix of order n, n·n numbers, of which the upper part is read.
    ///
    /// Refused by [`OutOfRange`](Refusal::OutOfRange) (for order 0 too), [`MatrixLength`](Refusal::MatrixLength) and
    /// [`ZeroDiagonal`](Refusal::ZeroDiagonal).
    pub fn new(p: &[f64], n: usize) -> Result<UDU, Refusal> {
        let (mut u, mut d) = (vec![0.0; kept(n) * kept(n)], vec![0.0; kept(n)]);
        factor(p, &mut u, &mut d, n)?;
        Ok(UDU { u, d })
    }
}
