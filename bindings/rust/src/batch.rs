//! A batch of rows for a matrix that grows: the rows end to end, each up to its diagonal, so that row i has i + 1 numbers.

use std::ops::Range;

use crate::refusal::Refusal;
use crate::LARGEST;

/// The order after a batch of this many numbers.
pub(crate) fn order_with(order: usize, numbers: usize) -> Result<usize, Refusal> {
    let mut n = order;
    let mut left = numbers;
    while left > 0 {
        if n == LARGEST {
            return Err(Refusal::OutOfRange);
        }
        n += 1;
        left = left.checked_sub(n).ok_or(Refusal::SliceLength)?;
    }
    Ok(n)
}

/// A batch for a matrix of this order without row q, and without entry q of each row after it.
pub(crate) fn batch_without(order: usize, rows: &[f64], q: usize) -> Result<Vec<f64>, Refusal> {
    let n = order_with(order, rows.len())?;
    if !(order..n).contains(&q) {
        return Err(Refusal::SliceLength);
    }
    let left = each_row(rows, order..n).filter(|&(i, _)| i != q);
    let entries = left.flat_map(|(_, row)| row.iter().enumerate().filter(|&(j, _)| j != q));
    Ok(entries.map(|(_, entry)| *entry).collect())
}

/// The rows of a batch, each with its index, which are these.
pub(crate) fn each_row(batch: &[f64], indices: Range<usize>) -> impl Iterator<Item = (usize, &[f64])> {
    let mut rest = batch;
    indices.map(move |i| {
        let (row, later) = rest.split_at(i + 1);
        rest = later;
        (i, row)
    })
}
