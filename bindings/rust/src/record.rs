//! The pivot record that an LBLT factor owns, in whichever layout its matrix stands: a call of the library wrote it for that
//! order, so that it has all its words and keeps its rule.

use crate::kept;
use crate::lblt::LapackPivots;
use crate::pivots::{self, Listed};
use crate::refusal::Refusal;

/// Why the calls on an own factor are not refused by size or record.
pub(crate) const OWN: &str = "a record that the library wrote and its sizes are accepted";

/// The words to write a record into.
pub(crate) fn blank(n: usize) -> Vec<u32> {
    vec![0; 2 * kept(n) + 2]
}

pub(crate) fn from_lapack(list: &[i32], info: i32, n: usize, run: u32) -> Result<Vec<u32>, Refusal> {
    let mut record = blank(n);
    pivots::from_lapack(list, info, &mut record, n, run)?;
    Ok(record)
}

pub(crate) fn lapack_pivots(record: &[u32], n: usize) -> LapackPivots {
    let mut list = vec![0; n];
    let Listed { info, .. } = pivots::to_lapack(record, &mut list, n).expect(OWN);
    LapackPivots { list, info }
}

/// The pivot of each row, as (index, block size).
pub(crate) fn pivots(record: &[u32], n: usize) -> impl Iterator<Item = (usize, usize)> + '_ {
    record[..2 * n]
        .chunks_exact(2)
        .map(|pivot| (pivot[0] as usize, pivot[1] as usize))
}

pub(crate) fn zero_pivot(record: &[u32], n: usize) -> Option<usize> {
    (record[2 * n] as usize).checked_sub(1)
}

pub(crate) fn run(record: &[u32], n: usize) -> u32 {
    record[2 * n + 1]
}
