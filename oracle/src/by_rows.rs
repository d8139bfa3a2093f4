//! The steps of the teaching call, from document 02's words (E14): order by order, and of each order the last row, from left to right. A row is a list of
//! its own here. Which code a diagonal gets is said in `paper`, whose columns have no part in these steps.

use crate::paper::{code, failing};

/// A lower row, up to its diagonal.
type Row = Vec<f64>;

/// The first n rows of a room that holds them, or those up to the refused one.
pub fn cholesky(a: &mut [f64], room: usize, n: usize) -> u64 {
    let mut finished: Vec<Row> = vec![];
    for r in 0..n {
        let given: Row = (0..=r).map(|c| a[r + c * room]).collect();
        let (row, refused) = last_row(&finished, &given);
        for (c, &x) in row.iter().enumerate() {
            a[r + c * room] = x;
        }
        if let Some(why) = refused {
            return code(why, r);
        }
        finished.push(row);
    }
    0
}

/// The row after the finished ones, and why its diagonal is turned down.
fn last_row(finished: &[Row], given: &[f64]) -> (Row, Option<u64>) {
    let (&diagonal, left) = parted(given);
    let mut row = Row::new();
    for (above, &x) in finished.iter().zip(left) {
        let (root, before) = parted(above);
        row.push(less(x, before, &row) / root);
    }
    let rest = less(diagonal, &row, &row);
    let refused = failing(rest);
    row.push(if refused.is_none() { rest.sqrt() } else { rest });
    (row, refused)
}

/// The diagonal of a row, and what stands left of it.
fn parted(row: &[f64]) -> (&f64, &[f64]) {
    row.split_last().expect("a row has its diagonal")
}

/// An entry with the products of two rows added from left to right, those of the row above with the other sign.
fn less(entry: f64, above: &[f64], row: &[f64]) -> f64 {
    above.iter().zip(row).fold(entry, |x, (&l, &y)| x + (-l) * y)
}
