//! UDU of the block of rows and columns m to n − 1, by what UDU of the whole answers and leaves (document 02, E11).

use crate::call::{Call, Case, Outcome, words};
use crate::cases::filled;

/// The call on the block, with slices of its own. Below the diagonal stands what no call may read.
pub fn block(whole: &Case, m: usize) -> Case {
    let order = whole.n - m;
    let mut p = filled(order * order);
    for j in 0..order {
        for i in 0..=j {
            p[i + j * order] = whole.a[m + i + (m + j) * whole.n];
        }
    }
    Case { b: filled(order * order), c: filled(order), ..Case::new(Call::UduFactor, order, p) }
}

/// Rows and columns from m on of a matrix of order n.
pub fn trailing<T: Copy>(a: &[T], n: usize, m: usize) -> Vec<T> {
    (m..n).flat_map(|k| &a[m + k * n..n + k * n]).copied().collect()
}

/// What the block is to answer and leave.
pub fn tail(block: &Case, m: usize, whole: &Outcome) -> Outcome {
    let u = trailing(&whole.b, m + block.n, m);
    let c = whole.c[m..].to_vec();
    Outcome { answer: answer(m, whole.answer), a: words(&block.a), b: u, c, ..Outcome::default() }
}

/// Refused at j − m if the whole is refused at j ≥ m, else done.
fn answer(m: usize, whole: u64) -> u64 {
    let (code, j) = (whole / 4096, whole % 4096);
    if code == 8 && j >= m as u64 { 8 * 4096 + j - m as u64 } else { 0 }
}
