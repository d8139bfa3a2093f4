//! Cholesky's solve as document 02 writes it, column by column: what a Rust programmer would write first.

/// `a` is a factor in a room of room·room numbers, `b` has n numbers a column.
#[inline(never)]
pub fn cholesky_solve(a: &[f64], b: &mut [f64], room: usize, n: usize, columns: usize) {
    for j in 0..columns {
        let b = &mut b[j * n..(j + 1) * n];
        for i in 0..n {
            let l = &a[i * room..i * room + n];
            b[i] /= l[i];
            let x = -b[i];
            for r in i + 1..n {
                b[r] += x * l[r];
            }
        }
        for i in (0..n).rev() {
            let l = &a[i * room..i * room + n];
            let mut x = b[i];
            for r in i + 1..n {
                x -= l[r] * b[r];
            }
            b[i] = x / l[i];
        }
    }
}
