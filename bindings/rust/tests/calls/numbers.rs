//! Seeded matrices, and products to compare with.

/// Numbers from -1 to 1, the same for the same seed.
pub struct Numbers(pub u64);

impl Numbers {
    pub fn next(&mut self) -> f64 {
        self.0 = self
            .0
            .wrapping_mul(6364136223846793005)
            .wrapping_add(1442695040888963407);
        (self.0 >> 11) as f64 / (1u64 << 52) as f64 - 1.0
    }

    /// A whole number below a bound.
    pub fn below(&mut self, bound: usize) -> usize {
        (((self.next() + 1.0) / 2.0 * bound as f64) as usize).min(bound - 1)
    }

    /// A symmetric matrix, whole, column by column.
    pub fn symmetric(&mut self, n: usize) -> Vec<f64> {
        let mut a = vec![0.0; n * n];
        for j in 0..n {
            for i in j..n {
                a[i + j * n] = self.next();
                a[j + i * n] = a[i + j * n];
            }
        }
        a
    }

    /// A symmetric matrix with a diagonal that outweighs the rest.
    pub fn positive(&mut self, n: usize) -> Vec<f64> {
        let mut a = self.symmetric(n);
        for i in 0..n {
            a[i + i * n] += n as f64 + 1.0;
        }
        a
    }
}

/// So many numbers, one after the other.
pub fn by_chance(numbers: &mut Numbers, count: usize) -> Vec<f64> {
    (0..count).map(|_| numbers.next()).collect()
}

/// Rows `from..to` of the lower part of a matrix of order n, each up to its diagonal, end to end.
pub fn rows(a: &[f64], n: usize, from: usize, to: usize) -> Vec<f64> {
    (from..to).flat_map(|i| (0..=i).map(move |j| a[i + j * n])).collect()
}

/// Makes row and column q of a symmetric matrix those of row p.
pub fn repeat_row(a: &mut [f64], n: usize, p: usize, q: usize) {
    for k in (0..n).filter(|&k| k != q) {
        a[q + k * n] = a[p + k * n];
        a[k + q * n] = a[p + k * n];
    }
    a[q + q * n] = a[p + p * n];
}

/// a·b for matrices of order n.
pub fn product(a: &[f64], b: &[f64], n: usize) -> Vec<f64> {
    let entry = |i, j| (0..n).map(|k| a[i + k * n] * b[k + j * n]).sum();
    (0..n * n).map(|at| entry(at % n, at / n)).collect()
}

pub fn transposed(a: &[f64], n: usize) -> Vec<f64> {
    (0..n * n).map(|at| a[at / n + at % n * n]).collect()
}

/// The largest difference between two lists of one length.
pub fn apart(a: &[f64], b: &[f64]) -> f64 {
    assert_eq!(a.len(), b.len());
    a.iter().zip(b).map(|(x, y)| (x - y).abs()).fold(0.0, f64::max)
}

pub fn bits(a: &[f64]) -> Vec<u64> {
    a.iter().map(|x| x.to_bits()).collect()
}

/// The bits, all NaNs as one: which NaN a result holds is not promised.
pub fn one_nan(a: &[f64]) -> Vec<u64> {
    let one = |x: &f64| if x.is_nan() { f64::NAN.to_bits() } else { x.to_bits() };
    a.iter().map(one).collect()
}

/// Numbers that a copy or a sum would change: NaN of many bits, infinities, a zero below zero, the ends of the range.
const STRANGE: [u64; 11] = [
    0x7ff4_b1ad_e5ee_d001,
    0xfff8_0000_0000_0001,
    0x7ff0_0000_0000_0001,
    0xffff_ffff_ffff_ffff,
    0x7ff0_0000_0000_0000,
    0xfff0_0000_0000_0000,
    0x8000_0000_0000_0000,
    0x0000_0000_0000_0001,
    0x800f_ffff_ffff_ffff,
    0x7fef_ffff_ffff_ffff,
    0xffef_ffff_ffff_ffff,
];

/// So many of them in turn, from one of them on.
pub fn strange(count: usize, from: usize) -> Vec<f64> {
    let at = |i| f64::from_bits(STRANGE[(from + i) % STRANGE.len()]);
    (0..count).map(at).collect()
}

/// A matrix of order n in a room, strange numbers around it.
pub fn in_room(a: &[f64], n: usize, room: usize) -> Vec<f64> {
    let mut buffer = strange(room * room, n);
    for j in 0..n {
        buffer[j * room..j * room + n].copy_from_slice(&a[j * n..(j + 1) * n]);
    }
    buffer
}
