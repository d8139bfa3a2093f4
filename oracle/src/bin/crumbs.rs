//! How large a crumb is: what Cholesky finds on the diagonal of a row that came twice, where exact numbers would leave zero.
//!
//! `crumbs [NUMBERS [MATRICES]]`: first one row that came twice right behind itself, by the number v that stood on its diagonal before the root
//! was taken; then a batch of several rows that came twice, by matrices.

use oracle::call::Calls;
use oracle::cases::Rng;
use oracle::text::Text;

/// What is left for the second twin, in Cholesky's order.
fn crumb(v: f64) -> f64 {
    let beside = v / v.sqrt();
    v + (-beside) * beside
}

/// |left| / v, for the smallest v too.
fn share(left: f64, v: f64) -> f64 {
    const UP: f64 = f64::from_bits((1023 + 200) << 52);
    if v < 1.0 { (left.abs() * UP) / (v * UP) } else { left.abs() / v }
}

/// |left| is 2^−51 of v or more.
fn reaches(left: f64, v: f64) -> bool {
    left.abs() * (1u64 << 51) as f64 >= v
}

/// A share as a power of two and a number below 1, its digits cut off.
fn power(x: f64) -> String {
    if !x.is_normal() {
        return x.to_string();
    }
    let (exponent, digits) = ((x.to_bits() >> 52) as i32, x.to_bits() << 12 >> 12);
    let below_one = f64::from_bits(1022 << 52 | digits);
    format!("{:.5}·2^{}", (below_one * 1e5).floor() / 1e5, exponent - 1022)
}

#[derive(Clone, Copy, Default)]
struct Seen {
    above: u64,
    below: u64,
    zero: u64,
    /// How many reach 2^−51 of v, and the largest share.
    reach: u64,
    most: f64,
}

impl Seen {
    fn over(numbers: impl Iterator<Item = f64>) -> Seen {
        numbers.fold(Seen::default(), |mut seen, v| {
            let left = crumb(v);
            seen.above += (left > 0.0) as u64;
            seen.below += (left < 0.0) as u64;
            seen.zero += (left == 0.0) as u64;
            seen.reach += reaches(left, v) as u64;
            seen.most = seen.most.max(share(left, v));
            seen
        })
    }

    fn print(&self, what: &str) {
        let count = self.above + self.below + self.zero;
        let percent = |c: u64| 100.0 * c as f64 / count as f64;
        let [above, below, zero] = [self.above, self.below, self.zero].map(percent);
        println!("{what:<28} {count:>11}  {above:6.2}  {below:6.2}  {zero:6.2}  {:<16} {}", power(self.most), self.reach);
    }
}

/// Numbers with these exponents, each as often as the others, and any digits.
fn random(seed: u64, exponents: std::ops::RangeInclusive<i64>, count: u64) -> impl Iterator<Item = f64> {
    let mut r = Rng::new(seed);
    (0..count).map(move |_| {
        let e = r.between(*exponents.start(), *exponents.end());
        f64::from_bits(((e + 1023) as u64) << 52 | r.word() >> 12)
    })
}

/// Subnormal numbers from 2^e to 2^(e + 1), with any digits.
fn subnormal(e: i32, count: u64) -> impl Iterator<Item = f64> {
    let lowest = 1u64 << (1074 + e);
    let mut r = Rng::new(lowest);
    (0..count).map(move |_| f64::from_bits(lowest | r.word() & (lowest - 1)))
}

fn one_row(numbers: u64) {
    const MANY: u64 = 1 << 24;
    println!("one row twice: shares of crumbs in percent, the largest |crumb| / v, and how many reach 2^-51 of v");
    println!("{:<28} {:>11}  {:>6}  {:>6}  {:>6}  {:<16} reach", "v", "numbers", "above", "below", "zero", "largest");
    Seen::over(random(1, 0..=1, numbers)).print("1 to 4");
    Seen::over(random(2, 0..=0, numbers / 2)).print("1 to 2");
    Seen::over(random(3, 1..=1, numbers / 2)).print("2 to 4");
    Seen::over(random(4, -1022..=1023, numbers / 2)).print("all normal numbers");
    Seen::over(random(5, -1022..=-1021, MANY)).print("2^-1022 to 2^-1020");
    Seen::over((1 << 52..).take(MANY as usize).map(f64::from_bits)).print("the smallest normal numbers");
    Seen::over(random(6, 1022..=1023, MANY)).print("2^1022 to 2^1024");
    Seen::over((1..=MANY).map(|i| f64::from_bits(f64::MAX.to_bits() - i))).print("the largest, less the last");
    Seen::over([f64::MAX].into_iter()).print("the last");
    for e in [-1023, -1024, -1025] {
        Seen::over(subnormal(e, MANY)).print(&format!("subnormal, 2^{e} to 2^{}", e + 1));
    }
    Seen::over((-1074..-1025).flat_map(|e| subnormal(e, MANY / 64))).print("subnormal, below 2^-1025");
    let mut r = Rng::new(7);
    let parted = random(8, 0..=1, MANY).filter(|&v| {
        let power_of_four = f64::from_bits((2 * r.below(1023) as u64 + 1) << 52);
        crumb(v * power_of_four) != crumb(v) * power_of_four
    });
    println!(
        "v from 1 to 4 times any power of 4 within the range: of {MANY} crumbs {} are not the crumb of v times that power",
        parted.count()
    );
}

/// G·Gᵀ of order k, G with two columns more than rows and entries in −1..1. Near rows: each row of G is the first and `near` of its own.
fn positive(r: &mut Rng, k: usize, near: Option<f64>) -> Vec<f64> {
    let wide = k + 2;
    let mut g: Vec<f64> = (0..k * wide).map(|_| r.unit()).collect();
    if let Some(near) = near {
        for at in (0..k * wide).filter(|at| at % k != 0) {
            g[at] = g[at - at % k] + near * g[at];
        }
    }
    let product = |i: usize, j: usize| (0..wide).map(|c| g[i.max(j) + c * k] * g[i.min(j) + c * k]).sum();
    (0..k * k).map(|at| product(at % k, at / k)).collect()
}

/// The number on diagonal q before its root is taken, from the finished columns.
fn updated(given: &[f64], factor: &[f64], n: usize, q: usize) -> f64 {
    (0..q).fold(given[q + q * n], |x, c| x + -factor[q + c * n] * factor[q + c * n])
}

#[derive(Default)]
struct Batches {
    /// Refused at the first, second, third or a later row that came again, or earlier; accepted.
    at: [u64; 5],
    accepted: u64,
    /// Refused by 7, 10 and 11, at a row that came again.
    codes: [u64; 3],
    /// Of rows that came again: the largest that passed and the largest refused, as shares of v.
    passed: f64,
    refused: f64,
    /// How many passed, and how many of these reach 2^−51 of v.
    rows: u64,
    reach: u64,
    /// The largest entry of such a row right of its first twin's column, as a share of that twin's diagonal.
    beside: f64,
    /// The last diagonals of accepted matrices beside the first twin's.
    last: Vec<f64>,
}

/// A whole batch of k rows sent twice.
fn batch(r: &mut Rng, k: usize, near: Option<f64>, seen: &mut Batches) {
    let n = 2 * k;
    let once = positive(r, k, near);
    let given: Vec<f64> = (0..n * n).map(|at| once[at % n % k + at / n % k * k]).collect();
    let mut factor = given.clone();
    let answer = Text.cholesky_factor(&mut factor, n, n);
    let rows = if answer == 0 { n } else { answer as usize % 4096 };
    for q in k..(rows + 1).min(n) {
        let (left, v) = (updated(&given, &factor, n, q), updated(&given, &factor, n, q - k));
        if q < rows {
            seen.rows += 1;
            seen.passed = seen.passed.max(share(left, v));
            seen.reach += reaches(left, v) as u64;
        } else {
            seen.refused = seen.refused.max(share(left, v));
        }
        let first = factor[(q - k) * (n + 1)];
        seen.beside = (q - k + 1..q).map(|c| share(factor[q + c * n], first)).fold(seen.beside, f64::max);
    }
    if answer == 0 {
        seen.accepted += 1;
        seen.last.push(factor[n * n - 1] / factor[(k - 1) * (n + 1)]);
    } else {
        seen.at[if rows < k { 4 } else { (rows - k).min(3) }] += 1;
        if rows >= k {
            let code = [7, 10, 11].iter().position(|&code| code == answer / 4096);
            seen.codes[code.expect("a diagonal is turned down")] += 1;
        }
    }
}

fn batches(matrices: u64, near: Option<f64>) {
    println!(
        "  k     1st     2nd     3rd   later  before  accepted    by 7   by 10   by 11  passed            reach       refused           beside            last diagonals"
    );
    for k in [1, 2, 3, 5, 10, 20] {
        let mut seen = Batches::default();
        for seed in 1..=matrices {
            batch(&mut Rng::new(seed), k, near, &mut seen);
        }
        let percent = |c: u64| 100.0 * c as f64 / matrices as f64;
        let shares = |counts: &[u64]| -> String { counts.iter().map(|&c| format!("  {:6.2}", percent(c))).collect() };
        let (at, codes) = (shares(&seen.at), shares(&seen.codes));
        seen.last.sort_by(f64::total_cmp);
        let last = match seen.last[..] {
            [] => "none".to_string(),
            [least, ..] => format!("{least:.1e} to {:.1e}", seen.last[seen.last.len() - 1]),
        };
        let [passed, refused, beside] = [seen.passed, seen.refused, seen.beside].map(power);
        let reach = format!("{} of {}", seen.reach, seen.rows);
        println!("{k:3}{at}    {:6.2}{codes}  {passed:<16}  {reach:<10}  {refused:<16}  {beside:<16}  {last}", percent(seen.accepted));
    }
}

fn main() {
    let mut words = std::env::args().skip(1).map(|w| w.parse::<u64>().expect("a number"));
    let (numbers, matrices) = (words.next().unwrap_or(200_000_000), words.next().unwrap_or(10_000));
    one_row(numbers);
    println!();
    println!("a batch of k rows twice, {matrices} matrices of order 2k by the text");
    println!("1st .. before: percent refused at that row of those that came again, or before them; then percent accepted");
    println!("by 7, 10, 11: percent refused at a row that came again, by its code: zero, below zero, NaN");
    println!("passed: the largest number on the diagonal of an accepted row that came again, as a share of its first twin's v");
    println!("reach: how many of these reach 2^-51; refused: the largest size of such a number where the row was refused");
    println!("beside: the largest entry of a row that came again right of its first twin's column, where exact numbers leave");
    println!("zero, as a share of that twin's diagonal; last diagonals: in accepted matrices, as shares of the first twin's");
    println!("rows by chance:");
    batches(matrices, None);
    println!("rows that differ by 2^-24 of their size:");
    batches(matrices, Some(1.0 / (1 << 24) as f64));
}
