//! Lists of matrices with NaN, infinities, zeros, and numbers at the ends of the range: is every list read?

use oracle::call::{Calls, record_length};
use oracle::cases::Rng;

use crate::fortran::{List, Uplo::Lower, block_size, dsytf2, dsytrf, dsytrs, in_blocks};
use crate::lists::{RUN, Trips, read, written};
use crate::matrix::{lower, placed, same_bits, shown, shown_answer, shown_list};

const NAN: f64 = f64::NAN;
const INF: f64 = f64::INFINITY;

const NUMBERS: [f64; 16] = [0.0, 0.0, 0.0, -0.0, 1.0, 1.0, -1.0, 2.0, 0.5, NAN, INF, -INF, 1e-300, 1e300, 5e-324, f64::MAX];

/// What is counted of one routine.
struct Routine {
    name: String,
    trips: Trips,
    /// Our own factor has the same pivots and mark.
    same: u64,
    /// INFO names a row whose diagonal of the factor is zero, NaN, or another number.
    zero: u64,
    nan: u64,
    other: u64,
}

impl Routine {
    fn new(name: &str) -> Routine {
        Routine { name: name.into(), trips: Trips::default(), same: 0, zero: 0, nan: 0, other: 0 }
    }

    fn add(&mut self, ours: &dyn Calls, a: &[f64], n: usize, own: &[u32], by: impl Fn(&mut [f64]) -> List) {
        let mut factor = a.to_vec();
        let list = by(&mut factor);
        let record = self.trips.there_and_back(ours, a, &list);
        self.same += record.is_some_and(|record| record == own) as u64;
        if let Some(k) = (list.info as usize).checked_sub(1) {
            match factor[k + k * n] {
                0.0 => self.zero += 1,
                x if x.is_nan() => self.nan += 1,
                _ => self.other += 1,
            }
        }
    }

    fn print(&self) {
        let Routine { name, trips, same, zero, nan, other } = self;
        println!("    {name}: {}; our own factor's record in {same}", trips.shown());
        println!(
            "      INFO above 0 in {}: the diagonal of that row is zero in {zero}, NaN in {nan}, another number in {other}",
            trips.infos
        );
    }
}

fn own_record(ours: &dyn Calls, a: &[f64], n: usize) -> Vec<u32> {
    let mut record = vec![0; record_length(n)];
    assert_eq!(ours.lblt_factor(&mut a.to_vec(), &mut record, n, RUN), 0);
    record
}

/// The routines, on small matrices: also `dsytrf`'s blocked code, with blocks of two and three columns.
struct Small([Routine; 4]);

impl Small {
    fn new() -> Small {
        Small(["dsytf2", "dsytrf", "dlasyf by blocks of 2", "dlasyf by blocks of 3"].map(Routine::new))
    }

    fn add(&mut self, ours: &dyn Calls, a: &[f64], n: usize) {
        let own = own_record(ours, a, n);
        let [unblocked, standard, twos, threes] = &mut self.0;
        unblocked.add(ours, a, n, &own, |a| dsytf2(Lower, a, n, n));
        standard.add(ours, a, n, &own, |a| dsytrf(Lower, a, n, n, block_size(n)));
        if n > 2 {
            twos.add(ours, a, n, &own, |a| in_blocks(a, n, 2));
        }
        if n > 3 {
            threes.add(ours, a, n, &own, |a| in_blocks(a, n, 3));
        }
    }
}

pub fn numbers(ours: &dyn Calls, matrices: u64, first: u64) -> bool {
    println!("lists of matrices with special numbers");
    let mut all = Small::new();
    for n in 1..=4 {
        for code in 0..3u64.pow((n * (n + 1) / 2) as u32) {
            let mut rest = code;
            let a = lower(n, |_, _| {
                let x = [0.0, 1.0, NAN][(rest % 3) as usize];
                rest /= 3;
                x
            });
            all.add(ours, &a, n);
        }
    }
    println!("  all matrices of 0, 1 and NaN of orders 1 to 4");
    all.0.iter().for_each(Routine::print);

    let mut small = Small::new();
    for seed in first..first + 20 * matrices {
        let r = &mut Rng::new(seed);
        let n = 1 + r.below(6);
        // now and then without NaN and infinities
        let from = if r.one_in(2) { &NUMBERS[..] } else { &NUMBERS[..9] };
        small.add(ours, &lower(n, |_, _| r.pick(from)), n);
    }
    println!("  {} random matrices of orders 1 to 6 of these numbers: {NUMBERS:?}", 20 * matrices);
    small.0.iter().for_each(Routine::print);

    let mut large = [Routine::new("dsytf2"), Routine::new("dsytrf by blocks")];
    let orders = matrices.div_ceil(5);
    for seed in first..first + orders {
        let r = &mut Rng::new(seed);
        let n = 65 + r.below(64);
        let a = mixed(r, n);
        let block = if r.one_in(2) { 8 + r.below(57) } else { block_size(n) };
        let own = own_record(ours, &a, n);
        large[0].add(ours, &a, n, &own, |a| dsytf2(Lower, a, n, n));
        large[1].add(ours, &a, n, &own, |a| dsytrf(Lower, a, n, n, block));
    }
    println!("  {orders} random matrices of orders 65 to 128: of these numbers, with few of them, or of ones beside the diagonal");
    large.iter().for_each(Routine::print);
    examples(ours);
    all.0.iter().chain(&small.0).chain(&large).all(|routine| routine.trips.held())
}

fn mixed(r: &mut Rng, n: usize) -> Vec<f64> {
    match r.below(4) {
        0 => lower(n, |_, _| r.pick(&NUMBERS)),
        1 => lower(n, |_, _| if r.one_in(n * n / 2) { r.pick(&NUMBERS) } else { r.unit() }),
        2 => lower(n, |_, _| if r.one_in(n * n / 2) { r.pick(&NUMBERS[9..12]) } else { r.unit() }),
        _ => lower(n, |i, j| if i == j || i == j + 1 && r.one_in(8) { 1.0 } else { 0.0 }),
    }
}

fn examples(ours: &dyn Calls) {
    let (far, near) = (f64::from_bits((1023 + 600) << 52), f64::from_bits((1023 - 600) << 52));
    #[rustfmt::skip]
    let examples: [(&str, &[f64]); 3] = [
        ("a ratio that underflows", &[0.0, near, 0.0, 0.0, far, 0.0]),
        ("a column that becomes zero", &[1.0, 1.0, 1.0, 0.0, 0.0, 1.0, 0.0, 0.0, 0.0, 1.0]),
        ("a NaN alone in its column", &[NAN, 0.0, 2.0, 0.0, 1.0, 3.0, 0.0, 0.0, 0.0, 1.0]),
    ];
    println!("  small ones: factor by lower rows, list, INFO; solutions for a right-hand side 1, 2, ..; determinants by our call");
    for (what, rows) in examples {
        let (a, n) = placed(rows);
        println!("  {what}: {}", shown(&a, n));
        for (name, factor, list) in factored(ours, &a, n, &[2, 3]) {
            println!("    {name}: {}, {}; {}", shown(&factor, n), shown_list(&list), used(ours, &factor, &list, n));
        }
    }
    println!("  ones on the diagonal, zeros below, of order 66, and one entry changed");
    for (what, at, x) in [("1 at (1, 0)", 1, 1.0), ("NaN at (0, 0)", 0, NAN)] {
        let n = 66;
        let mut a = lower(n, |i, j| if i == j { 1.0 } else { 0.0 });
        a[at] = x;
        for (name, factor, list) in factored(ours, &a, n, &[]) {
            let diagonal = (0..n).map(|k| (k, factor[k + k * n])).filter(|d| d.1 != 1.0);
            let shown: Vec<String> = diagonal.map(|(k, d)| format!("{d:?} at row {k}")).collect();
            let exchanged = list.ipiv.iter().enumerate().filter(|&(row, &p)| p != row as i32 + 1).count();
            println!(
                "    {what}, {name}: on the factor's diagonal ones, {}; {exchanged} numbers not their own row, INFO {}; {}",
                if shown.is_empty() { "nothing else".into() } else { shown.join(", ") },
                list.info,
                used(ours, &factor, &list, 2)
            );
        }
    }
}

/// By our call, `dsytf2`, `dsytrf`, and `dlasyf` by blocks of these sizes. What leaves the same stands together.
fn factored(ours: &dyn Calls, a: &[f64], n: usize, blocks: &[usize]) -> Vec<(String, Vec<f64>, List)> {
    let mut own = a.to_vec();
    let mut record = vec![0; record_length(n)];
    assert_eq!(ours.lblt_factor(&mut own, &mut record, n, RUN), 0);
    let (list, _) = written(ours, &record).expect("our own record is sound");
    let mut all = vec![("our factor".to_string(), own, list)];
    let mut add = |name: String, by: &dyn Fn(&mut [f64]) -> List| {
        let mut factor = a.to_vec();
        let list = by(&mut factor);
        match all.last_mut() {
            Some((names, same, pivots)) if *pivots == list && same_bits(same, &factor) => *names += &format!(", {name}"),
            _ => all.push((name, factor, list)),
        }
    };
    add("dsytf2".into(), &|a| dsytf2(Lower, a, n, n));
    add("dsytrf".into(), &|a| dsytrf(Lower, a, n, n, block_size(n)));
    for &block in blocks.iter().filter(|&&block| block < n) {
        add(format!("dlasyf by blocks of {block}"), &|a| in_blocks(a, n, block));
    }
    all
}

/// What our solve, `dsytrs` and our determinant make of a factor and its list; of the solutions the first numbers.
fn used(ours: &dyn Calls, factor: &[f64], list: &List, numbers: usize) -> String {
    let n = list.ipiv.len();
    let record = match read(ours, list) {
        Ok(record) => record,
        Err(refused) => return format!("! the list is refused by {}", shown_answer(refused)),
    };
    let b: Vec<f64> = (1..=n).map(|k| k as f64).collect();
    let (mut x, mut y) = (b.clone(), b);
    dsytrs(factor, &list.ipiv, &mut y, n, 1);
    let solved = match ours.lblt_solve(factor, &record, &mut x, n, 1, RUN) {
        0 => format!("{:?}", &x[..numbers]),
        refused => format!("refuses by {}", shown_answer(refused)),
    };
    let determinant = ours.lblt_determinant(factor, &record, n, RUN).1;
    format!("our solve {solved}, dsytrs {:?}, determinant {determinant:?}", &y[..numbers])
}
