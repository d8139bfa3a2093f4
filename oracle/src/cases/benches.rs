//! Benches: right-hand sides of several in one buffer, with a bench number for each column.

use super::families::{a_number, another_number, changed_record, mismarked_record, order, placed, sound_record};
use super::filled;
use super::matrices::{FOR_LBLT, Numbers, Symmetric, number, numbers, symmetric};
use super::rng::Rng;
use crate::call::{Call, Calls, Case, record_length};
use crate::text::Text;

/// A factor by chance, a list of bench numbers, and a call for each of two or three benches, some of which may have no column.
pub fn benches(seed: u64) -> Vec<Case> {
    // not the numbers that the family, the twin rows and the solves of this seed get
    let r = &mut Rng::new(seed ^ 1 << 62);
    let n = order(r).min(64);
    let factor = read(r, n);
    let numbers = three_numbers(r);
    let list = list(r, numbers);
    let asked = if r.one_in(2) { 3 } else { 2 };
    numbers[..asked].iter().map(|&bench| with_sides(r, &factor, bench, &list)).collect()
}

/// What stands in a factor's place: mostly one that is sound and of its run.
fn read(r: &mut Rng, n: usize) -> Case {
    let run = a_number(r);
    let m = symmetric(r, &FOR_LBLT, n);
    let own = factored(n, placed(r, &m, n, true), run);
    let other = |record: Vec<u32>| Case { record, ..own.clone() };
    match r.below(16) {
        0..6 => own,
        6..8 => unmarked(own),
        8..12 => {
            let record = sound_record(r, n, run);
            unmarked(Case { a: numbers(r, n * n), ..other(record) })
        }
        12 => other(sound_record(r, n, run)),
        13 => other(changed_record(r, &own.record)),
        14 => other(mismarked_record(r, n, run)),
        _ => Case { run: another_number(r, run), ..own },
    }
}

fn factored(n: usize, a: Vec<f64>, run: u32) -> Case {
    let mut own = Case { run, record: vec![9; record_length(n)], ..Case::new(Call::LbltFactor, n, a) };
    Text.lblt_factor(&mut own.a, &mut own.record, n, run);
    own
}

fn unmarked(mut case: Case) -> Case {
    case.record[2 * case.n] = 0;
    case
}

/// No two alike; often one bit or one unit apart.
fn three_numbers(r: &mut Rng) -> [u32; 3] {
    let one = a_number(r);
    let other = another_number(r, one);
    let third = another_number(r, other);
    let free = (0..3).find(|number| ![one, other].contains(number)).expect("two of three at most are taken");
    [one, other, if third == one { free } else { third }]
}

fn list(r: &mut Rng, numbers: [u32; 3]) -> Vec<u32> {
    let columns = match r.below(20) {
        0 => 0,
        1..14 => 1 + r.below(10),
        14..19 => 11 + r.below(20),
        _ => 31 + r.below(40),
    };
    match r.below(8) {
        0 => vec![numbers[0]; columns],
        1 => (0..columns).map(|j| numbers[j % 2]).collect(),
        2 => (0..columns).map(|_| numbers[r.below(2)]).collect(),
        3 => (0..columns).map(|_| numbers[r.below(3)]).collect(),
        // side by side
        _ => {
            let of = 2 + r.below(2);
            let mut out = vec![];
            while out.len() < columns {
                let width = 1 + r.below(9);
                out.extend(vec![numbers[r.below(of)]; width]);
            }
            out.truncate(columns);
            out
        }
    }
}

/// A solve of the bench's columns; what stands in the others is as hard as theirs, or harder.
fn with_sides(r: &mut Rng, factor: &Case, bench: u32, list: &[u32]) -> Case {
    let n = factor.n;
    let b = list.iter().flat_map(|&of| if of == bench || r.one_in(2) { numbers(r, n) } else { no_numbers(r, n) }).collect();
    Case { call: Call::LbltSolveBench, x: list.len(), bench, benches: list.to_vec(), b, ..factor.clone() }
}

/// NaNs with signs and payloads of their own, infinite numbers, any bits.
fn no_numbers(r: &mut Rng, n: usize) -> Vec<f64> {
    let nan = |r: &mut Rng| f64::from_bits(r.word() | 0x7ff0_0000_0000_0001);
    (0..n)
        .map(|_| match r.below(3) {
            0 => nan(r),
            1 => r.pick(&[f64::INFINITY, f64::NEG_INFINITY]),
            _ => number(r, Numbers::AnyBits),
        })
        .collect()
}

/// All lists of up to three columns over numbers at the ends and one bit apart, and of four over three of them, for each of these numbers.
pub fn bench_lists() -> Vec<Case> {
    let numbers = [1, 1 + (1 << 31), 2, 1 + (1 << 16), 0, u32::MAX];
    let mut out = vec![];
    for (columns, of) in [(0, 6), (1, 6), (2, 6), (3, 6), (4, 3)] {
        for t in 0..numbers[..of].len().pow(columns) {
            let list: Vec<u32> = (0..columns).map(|j| numbers[t / of.pow(j) % of]).collect();
            for &bench in &numbers[..of] {
                let mut case = factored(2, vec![0.0, 1.0, f64::NAN, 0.0], 7);
                case.call = Call::LbltSolveBench;
                out.push(Case { x: list.len(), bench, benches: list.clone(), b: filled(2 * list.len()), ..case });
            }
        }
    }
    out
}

/// Orders up to 20 and some above, a bench of 1 to 9 columns on both sides of another of 9 to 1, asked by each.
pub fn benches_of_all_orders() -> Vec<Case> {
    let r = &mut Rng::new(66);
    let mut out = vec![];
    for n in (0..=20).chain([33, 60, 64, 128]) {
        let m = Symmetric::of(n, |_, _| r.unit());
        let own = unmarked(factored(n, placed(r, &m, n, true), 3));
        let other = unmarked(Case { record: sound_record(r, n, 3), a: numbers(r, n * n), ..own.clone() });
        for width in 1..=9 {
            let list = [vec![1; width], vec![2; 10 - width], vec![1; width]].concat();
            for (factor, bench) in [(&own, 1), (&own, 2), (&other, 1), (&other, 2)] {
                out.push(with_sides(r, factor, bench, &list));
            }
        }
    }
    out
}

/// Order 1,024 and 1,024 columns, and 1,025 with slices to match.
pub fn largest_benches() -> Vec<Case> {
    let r = &mut Rng::new(1027);
    let (n, m) = (1024, 1025);
    let unit = |r: &mut Rng, n: usize| unmarked(factored(n, (0..n * n).map(|_| r.unit()).collect(), 1));
    let [none, one, three, whole] = [0, 1, 3, n].map(|n| unit(r, n));
    let halves = |columns: usize| -> Vec<u32> { (0..columns).map(|j| (j % 7 < 4) as u32).collect() };
    let beyond = Case { record: vec![9; record_length(m)], ..Case::new(Call::LbltFactor, m, filled(m * m)) };
    let short = |case: Case, columns: usize| Case { benches: halves(columns), ..case };
    vec![
        with_sides(r, &whole, 1, &halves(9)),
        with_sides(r, &Case { run: 2, ..whole.clone() }, 1, &halves(9)),
        with_sides(r, &whole, 2, &halves(9)),
        with_sides(r, &three, 0, &halves(n)),
        with_sides(r, &three, 1, &halves(n)),
        with_sides(r, &three, 1, &halves(m)),
        short(with_sides(r, &three, 1, &halves(n)), m),
        short(with_sides(r, &three, 1, &halves(m)), n),
        with_sides(r, &one, 1, &halves(n)),
        with_sides(r, &one, 1, &halves(m)),
        with_sides(r, &none, 0, &halves(n)),
        with_sides(r, &none, 0, &halves(m)),
        with_sides(r, &beyond, 1, &halves(2)),
    ]
}
