//! Cases that need no chance: special numbers at orders 1 and 2, and every way to be refused.

use crate::back::{reader, writer};
use crate::call::{Call, Calls, Case, FORMS, Number, Slice, record_length};
use crate::cases::filled;
use crate::text::Text;

pub const SPECIAL: [f64; 32] = [
    0.0,
    -0.0,
    1.0,
    -1.0,
    0.5,
    2.0,
    -3.0,
    4.0,
    f64::from_bits(0x3ff0_0000_0000_0001),
    f64::from_bits(0x3fef_ffff_ffff_ffff),
    0.6403882032022076,
    -0.6403882032022076,
    f64::from_bits(1),
    f64::from_bits(0x8000_0000_0000_0001),
    f64::from_bits(0x000f_ffff_ffff_ffff),
    f64::from_bits(0x0010_0000_0000_0000),
    f64::from_bits(0x8010_0000_0000_0000),
    f64::from_bits(0x1a70_0000_0000_0000),
    f64::from_bits(0x1e60_0000_0000_0000),
    f64::from_bits(0x6570_0000_0000_0000),
    f64::from_bits(0xe570_0000_0000_0000),
    f64::from_bits(0x5fef_ffff_ffff_ffff),
    f64::from_bits(0x7fe0_0000_0000_0000),
    f64::MAX,
    f64::MIN,
    f64::INFINITY,
    f64::NEG_INFINITY,
    f64::NAN,
    f64::from_bits(0xfff8_0000_0000_0001),
    f64::from_bits(0x7ff0_0000_0000_0001),
    1e16,
    -1e-16,
];

/// The run number of these cases.
pub(super) const RUN: u32 = 7;

/// The calls on one matrix of order 1 or 2 whose lower entries are given.
fn on(lower: &[f64], side: [f64; 2]) -> Vec<Case> {
    let n = if lower.len() == 1 { 1 } else { 2 };
    let mut a = filled(n * n);
    let mut p = filled(n * n);
    a[0] = lower[0];
    p[0] = lower[0];
    if n == 2 {
        a[1] = lower[1];
        a[3] = lower[2];
        p[2] = lower[1];
        p[3] = lower[2];
    }
    let factor = Case { run: RUN, record: vec![9; record_length(n)], ..Case::new(Call::LbltFactor, n, a.clone()) };
    let mut factored = factor.clone();
    Text.lblt_factor(&mut factored.a, &mut factored.record, n, RUN);
    let reader = |call| Case { call, b: filled(n * n), ..factored.clone() };
    let cholesky = Case { x: n, ..Case::new(Call::CholeskyFactor, n, a) };
    let twin = Case { call: Call::FirstTwin, ..cholesky.clone() };
    let mut rooted = cholesky.clone();
    Text.cholesky_factor(&mut rooted.a, n, n);
    let solve = |factor: &Case, b: Vec<f64>| Case { call: Call::CholeskySolve, y: b.len() / n, b, ..factor.clone() };
    let five_columns: Vec<f64> = lower.iter().chain(&side[..n]).copied().cycle().take(5 * n).collect();
    vec![
        factor,
        Case { x: 1, b: side[..n].to_vec(), ..reader(Call::LbltSolve) },
        Case { x: 5, bench: 1, benches: vec![1, 2, 2, 1, 1], b: five_columns.clone(), ..reader(Call::LbltSolveBench) },
        Case { b: vec![], ..reader(Call::LbltDeterminant) },
        reader(Call::LbltD),
        reader(Call::LbltLPermuted),
        Case { call: Call::CholeskyExtend, y: n - 1, ..cholesky.clone() },
        solve(&cholesky, side[..n].to_vec()),
        solve(&cholesky, five_columns),
        solve(&rooted, side[..n].to_vec()),
        cholesky,
        Case { call: Call::CholeskyDeterminant, ..rooted.clone() },
        Case { call: Call::CholeskyL, b: filled(n * n), ..rooted },
        Case { b: filled(n * n), c: filled(n), ..Case::new(Call::UduFactor, n, p) },
        Case { call: Call::FirstTwinSince, y: n - 1, ..twin.clone() },
        twin,
    ]
}

/// Order 1: every special number with every special right-hand side. Order 2: every triple of them.
pub fn sweep() -> impl Iterator<Item = Case> {
    let ones = SPECIAL.iter().flat_map(|&x| SPECIAL.iter().flat_map(move |&y| on(&[x], [y, 0.0])));
    let twos = (0..SPECIAL.len().pow(3)).flat_map(|t| {
        let at = |k: usize| SPECIAL[k % SPECIAL.len()];
        let side = [at(t * 7 + t / 32), at(t * 5 + t / 1024 + 3)];
        on(&[at(t), at(t / 32), at(t / 1024)], side)
    });
    ones.chain(twos)
}

const IN_A_ROOM: [Call; 8] = [
    Call::CholeskyFactor,
    Call::CholeskyExtend,
    Call::CholeskySolve,
    Call::CholeskyL,
    Call::CholeskyUnpack,
    Call::CholeskyDeterminant,
    Call::FirstTwinSince,
    Call::FirstTwin,
];

pub(super) const FAR: [usize; 6] = [1025, 1026, 4096, 1 << 32, 1 << 63, usize::MAX];

/// Wrong counts, wrong orders, wrong lengths and broken records, alone and together, so that the order of the checks shows.
pub fn refusals() -> Vec<Case> {
    let mut out = vec![];
    for n in 0..4usize {
        let mut sound: Vec<u32> = (0..n as u32).flat_map(|k| [k, 1]).collect();
        sound.extend([0, RUN]);
        for call in [Call::LbltFactor, Call::LbltSolve, Call::LbltDeterminant, Call::LbltD, Call::LbltLPermuted] {
            let base = Case {
                x: if call == Call::LbltSolve { 2 } else { 0 },
                b: filled(if call == Call::LbltSolve { 2 * n } else { n * n }),
                run: RUN,
                record: sound.clone(),
                ..Case::new(call, n, filled(n * n))
            };
            spoiled(&mut out, &base);
        }
        for room in n..n + 2 {
            for call in IN_A_ROOM {
                let (y, len) = if call == Call::CholeskySolve { (2, 2 * n) } else { (n / 2, n * n) };
                let base = Case { x: room, y, b: filled(len), ..Case::new(call, n, filled(room * room)) };
                spoiled(&mut out, &base);
            }
        }
        spoiled(&mut out, &Case { b: filled(n * n), c: filled(n), ..Case::new(Call::UduFactor, n, filled(n * n)) });
        list_refusals(&mut out, n);
    }
    out.retain(fits);
    records(&mut out);
    out.extend(marks());
    out.extend(runs());
    bench_refusals(&mut out);
    out
}

/// As for `lblt_solve`, by a bench that has a column and by one that has none.
fn bench_refusals(out: &mut Vec<Case>) {
    let by = |bench: u32, solve: &Case| {
        let benches = (0..solve.x).map(|j| j as u32 + 1).collect();
        Case { call: Call::LbltSolveBench, bench, benches, ..solve.clone() }
    };
    let mut solves = vec![];
    records(&mut solves);
    solves.extend(marks());
    solves.extend(runs());
    solves.retain(|case| case.call == Call::LbltSolve);
    out.extend(solves.iter().flat_map(|solve| [by(1, solve), by(u32::MAX, solve)]));
    for n in 0..4 {
        let mut record: Vec<u32> = (0..n as u32).flat_map(|k| [k, 1]).collect();
        record.extend([0, RUN]);
        let solve = Case { x: 2, b: filled(2 * n), run: RUN, record, ..Case::new(Call::LbltSolve, n, filled(n * n)) };
        spoiled(out, &by(1, &solve));
        spoiled(out, &by(3, &solve));
    }
}

/// A list of rows that stay and one that ends in a block of size 2, read, and as records written.
fn list_refusals(out: &mut Vec<Case>, n: usize) {
    let alone: Vec<i32> = (1..=n as i32).collect();
    let mut block = alone.clone();
    block.iter_mut().rev().take(2).for_each(|number| *number = -(n as i32));
    for list in [alone, block] {
        let mut record: Vec<u32> = list.iter().flat_map(|p| [p.unsigned_abs() - 1, if *p < 0 { 2 } else { 1 }]).collect();
        record.extend([0, RUN]);
        spoiled(out, &reader(n, list, 0, RUN));
        spoiled(out, &writer(n, record));
    }
}

/// The case with one or two things changed in it.
pub(super) fn spoiled(out: &mut Vec<Case>, base: &Case) {
    let base = &taken(base.clone());
    let edits = edits(base);
    out.push(base.clone());
    for (at, one) in edits.iter().enumerate() {
        let mut case = base.clone();
        one.apply(&mut case);
        out.push(case.clone());
        for other in &edits[at + 1..] {
            let mut both = case.clone();
            other.apply(&mut both);
            out.push(both);
        }
    }
}

#[derive(Clone, Copy)]
enum Edit {
    N(usize),
    X(usize),
    Y(usize),
    A(isize),
    B(isize),
    C(isize),
    RecordLength(isize),
    RecordWord(usize, u32),
    Run(u32),
    BenchesLength(isize),
    Bench(u32),
    ListLength(isize),
    ListNumber(usize, i32),
    Info(i32),
}

fn edits(base: &Case) -> Vec<Edit> {
    let mut out = vec![];
    for far in FAR {
        out.extend([Edit::N(far), Edit::X(far), Edit::Y(far)]);
    }
    out.extend([Edit::N(base.n + 1), Edit::X(base.x + 1), Edit::Y(base.n + 1), Edit::N(1024), Edit::X(1024)]);
    if base.x > 0 {
        out.push(Edit::X(base.x - 1));
    }
    for by in [-1, 1] {
        out.extend([Edit::A(by), Edit::B(by), Edit::C(by), Edit::RecordLength(by)]);
    }
    for at in 0..base.record.len() {
        for word in [0, 2, 3, base.n as u32, base.n as u32 + 1, u32::MAX] {
            out.push(Edit::RecordWord(at, word));
        }
    }
    if base.run == RUN {
        out.extend([0, RUN - 1, RUN + 1, u32::MAX].map(Edit::Run));
    }
    if base.call == Call::LbltSolveBench {
        out.extend([-2, -1, 1].map(Edit::BenchesLength));
        out.extend([0, 2, 1 + (1 << 16), 1 + (1 << 31)].map(Edit::Bench));
    }
    if base.call.form().slices.contains(&Slice::List) {
        out.extend([-2, -1, 1].map(Edit::ListLength));
    }
    if base.call == Call::PivotsFromLapack {
        let n = base.n as i32;
        let numbers = [i32::MIN, -n - 1, -n, -1, 0, 1, n, n + 1, i32::MAX];
        out.extend((0..base.n).flat_map(|at| numbers.map(|number| Edit::ListNumber(at, number))));
        out.extend(numbers.map(Edit::Info));
    }
    if FORMS.iter().any(|form| form.call.packed() == Some(base.call)) {
        let [a, b, c] = [&base.a, &base.b, &base.c].map(|s| s.len() as isize);
        let all_of_a_square = (base.n * base.n) as isize;
        out.extend([Edit::A(-a), Edit::B(-b), Edit::C(-c), Edit::A(all_of_a_square - a), Edit::C(all_of_a_square - c)]);
        out.extend([Edit::RecordLength(-(base.record.len() as isize)), Edit::X(base.n + 1)]);
    }
    out
}

impl Edit {
    fn apply(self, case: &mut Case) {
        match self {
            Edit::N(n) => case.n = n,
            Edit::X(x) => case.x = x,
            Edit::Y(y) => case.y = y,
            Edit::A(by) => lengthen(&mut case.a, by),
            Edit::B(by) => lengthen(&mut case.b, by),
            Edit::C(by) => lengthen(&mut case.c, by),
            Edit::RecordLength(by) => {
                let len = case.record.len().saturating_add_signed(by);
                case.record.resize(len, 0);
            }
            Edit::Run(run) => case.run = run,
            Edit::BenchesLength(by) => {
                let len = case.benches.len().saturating_add_signed(by);
                case.benches.resize(len, case.bench);
            }
            Edit::Bench(bench) => case.bench = bench,
            Edit::ListLength(by) => {
                let len = case.list.len().saturating_add_signed(by);
                case.list.resize(len, 1);
            }
            Edit::ListNumber(at, number) => {
                if let Some(place) = case.list.get_mut(at) {
                    *place = number;
                }
            }
            Edit::Info(info) => case.info = info,
            Edit::RecordWord(at, word) => {
                if let Some(place) = case.record.get_mut(at) {
                    *place = word;
                }
            }
        }
    }
}

fn lengthen(s: &mut Vec<f64>, by: isize) {
    let len = s.len().saturating_add_signed(by);
    s.resize(len, 7.0);
}

/// The case without what its call does not take.
fn taken(mut case: Case) -> Case {
    let form = case.call.form();
    if !form.numbers.contains(&Number::X) {
        case.x = 0;
    }
    if !form.numbers.contains(&Number::Y) {
        case.y = 0;
    }
    if !form.numbers.contains(&Number::Bench) {
        case.bench = 0;
    }
    if !form.numbers.contains(&Number::Run) {
        case.run = 0;
    }
    if !form.numbers.contains(&Number::Floor) {
        case.floor = 0.0;
    }
    if !form.slices.contains(&Slice::B) {
        case.b.clear();
    }
    if !form.slices.contains(&Slice::C) {
        case.c.clear();
    }
    if !form.slices.contains(&Slice::Record) {
        case.record.clear();
    }
    if !form.slices.contains(&Slice::Benches) {
        case.benches.clear();
    }
    if !form.slices.contains(&Slice::List) {
        case.list.clear();
    }
    case
}

/// Only what the call takes differs from empty and 0.
pub(super) fn fits(case: &Case) -> bool {
    let only = taken(case.clone());
    (only.x, only.y, only.run, only.size()) == (case.x, case.y, case.run, case.size())
}

/// All records of orders 1 and 2 over a few words, in each call that checks them, by their own run number and by another.
fn records(out: &mut Vec<Case>) {
    let words = [0, 1, 2, 3, u32::MAX];
    for n in 1..=2usize {
        let free = record_length(n) - 1;
        for t in 0..words.len().pow(free as u32) {
            let word = |at: usize| words[t / words.len().pow(at as u32) % words.len()];
            let record: Vec<u32> = (0..free).map(word).chain([RUN]).collect();
            out.extend([RUN, RUN + 1].into_iter().flat_map(|run| readers(n, record.clone(), run)));
        }
    }
}

/// All records of order 3 whose pairs keep the rule, with every mark up to one above the order, in each call that checks them.
pub fn marks() -> impl Iterator<Item = Case> {
    pairs_from(0, 3).into_iter().flat_map(|pairs| (0..5).flat_map(move |mark| readers(3, [&pairs[..], &[mark, RUN]].concat(), RUN)))
}

/// Records with run numbers at the ends and between: sound, marked, broken in a row and at the mark, of no rows. Each is read by its own number and
/// by others, one bit or one unit beside it and at the ends, by each call and by a solve of no columns.
pub fn runs() -> Vec<Case> {
    let records: [(usize, &[u32]); 5] =
        [(0, &[0]), (2, &[1, 2, 1, 2, 0]), (2, &[1, 1, 1, 1, 2]), (2, &[1, 1, 0, 1, 2]), (2, &[1, 1, 1, 1, 1])];
    let mut out = vec![];
    for (n, words) in records {
        for run in [0, 20_261_116, u32::MAX] {
            let mut asked = vec![run, run ^ 1, run ^ 1 << 16, run ^ 1 << 31, run.wrapping_add(1), run.wrapping_sub(1), 0, u32::MAX];
            asked.sort_unstable();
            asked.dedup();
            for expected in asked {
                let cases = readers(n, [words, &[run]].concat(), expected);
                out.push(Case { x: 0, b: vec![], ..cases[0].clone() });
                out.extend(cases);
            }
        }
    }
    out
}

/// All pairs of the rows from k on that keep the rule.
pub(super) fn pairs_from(k: usize, n: usize) -> Vec<Vec<u32>> {
    let mut out = if k == n { vec![vec![]] } else { vec![] };
    for size in 1..=2usize {
        for index in k + size - 1..n {
            let block = [index as u32, size as u32].repeat(size);
            out.extend(pairs_from(k + size, n).into_iter().map(|rest| [&block[..], &rest].concat()));
        }
    }
    out
}

/// The calls that read a record, expecting this run number.
fn readers(n: usize, record: Vec<u32>, run: u32) -> [Case; 4] {
    let base = Case { run, record, ..Case::new(Call::LbltDeterminant, n, (1..=n * n).map(|x| x as f64).collect()) };
    let filler = |call| Case { call, b: filled(n * n), ..base.clone() };
    [Case { call: Call::LbltSolve, x: 1, b: filled(n), ..base.clone() }, filler(Call::LbltD), filler(Call::LbltLPermuted), base]
}
