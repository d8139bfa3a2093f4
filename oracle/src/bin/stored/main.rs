//! stored FOLDER: writes the stored lists, each as FOLDER/NAME/stdin.
//! stored --replay FOLDER: replays them on the text and on the steps and says what differs.

mod floored;
mod handheld;
mod teaching;
mod tray;

use std::path::Path;
use std::process::ExitCode;
use std::{env, fs, io};

use oracle::back::reader;
use oracle::call::{Call, Calls, Case, Number, Slice, record_length};
use oracle::cases::{self, Rng, SPECIAL, fill, filled};
use oracle::list::{MOST, Machine, Pattern, Spot, Writer};
use oracle::packed::{beside, pack, packed_length};
use oracle::paper::Paper;
use oracle::text::Text;

type Make = fn(&mut Writer);

const LISTS: [(&str, Make); 4] = [("replay_lblt", lblt), ("replay_cholesky", cholesky), ("replay_udu", udu), ("replay_twins", twins)];

fn main() -> ExitCode {
    let words: Vec<String> = env::args().skip(1).collect();
    let words: Vec<&str> = words.iter().map(String::as_str).collect();
    let done = match words[..] {
        ["--replay", folder] => replay(Path::new(folder)),
        [folder] => write(Path::new(folder)),
        _ => Err(io::Error::other("usage: stored FOLDER, or stored --replay FOLDER")),
    };
    match done {
        Ok(()) => ExitCode::SUCCESS,
        Err(e) => {
            eprintln!("{e}");
            ExitCode::FAILURE
        }
    }
}

fn write(folder: &Path) -> io::Result<()> {
    for (name, make) in LISTS {
        let mut w = Writer::new(&Text);
        make(&mut w);
        let bytes: Vec<u8> = w.list.iter().flat_map(|word| word.to_le_bytes()).collect();
        fs::create_dir_all(folder.join(name))?;
        fs::write(folder.join(name).join("stdin"), &bytes)?;
        println!("{name}: {} cases, {} bytes", w.cases, bytes.len());
    }
    Ok(())
}

fn replay(folder: &Path) -> io::Result<()> {
    for (name, _) in LISTS {
        let bytes = fs::read(folder.join(name).join("stdin"))?;
        let list: Vec<u64> = bytes.chunks_exact(8).map(|b| u64::from_le_bytes(b.try_into().expect("8 bytes"))).collect();
        let who: &[(&str, &dyn Calls)] = if name == "replay_twins" { &[("steps", &Paper)] } else { &[("text", &Text), ("steps", &Paper)] };
        for &(who, calls) in who {
            let mut machine = Machine::new(calls);
            machine.replay(&list);
            println!("{name}, {who}: {} cases, {} calls, {} differ", machine.cases, machine.calls_made, machine.differences.len());
            if let Some(first) = machine.differences.first() {
                return Err(io::Error::other(first.clone()));
            }
        }
    }
    Ok(())
}

/// Sets what the case lends, where it is not there already, and makes its call.
fn emit(w: &mut Writer, case: &Case) -> u64 {
    for &slice in case.call.form().slices {
        let words: Vec<u64> = match slice {
            Slice::A => bits(&case.a),
            Slice::B => bits(&case.b),
            Slice::C => bits(&case.c),
            Slice::Record => halves(&case.record),
            Slice::Benches => halves(&case.benches),
            Slice::List => signed(&case.list),
            Slice::Runs => [halves(&case.runs), case.answers.clone()].concat(),
            // behind the run numbers
            Slice::Answers => continue,
        };
        set_unless_there(w, slice, &words);
    }
    if case.call.form().numbers.contains(&Number::Floor) {
        floored::set_floor(w, case.floor);
    }
    w.call(case.call, case.n, case.second(), case.third())
}

fn signed(list: &[i32]) -> Vec<u64> {
    list.iter().map(|&number| number as u32 as u64).collect()
}

fn bits(s: &[f64]) -> Vec<u64> {
    s.iter().map(|x| x.to_bits()).collect()
}

fn halves(words: &[u32]) -> Vec<u64> {
    words.iter().map(|&x| x as u64).collect()
}

fn emit_all<'a>(w: &mut Writer, cases: impl IntoIterator<Item = &'a Case>) {
    w.case();
    for case in cases {
        emit(w, case);
    }
}

fn fits(case: &Case) -> bool {
    let [floats, halves, record] = MOST;
    case.a.len().max(case.b.len()).max(case.c.len()) <= floats
        && case.benches.len().max(case.list.len()) <= halves
        && case.record.len() <= record
}

/// Families of this library with orders from `orders`, until `words` more have been written.
fn families(w: &mut Writer, first: Call, orders: std::ops::RangeInclusive<usize>, words: usize, seed: u64) {
    let end = w.list.len() + words;
    let mut seed = seed;
    while w.list.len() < end {
        let family = cases::family(seed).cases;
        if family[0].call == first && orders.contains(&family[0].n) {
            emit_all(w, &family);
        }
        seed += 1;
    }
}

/// Calls of the seeds from `seed` on with orders from `orders`, each a case of its own, until `words` more have been written.
fn calls_by_seed(w: &mut Writer, of_a_seed: impl Fn(u64) -> Vec<Case>, orders: std::ops::RangeInclusive<usize>, words: usize, seed: u64) {
    let end = w.list.len() + words;
    let mut seed = seed;
    while w.list.len() < end {
        for case in of_a_seed(seed).iter().filter(|case| orders.contains(&case.n)) {
            emit_all(w, [case]);
        }
        seed += 1;
    }
}

/// Of the refusals of these calls, some for each call and code.
fn refusals(w: &mut Writer, calls: &[Call]) {
    some_of_each_code(w, cases::refusals(), calls);
}

fn some_of_each_code(w: &mut Writer, cases: Vec<Case>, calls: &[Call]) {
    let all: Vec<Case> = cases.into_iter().filter(|c| calls.contains(&c.call) && fits(c)).collect();
    for &call in calls {
        for code in (1..=6).chain([12, 13]) {
            let of_code = |c: &&Case| c.call == call && c.outcome(&Text).answer / 4096 == code;
            let some: Vec<&Case> = all.iter().filter(of_code).collect();
            for at in 0..some.len().min(4) {
                emit_all(w, [some[(2 * at + 1) * some.len() / 8]]);
            }
        }
    }
}

/// Sound records with each word changed to each of a few.
fn records(w: &mut Writer) {
    let run = 7;
    let sound: [&[u32]; 5] =
        [&[0, 1, 0, run], &[1, 1, 1, 1, 2, run], &[1, 2, 1, 2, 0, run], &[0, 1, 2, 2, 2, 2, 1, run], &[2, 2, 2, 2, 2, 1, 0, run]];
    for record in sound {
        let n = record.len() / 2 - 1;
        for at in 0..record.len() {
            for word in [0, 1, 2, 3, n as u32, n as u32 + 1, u32::MAX] {
                let mut changed = record.to_vec();
                changed[at] = word;
                let a = (0..n * n).map(|at| at as f64 + 1.0).collect();
                emit_all(w, [&Case { run, record: changed, ..Case::new(Call::LbltDeterminant, n, a) }]);
            }
        }
    }
}

/// A matrix by its lower rows.
fn matrix(n: usize, lower: &[f64]) -> Vec<f64> {
    matrix_in_room(n, n, lower)
}

fn matrix_in_room(n: usize, room: usize, lower: &[f64]) -> Vec<f64> {
    let mut a = filled(room * room);
    let mut given = lower.iter();
    for i in 0..n {
        for j in 0..=i {
            a[i + j * room] = *given.next().expect("all lower rows");
        }
    }
    a
}

/// The run number of a matrix of order n.
fn run_of(n: usize) -> usize {
    20_000 + n
}

/// The LBLT calls on one matrix; after the solve, a solve and a determinant that expect another run.
fn lblt_calls(w: &mut Writer, n: usize, columns: usize, sides: impl Fn(&mut Writer)) {
    let run = run_of(n);
    w.set(Slice::Record, &vec![9; record_length(n)]);
    w.call(Call::LbltFactor, n, 0, run);
    sides(w);
    w.call(Call::LbltSolve, n, columns, run);
    w.call(Call::LbltSolve, n, columns, run + 1);
    w.call(Call::LbltDeterminant, n, 0, run + 1);
    w.call(Call::LbltDeterminant, n, 0, run);
    for call in [Call::LbltD, Call::LbltLPermuted] {
        let square: Vec<u64> = filled(n * n).iter().map(|x| x.to_bits()).collect();
        w.set_or_fill(Slice::B, &square);
        w.call(call, n, 0, run);
    }
}

const ORDERS: [usize; 23] = [1, 2, 3, 4, 5, 6, 7, 8, 9, 10, 11, 12, 13, 14, 15, 16, 17, 18, 19, 20, 33, 60, 64];

fn lblt(w: &mut Writer) {
    let tiny = f64::from_bits((1023 - 600) << 52);
    let huge = f64::from_bits((1023 + 600) << 52);
    let document: [(usize, &[f64]); 10] = [
        (0, &[]),
        (2, &[0.0, 1.0, 0.0]),
        (2, &[0.0, 1.0, 4.0]),
        (2, &[0.0, f64::NAN, 5.0]),
        (1, &[f64::NAN]),
        (3, &[0.0, 3.0, 1.0, -3.0, 2.0, 1.0]),
        (3, &[0.0, tiny, 0.0, 0.0, huge, 0.0]),
        (2, &[4.0, 2.0, 3.0]),
        (3, &[0.0, -3.0, 3.0, 3.0, 3.0, -3.0]),
        (3, &[0.0, f64::INFINITY, 0.0, 1.0, 1.0, 1.0]),
    ];
    for (n, lower) in document {
        w.case();
        w.set(Slice::A, &matrix(n, lower).iter().map(|x| x.to_bits()).collect::<Vec<_>>());
        lblt_calls(w, n, 1, |w| w.set(Slice::B, &[3.0f64, 5.0, 7.0].map(f64::to_bits)[..n]));
    }
    for seed in 503..551 {
        emit_all(w, [&cases::alpha_case(seed)]);
    }
    refusals(w, &[Call::LbltFactor, Call::LbltSolve, Call::LbltDeterminant, Call::LbltD, Call::LbltLPermuted]);
    records(w);
    let marks: Vec<Case> = cases::marks().collect();
    for one_record in marks.chunk_by(|one, other| one.record == other.record) {
        emit_all(w, one_record);
    }
    let runs = cases::runs();
    for one_run in runs.chunk_by(|one, other| (&one.record, one.run) == (&other.record, other.run)) {
        emit_all(w, one_run);
    }
    families(w, Call::LbltFactor, 1..=4, 4000, 1_000_000);
    families(w, Call::LbltFactor, 5..=8, 3500, 1_100_000);
    families(w, Call::LbltFactor, 9..=12, 1500, 1_200_000);
    for n in ORDERS {
        for shift in [0.0, n as f64] {
            w.case();
            w.random(Slice::A, n * n, 1 + n as u64);
            w.shift(Slice::A, n, n, shift);
            lblt_calls(w, n, 2.min(64 / n), |w| w.random(Slice::B, n * 2.min(64 / n), 77));
            for columns in [4, 7, 64] {
                w.random(Slice::B, n * columns, 78);
                w.call(Call::LbltSolve, n, columns, run_of(n));
            }
        }
    }
    w.sweep(1, &SPECIAL);
    benches(w);
    lists(w);
    packed_lblt(w);
    handheld::lblt(w);
    tray::lblt(w);
}

/// A bench's call on what the registers hold.
fn solve_bench(w: &mut Writer, n: usize, columns: usize, bench: u32, run: u32) {
    w.call(Call::LbltSolveBench, n, columns, (bench as usize) << 32 | run as usize);
}

/// Calls by the benches of the seeds from `seed` on with orders from `orders`, the shorter ones, until `words` more have been written.
fn bench_families(w: &mut Writer, orders: std::ops::RangeInclusive<usize>, words: usize, seed: u64) {
    let end = w.list.len() + words;
    let mut seed = seed;
    while w.list.len() < end {
        let cases = cases::benches(seed);
        if orders.contains(&cases[0].n) && cases[0].b.len() <= 60 {
            emit_all(w, &cases);
        }
        seed += 1;
    }
}

/// Differs from bench 1 in one bit.
const HIGH: u32 = 1 + (1 << 31);

/// Columns side by side, as bench and how many: 64 columns, and 23.
const STRETCHES: [&[(u32, usize)]; 2] = [
    &[(1, 1), (2, 4), (1, 3), (HIGH, 1), (2, 8), (1, 4), (HIGH, 6), (1, 9), (2, 2), (1, 5), (2, 7), (1, 2), (2, 5), (1, 6), (HIGH, 1)],
    &[(2, 1), (1, 1), (2, 1), (1, 1), (2, 3), (1, 3), (2, 5), (1, 7), (2, 1)],
];

fn benches(w: &mut Writer) {
    let run = 7;
    // each bench in turn, one that has no column, and another run; the second matrix is marked
    let sides = [3.0, 5.0, f64::NAN, f64::INFINITY, 7.0, 11.0];
    let first: [(usize, &[f64]); 4] = [(2, &[0.0, 1.0, 0.0]), (2, &[0.0, f64::NAN, 5.0]), (1, &[2.0]), (0, &[])];
    for (n, lower) in first {
        w.case();
        w.set(Slice::A, &bits(&matrix(n, lower)));
        w.set(Slice::Record, &vec![9; record_length(n)]);
        w.call(Call::LbltFactor, n, 0, run as usize);
        w.set(Slice::B, &bits(&sides[..3 * n]));
        w.set(Slice::Benches, &[1, 2, 1]);
        for (bench, run) in [(3, run), (1, run), (1, run + 1), (3, run + 1), (2, run)] {
            solve_bench(w, n, 3, bench, run);
        }
        w.set(Slice::B, &[]);
        w.set(Slice::Benches, &[]);
        solve_bench(w, n, 0, 1, run);
        solve_bench(w, n, 0, 1, run + 1);
    }
    // numbers at the ends and one bit apart
    let numbers = [1, 0, HIGH, 1 + (1 << 16), u32::MAX, 2];
    w.case();
    w.set(Slice::A, &bits(&[2.0]));
    w.set(Slice::Record, &[0, 1, 0, run as u64]);
    w.set(Slice::B, &bits(&[3.0; 6]));
    w.set(Slice::Benches, &halves(&numbers));
    for bench in numbers {
        solve_bench(w, 1, 6, bench, run);
    }
    refusals(w, &[Call::LbltSolveBench]);
    // each count by itself at the most, above it, and not that of what is lent; then two at a time, so that the order of the checks shows
    w.case();
    w.set(Slice::B, &[ONE]);
    w.set(Slice::A, &[ONE]);
    w.set(Slice::Record, &[0, 1, 0, run as u64]);
    w.set(Slice::Benches, &[1]);
    for (n, columns) in [(1, 1), (1024, 1), (1025, 1), (1, 1024), (1, 1025), (0, 1), (2, 1), (1, 0), (1, 2), (2, 1025), (2, 2)] {
        solve_bench(w, n, columns, 1, run);
    }
    // one length at a time that is not the counts'
    w.case();
    for (columns, lens) in
        [(1, [0, 4, 1, 1]), (1, [2, 4, 1, 1]), (1, [1, 3, 1, 1]), (1, [1, 5, 1, 1]), (0, [1, 4, 1, 0]), (2, [1, 4, 1, 2])]
    {
        w.set(Slice::A, &[ONE; 2][..lens[0]]);
        w.set(Slice::Record, &[0, 1, 0, run as u64, run as u64][..lens[1]]);
        w.set(Slice::B, &[ONE][..lens[2]]);
        w.set(Slice::Benches, &[1; 2][..lens[3]]);
        solve_bench(w, 1, columns, 1, run);
    }
    // every length of the list with every record: sound, marked, broken in the row and at the mark
    w.case();
    w.set(Slice::A, &[ONE]);
    for record in [[0, 1, 0], [0, 1, 1], [0, 2, 0], [0, 1, 2]] {
        w.set(Slice::Record, &[&record[..], &[run as u64]].concat());
        for list in [0, 2, 1] {
            w.set(Slice::Benches, &[1, 1][..list]);
            for (bench, run) in [(1, run + 1), (2, run + 1), (1, run), (2, run)] {
                solve_bench(w, 1, 1, bench, run);
            }
        }
    }
    // sound records with each word changed to each of a few, for a bench that has a column and for one that has none
    for record in [[1, 1, 1, 1, 2, run], [1, 2, 1, 2, 0, run]] {
        for at in 0..record.len() {
            for word in [0, 1, 2, 3, u32::MAX] {
                let mut changed = record.to_vec();
                changed[at] = word;
                w.case();
                w.set(Slice::Record, &halves(&changed));
                if (at, word) == (0, 0) {
                    w.set(Slice::A, &bits(&[1.0, 2.0, 3.0, 4.0]));
                    w.set(Slice::Benches, &[2, 1]);
                }
                w.set_or_fill(Slice::B, &bits(&filled(4)));
                solve_bench(w, 2, 2, 1, run);
                solve_bench(w, 2, 2, 3, run);
            }
        }
    }
    bench_families(w, 1..=4, 900, 6_000_000);
    bench_families(w, 5..=8, 900, 6_100_000);
    bench_families(w, 9..=12, 600, 6_200_000);
    for (stretches, heavy) in STRETCHES.into_iter().zip([false, true]) {
        let list: Vec<u32> = stretches.iter().flat_map(|&(bench, width)| vec![bench; width]).collect();
        w.case();
        w.set(Slice::Benches, &halves(&list));
        for n in ORDERS {
            w.case();
            w.random(Slice::A, n * n, 20 + n as u64);
            if heavy {
                w.shift(Slice::A, n, n, n as f64);
            }
            w.set_or_fill(Slice::Record, &(0..record_length(n) as u64).collect::<Vec<_>>());
            w.call(Call::LbltFactor, n, 0, run as usize);
            w.random(Slice::B, n * list.len(), 21);
            for bench in [1, 2, HIGH] {
                solve_bench(w, n, list.len(), bench, run);
            }
        }
    }
}

/// Reads what register C holds, beside INFO.
fn read(w: &mut Writer, n: usize, info: i32, run: u32) -> u64 {
    w.call(Call::PivotsFromLapack, n, info as u32 as usize, run as usize)
}

/// Writes what register R holds over a list of nines.
fn written(w: &mut Writer, n: usize) -> u64 {
    set_unless_there(w, Slice::List, &vec![9; n]);
    w.call(Call::PivotsToLapack, n, 0, 0)
}

fn set_unless_there(w: &mut Writer, slice: Slice, words: &[u64]) {
    if w.words(slice) != words {
        w.set_or_fill(slice, words);
    }
}

/// Lists and records of the seeds from `seed` on with orders from `orders`, until `words` more have been written.
fn list_families(w: &mut Writer, orders: std::ops::RangeInclusive<usize>, words: usize, seed: u64) {
    let end = w.list.len() + words;
    let mut seed = seed;
    while w.list.len() < end {
        let cases = cases::lists(seed);
        if orders.contains(&cases[0].n) && cases.iter().all(fits) {
            emit_all(w, &cases);
        }
        seed += 1;
    }
}

fn lists(w: &mut Writer) {
    let run = 7;
    // every list over a few numbers, and every sound one of order 3; the sound ones beside other numbers as INFO too, and then written again
    let few: [(usize, &[i32], &[i32]); 4] = [
        (0, &[], &[-1, 1, i32::MIN, i32::MAX]),
        (1, &[1, -1, 0, 2, -2, i32::MIN, i32::MAX], &[-1, 1, 2, i32::MIN, i32::MAX]),
        (2, &[1, 2, 3, 0, -1, -2, -3], &[-1, 1, 2, 3, i32::MIN]),
        (3, &[1, 2, 3, -2, -3], &[1, 2, 3, 4]),
    ];
    for (n, numbers, infos) in few {
        let before = vec![9; record_length(n)];
        let sound = |list: &[i32]| reader(n, list.to_vec(), 0, run).outcome(&Text).answer == 0;
        for list in cases::lists_over(n, numbers).filter(|list| n < 3 || !list.contains(&2) || sound(list)) {
            w.case();
            set_unless_there(w, Slice::Record, &before);
            set_unless_there(w, Slice::List, &signed(&list));
            if read(w, n, 0, run) == 0 {
                for &info in infos {
                    read(w, n, info, run + 1);
                }
                written(w, n);
            }
        }
    }
    // a broken block beside an INFO that names no row
    w.case();
    w.set(Slice::Record, &[9; 6]);
    w.set(Slice::List, &[1, 1]);
    for info in [3, -1] {
        read(w, 2, info, run);
    }
    // sound records with each word changed to each of a few
    for record in [[1, 1, 1, 1, 2], [1, 2, 1, 2, 0]] {
        for at in 0..record.len() {
            for word in [0, 1, 2, 3, u32::MAX] {
                let mut changed = record.to_vec();
                changed[at] = word;
                changed.push(run);
                w.case();
                w.set(Slice::Record, &halves(&changed));
                written(w, 2);
            }
        }
    }
    refusals(w, &[Call::PivotsFromLapack, Call::PivotsToLapack]);
    // each count by itself at the most, above it, and not that of what is lent
    w.case();
    w.set(Slice::List, &[1]);
    w.set(Slice::Record, &[0, 1, 0, run as u64]);
    for n in [1, 0, 2, 1024, 1025, 1 << 32, 1 << 63, usize::MAX] {
        read(w, n, 0, run);
        w.call(Call::PivotsToLapack, n, 0, 0);
    }
    // one length at a time that is not the order's, with what is sound and what is not
    w.case();
    for number in [1, 0] {
        for (list, words) in [(0, 4), (2, 4), (1, 3), (1, 5)] {
            w.set(Slice::List, &[number; 2][..list]);
            w.set(Slice::Record, &[0, number, 0, run as u64, run as u64][..words]);
            read(w, 1, 0, run);
            w.call(Call::PivotsToLapack, 1, 0, 0);
        }
    }
    list_families(w, 1..=4, 400, 7_000_000);
    list_families(w, 5..=12, 600, 7_100_000);
    // what a factor leaves, written and read again with another run number; then with a number of the list changed
    for n in [5, 9, 16, 20, 33, 60, 64] {
        w.case();
        w.random(Slice::A, n * n, 30 + n as u64);
        w.set_or_fill(Slice::Record, &(0..record_length(n) as u64).collect::<Vec<_>>());
        w.call(Call::LbltFactor, n, 0, run as usize);
        w.set_or_fill(Slice::List, &(0..n as u64).collect::<Vec<_>>());
        w.call(Call::PivotsToLapack, n, 0, 0);
        w.set_or_fill(Slice::Record, &(0..record_length(n) as u64).collect::<Vec<_>>());
        read(w, n, 0, u32::MAX);
        let mut list = w.words(Slice::List);
        list[n / 2] = (list[n / 2] as i32).wrapping_neg() as u32 as u64;
        w.set(Slice::List, &list);
        read(w, n, 0, run);
    }
}

/// Diagonals on both sides of each test: alone, last of three in one call, and last of three in a batch of its own.
fn diagonals(w: &mut Writer) {
    let least = f64::from_bits(1);
    let given = [0.0, -0.0, least, -least, 1.0, -1.0, f64::MAX, f64::MIN, f64::INFINITY, f64::NEG_INFINITY, f64::NAN, -f64::NAN];
    for x in given {
        let last = matrix(3, &[1.0, 0.0, 1.0, 0.0, 0.0, x]);
        emit_all(
            w,
            &[
                Case { x: 1, ..Case::new(Call::CholeskyFactor, 1, vec![x]) },
                Case { x: 3, ..Case::new(Call::CholeskyFactor, 3, last.clone()) },
                Case { x: 3, y: 2, ..Case::new(Call::CholeskyExtend, 3, last) },
            ],
        );
    }
    // what is left of a row that came twice: zero, below zero, above zero, NaN
    for x in [1.0, 3.0, 2.0, f64::INFINITY] {
        let twins = matrix(2, &[x, x, x]);
        emit_all(w, [&Case { x: 2, ..Case::new(Call::CholeskyFactor, 2, twins.clone()) }]);
        emit_all(w, [&Case { x: 2, y: 0, ..Case::new(Call::CholeskyExtend, 1, twins) }]);
        w.call(Call::CholeskyExtend, 2, 2, 1);
    }
}

fn cholesky(w: &mut Writer) {
    let document: [(usize, &[f64]); 5] = [(0, &[]), (2, &[4.0, 2.0, 5.0]), (2, &[1.0, 1.0, 1.0]), (1, &[-0.0]), (2, &[4.0, 2.0, 3.0])];
    for (n, lower) in document {
        let a = matrix(n, lower);
        emit_all(w, [&Case { x: n, ..Case::new(Call::CholeskyFactor, n, a) }]);
        w.call(Call::CholeskyDeterminant, n, n, 0);
        w.set(Slice::B, &vec![0x5a5a_0000_0000_0000; n * n]);
        w.call(Call::CholeskyL, n, n, 0);
        w.call(Call::CholeskyUnpack, n, n, 0);
    }
    diagonals(w);
    let calls = [Call::CholeskyFactor, Call::CholeskyExtend, Call::CholeskyL, Call::CholeskyUnpack, Call::CholeskyDeterminant];
    refusals(w, &calls);
    families(w, Call::CholeskyFactor, 1..=3, 3000, 2_000_000);
    families(w, Call::CholeskyFactor, 4..=6, 4500, 2_100_000);
    families(w, Call::CholeskyFactor, 9..=12, 2000, 2_200_000);
    for n in ORDERS {
        // the smaller shift makes the matrix indefinite at some orders
        for shift in [n as f64, 0.75] {
            let room = (n + 1).min(64);
            let given = |w: &mut Writer| {
                w.random(Slice::A, room * room, 5 + n as u64);
                w.shift(Slice::A, n, room, shift);
            };
            w.case();
            given(w);
            w.call(Call::CholeskyFactor, n, room, 0);
            w.call(Call::CholeskyDeterminant, n, room, 0);
            w.random(Slice::B, n * n, 6);
            w.call(Call::CholeskyL, n, room, 0);
            w.call(Call::CholeskyUnpack, n, room, 0);
            given(w);
            let mut earlier = 0;
            for cut in [n / 3, n / 3, 2 * n / 3, n] {
                if w.call(Call::CholeskyExtend, cut, room, earlier) != 0 {
                    break;
                }
                earlier = cut;
            }
        }
    }
    w.sweep(2, &SPECIAL);
    cholesky_solves(w);
    packed_cholesky(w);
    floored::cholesky(w);
    teaching::cholesky(w);
}

/// Solves of the seeds from `seed` on with orders from `orders`, the shorter ones, until `words` more have been written.
fn solve_families(w: &mut Writer, orders: std::ops::RangeInclusive<usize>, words: usize, seed: u64) {
    let end = w.list.len() + words;
    let mut seed = seed;
    while w.list.len() < end {
        let cases: Vec<Case> = cases::solves(seed).into_iter().filter(|case| case.b.len() <= 60).collect();
        if cases.last().is_some_and(|last| orders.contains(&last.n)) {
            emit_all(w, &cases);
        }
        seed += 1;
    }
}

/// A solve of this many columns by what register A holds.
fn solve(w: &mut Writer, n: usize, room: usize, columns: usize) {
    w.random(Slice::B, n * columns, 1 + columns as u64);
    w.call(Call::CholeskySolve, n, room, columns);
}

fn cholesky_solves(w: &mut Writer) {
    let power = |e: i64| f64::from_bits(((1023 + e) as u64) << 52);
    let first: [(usize, &[f64], &[f64]); 11] = [
        (0, &[], &[]),
        (1, &[2.0], &[3.0]),
        (2, &[2.0, 1.0, 2.0], &[8.0, 9.0, -8.0, -9.0, 0.0, -0.0, 1.0, 0.0, 0.0, 1.0]),
        (2, &[0.0, 0.0, -0.0], &[0.0, -0.0, 1.0, -1.0]),
        (2, &[1.0, f64::INFINITY, 1.0], &[0.0, 1.0, 1.0, 0.0]),
        (2, &[1.0, 0.0, f64::NAN], &[1.0, 2.0]),
        (2, &[power(-600), power(600), 1.0], &[1.0, 1.0, power(-600), 0.0]),
        // row 0 in the back pass: 2^60 less 1, and then less 2^60
        (3, &[1.0, power(-30), 1.0, 1.0, 0.0, 1.0], &[power(60), power(31), power(61)]),
        // row 2 in the forward pass: 1 less 2^60, and then plus 2^60
        (3, &[1.0, 0.0, 1.0, power(60), power(60), 1.0], &[1.0, -1.0, 1.0]),
        // one product after the other is taken off, not their sum
        (3, &[1.0, 0.1, 1.0, 0.1, 0.0, 1.0], &[1.0, 1.0, 1.0]),
        (2, &[1.0, 0.0, 1.0], &[-0.0, -1.0]),
    ];
    for (n, lower, b) in first {
        let columns = b.len().checked_div(n).unwrap_or(3);
        emit_all(w, [&Case { x: n, y: columns, b: b.to_vec(), ..Case::new(Call::CholeskySolve, n, matrix(n, lower)) }]);
    }
    refusals(w, &[Call::CholeskySolve]);
    // each count by itself at the most, above it, and not that of what is lent; then two at a time, so that the order of the checks shows
    w.case();
    w.set(Slice::A, &[ONE]);
    w.set(Slice::B, &[ONE]);
    for (n, room, columns) in [
        (1, 1, 1),
        (0, 1024, 0),
        (0, 1025, 0),
        (1024, 1024, 0),
        (1025, 1024, 1),
        (1, 1, 1024),
        (1, 1, 1025),
        (2, 1, 1),
        (1, 2, 1),
        (1, 1, 0),
        (1, 1, 2),
        (0, 1, 1),
        (2, 1, 1025),
        (1, 2, 1025),
        (3, 2, 1),
        (2, 1, 2),
        (1, 2, 2),
    ] {
        w.call(Call::CholeskySolve, n, room, columns);
    }
    solve_families(w, 1..=3, 2000, 5_000_000);
    solve_families(w, 4..=6, 2000, 5_100_000);
    solve_families(w, 9..=12, 1500, 5_200_000);
    for n in ORDERS {
        let room = (n + 2).min(64);
        let given = |w: &mut Writer, shift: f64| {
            w.case();
            w.random(Slice::A, room * room, 12 + n as u64);
            w.shift(Slice::A, n, room, shift);
        };
        given(w, n as f64);
        w.call(Call::CholeskyFactor, n, room, 0);
        for columns in (0..=9).chain([64]) {
            solve(w, n, room, columns);
        }
        // in batches, each solved by before the next comes; the smaller shift makes the matrix indefinite at most orders
        for shift in [n as f64, 0.75] {
            given(w, shift);
            let mut earlier = 0;
            for cut in [n / 3, 2 * n / 3, n] {
                let answer = w.call(Call::CholeskyExtend, cut, room, earlier);
                solve(w, cut, room, 1);
                solve(w, cut, room, 5);
                if answer != 0 {
                    break;
                }
                earlier = cut;
            }
        }
        // NaN wherever no call may read
        w.case();
        w.repeat(Pattern { n, room, base: ONE, kept: ALL, rest: NANS, mask: 0 }, Spot { p: 0, q: 0, i: n, j: n });
        w.shift(Slice::A, n, room, 1.0);
        w.call(Call::CholeskyFactor, n, room, 0);
        solve(w, n, room, 1);
        solve(w, n, room, 7);
    }
    w.sweep(5, &SPECIAL);
}

fn udu(w: &mut Writer) {
    let document: [(usize, Vec<f64>); 4] = [(1, vec![49.0]), (1, vec![0.0]), (1, vec![-0.0]), (2, vec![1.0, fill(1), 1.0, 1.0])];
    for (n, p) in document {
        emit_all(w, [&Case { b: filled(n * n), c: filled(n), ..Case::new(Call::UduFactor, n, p) }]);
    }
    refusals(w, &[Call::UduFactor]);
    families(w, Call::UduFactor, 1..=4, 2500, 3_000_000);
    families(w, Call::UduFactor, 5..=8, 2500, 3_100_000);
    families(w, Call::UduFactor, 9..=12, 1000, 3_200_000);
    for n in ORDERS {
        for shift in [0.0, n as f64] {
            w.case();
            w.random(Slice::A, n * n, 9 + n as u64);
            w.shift(Slice::A, n, n, shift);
            w.random(Slice::B, n * n, 10);
            w.random(Slice::C, n, 11);
            w.call(Call::UduFactor, n, 0, 0);
        }
    }
    w.sweep(3, &SPECIAL);
}

/// The calls for twin rows on the matrix that stands, `first_twin_since` for each of these earlier orders.
fn twin_calls(w: &mut Writer, n: usize, room: usize, earlier: impl IntoIterator<Item = usize>) {
    w.call(Call::FirstTwin, n, room, 0);
    for y in earlier {
        w.call(Call::FirstTwinSince, n, room, y);
    }
}

/// Twin rows of the seeds from `seed` on with orders from `orders`, until `words` more have been written. A matrix is set once.
fn twin_families(w: &mut Writer, orders: std::ops::RangeInclusive<usize>, words: usize, seed: u64) {
    let end = w.list.len() + words;
    let mut seed = seed;
    while w.list.len() < end {
        let cases = cases::twins(seed);
        let bits = |case: &Case| case.a.iter().map(|x| x.to_bits()).collect::<Vec<_>>();
        if orders.contains(&cases[0].n) && cases.len() <= 20 {
            for same in cases.chunk_by(|one, other| bits(one) == bits(other)) {
                w.case();
                w.set(Slice::A, &bits(&same[0]));
                for case in same {
                    w.call(case.call, case.n, case.x, case.third());
                }
            }
        }
        seed += 1;
    }
}

const ONE: u64 = 0x3ff0_0000_0000_0000;
const INFINITE: u64 = 0x7ff0_0000_0000_0000;
const SIGN: u64 = 1 << 63;
const FILL: u64 = 0x5a5a_0000_0000_0000;
const NANS: u64 = INFINITE + 1;
const ALL: u64 = u64::MAX;

fn twins(w: &mut Writer) {
    let nan = |payload: u64| f64::from_bits(NANS + payload);
    let first: [(usize, &[f64]); 11] = [
        (0, &[]),
        (1, &[1.0]),
        (2, &[1.0, 1.0, 1.0]),
        (2, &[1.0, 1.0, 2.0]),
        (2, &[0.0, 0.0, 0.0]),
        (2, &[0.0, -0.0, 0.0]),
        (2, &[nan(0), nan(1), -nan(2)]),
        (2, &[nan(0), f64::INFINITY, nan(0)]),
        (3, &[4.0, 2.0, 5.0, 4.0, 2.0, 4.0]),
        (3, &[4.0, 2.0, 5.0, 2.0, 5.0, 5.0]),
        (3, &[1.0, 1.0, 1.0, 1.0, 1.0, 1.0]),
    ];
    for (n, lower) in first {
        w.case();
        w.set(Slice::A, &matrix(n, lower).iter().map(|x| x.to_bits()).collect::<Vec<_>>());
        twin_calls(w, n, n, 0..=n);
    }
    refusals(w, &[Call::FirstTwinSince, Call::FirstTwin]);
    // each count by itself at the most, above it, and above what it stands in
    w.case();
    w.set(Slice::A, &[ONE]);
    for (n, room, earlier) in
        [(1, 1, 1), (0, 1024, 0), (0, 1025, 0), (1024, 1024, 0), (1025, 1024, 0), (1, 1, 1024), (1, 1, 1025), (1, 1, 2), (2, 1, 0)]
    {
        w.call(Call::FirstTwinSince, n, room, earlier);
    }
    twin_families(w, 1..=4, 2500, 4_000_000);
    twin_families(w, 5..=8, 2000, 4_100_000);
    twin_families(w, 9..=12, 1000, 4_200_000);
    for n in ORDERS {
        let room = (n + 2).min(64);
        let pattern = Pattern { n, room, base: ONE, kept: ALL, rest: NANS, mask: 1 };
        let (middle, last) = (n / 2, n - 1);
        // one row again: the first as the last, the two in the middle, the last two; then the first again with its last entry changed
        let again = [(0, last), (middle.saturating_sub(1), middle), (last.saturating_sub(1), last)];
        let spots = again.map(|(p, q)| Spot { p, q, i: n, j: n }).into_iter().chain([Spot { p: 0, q: last, i: last, j: last }]);
        for spot in spots {
            w.case();
            w.repeat(pattern, spot);
            twin_calls(w, n, room, [spot.q, (spot.q + 1).min(n), n - n / 10]);
        }
        // all rows alike, and all but one
        for (base, i) in [(0, n), (0, middle)] {
            w.case();
            w.repeat(Pattern { base, kept: 0, mask: SIGN, ..pattern }, Spot { p: 0, q: 0, i, j: 0 });
            twin_calls(w, n, room, [middle, last]);
        }
    }
    for n in 1..=8 {
        for more in [0, 1, 3] {
            let room = n + more;
            let rest = if more == 1 { NANS } else { FILL };
            let pattern = |base, kept, mask| Pattern { n, room, base, kept, rest, mask };
            // an entry with another last bit, or another sign
            w.places(pattern(ONE, ALL, 1));
            w.places(pattern(ONE, ALL, SIGN));
            // a zero with the other sign among zeros; a NaN among infinite numbers
            w.places(pattern(0, 0, SIGN));
            w.places(pattern(INFINITE, 0, 1));
            // two numbers, so that rows agree in many places
            w.places(pattern(ONE, 1, 1));
            // NaN with any payload and sign: all rows are twins
            w.places(pattern(NANS, ALL, SIGN));
        }
    }
    for bit in 0..64 {
        w.places(Pattern { n: 3, room: 4, base: ONE, kept: ALL, rest: FILL, mask: 1 << bit });
    }
    w.sweep(4, &SPECIAL);
    packed_twins(w);
}

/// The packed calls beside the full ones of the seeds from `seed` on, if the last of these has an order from `orders`, until `words` more have been
/// written.
fn packed_families(w: &mut Writer, of_a_seed: impl Fn(u64) -> Vec<Case>, orders: std::ops::RangeInclusive<usize>, words: usize, seed: u64) {
    let end = w.list.len() + words;
    let mut seed = seed;
    while w.list.len() < end {
        let cases: Vec<Case> = of_a_seed(seed).iter().filter_map(beside).collect();
        if cases.last().is_some_and(|last| orders.contains(&last.n)) && cases.iter().all(|case| case.b.len() <= 60) {
            emit_all(w, &cases);
        }
        seed += 1;
    }
}

/// The cases of a family of this library.
fn family_of(first: Call) -> impl Fn(u64) -> Vec<Case> {
    move |seed| Some(cases::family(seed).cases).filter(|family| family[0].call == first).unwrap_or_default()
}

/// A packed matrix of order n by chance in register A. The shift is added to each diagonal, and to the first n times.
fn packed_by_chance(w: &mut Writer, n: usize, seed: u64, shift: Option<f64>) {
    w.random(Slice::A, packed_length(n), seed);
    if let Some(by) = shift {
        let mut diagonal = 0;
        for rows in (2..=n).rev() {
            diagonal += rows;
            // entries 0 and 1 + stride
            w.shift(Slice::A, 2, diagonal - 1, by);
        }
        w.shift(Slice::A, n.min(1), 0, by);
    }
}

/// Numbers that a call is to write over.
fn rubbish(w: &mut Writer, slice: Slice, len: usize) {
    w.set_or_fill(slice, &bits(&filled(len)));
}

const COUNTS: [usize; 5] = [1024, 1025, 1 << 32, 1 << 63, usize::MAX];

fn packed_lblt(w: &mut Writer) {
    let calls = |w: &mut Writer, n: usize, columns: &[usize]| {
        let run = run_of(n);
        w.set_or_fill(Slice::Record, &(100..100 + record_length(n) as u64).collect::<Vec<_>>());
        w.call(Call::PackedLbltFactor, n, 0, run);
        for &columns in columns {
            w.random(Slice::B, n * columns, 41);
            w.call(Call::PackedLbltSolve, n, columns, run);
        }
        w.call(Call::PackedLbltSolve, n, columns[columns.len() - 1], run + 1);
        w.call(Call::PackedLbltDeterminant, n, 0, run + 1);
        w.call(Call::PackedLbltDeterminant, n, 0, run);
    };
    let tiny = f64::from_bits((1023 - 600) << 52);
    let huge = f64::from_bits((1023 + 600) << 52);
    let first: [(usize, &[f64]); 10] = [
        (0, &[]),
        (1, &[2.0]),
        (1, &[f64::NAN]),
        (2, &[0.0, 1.0, 0.0]),
        (2, &[0.0, 1.0, 4.0]),
        (2, &[0.0, f64::NAN, 5.0]),
        (2, &[4.0, 2.0, 3.0]),
        (3, &[0.0, 3.0, 1.0, -3.0, 2.0, 1.0]),
        (3, &[0.0, tiny, 0.0, 0.0, huge, 0.0]),
        (4, &[0.0, 1.0, 2.0, 5.0, 3.0, 4.0, 2.0, 7.0, 1.0, 0.0]),
    ];
    for (n, lower) in first {
        w.case();
        w.set(Slice::A, &bits(&pack(&matrix(n, lower), n, n)));
        calls(w, n, &[0, 1, 3]);
    }
    let of_lblt = [Call::PackedLbltFactor, Call::PackedLbltSolve, Call::PackedLbltDeterminant];
    some_of_each_code(w, cases::packed_refusals(), &of_lblt);
    // each count by itself at the most, above it, and not that of what is lent; then two at a time, so that the order of the checks shows
    let run = 7;
    let all = |w: &mut Writer, n: usize, columns: usize| {
        w.call(Call::PackedLbltSolve, n, columns, run);
        w.call(Call::PackedLbltDeterminant, n, 0, run);
        w.call(Call::PackedLbltFactor, n, 0, run);
    };
    w.case();
    w.set(Slice::A, &bits(&[2.0]));
    w.set(Slice::Record, &[0, 1, 0, run as u64]);
    w.set(Slice::B, &bits(&[3.0]));
    for (n, columns) in
        COUNTS.iter().flat_map(|&far| [(far, 1), (1, far)]).chain([(0, 1), (2, 1), (1, 0), (1, 2), (1025, 1025), (2, 1025), (2, 2)])
    {
        all(w, n, columns);
    }
    // one length at a time that is not the counts'; 4 and 9 are those of full matrices
    for n in [2, 3] {
        let (whole, words) = (packed_length(n), record_length(n));
        let sound: Vec<u64> = (0..n as u64).flat_map(|k| [k, 1]).chain([0, run as u64, 9]).collect();
        let others = |right: usize| [0, 1, right - 1, right + 1];
        let lengths = others(whole).into_iter().chain([n * n]).map(|len| (len, words, n));
        let lengths =
            lengths.chain(others(words).map(|len| (whole, len, n))).chain([0, n - 1, n + 1, n * n].map(|len| (whole, words, len)));
        for (a, record, b) in lengths {
            w.case();
            w.set_or_fill(Slice::A, &bits(&filled(a)));
            w.set(Slice::Record, &sound[..record]);
            w.set_or_fill(Slice::B, &bits(&filled(b)));
            all(w, n, 1);
        }
    }
    // sound records with each word changed to each of a few; sides that lack a column, and another run's number
    for record in [&[0, 1, 0][..], &[1, 1, 1, 1, 2], &[1, 2, 1, 2, 0], &[2, 2, 2, 2, 2, 1, 0]] {
        let n = record.len() / 2;
        w.case();
        w.set(Slice::A, &bits(&(1..=packed_length(n)).map(|x| x as f64).collect::<Vec<_>>()));
        w.set(Slice::B, &bits(&[3.0, 5.0, 7.0][..n]));
        for at in 0..record.len() + 1 {
            for word in [0, 1, 2, 3, u32::MAX] {
                let mut changed = [record, &[run as u32]].concat();
                changed[at] = word;
                w.case();
                w.set(Slice::Record, &halves(&changed));
                w.call(Call::PackedLbltSolve, n, 1, run);
                w.call(Call::PackedLbltSolve, n, 2, run);
                w.call(Call::PackedLbltDeterminant, n, 0, run);
                w.call(Call::PackedLbltDeterminant, n, 0, run + 1);
            }
        }
    }
    packed_families(w, family_of(Call::LbltFactor), 1..=4, 1500, 8_000_000);
    packed_families(w, family_of(Call::LbltFactor), 5..=8, 1500, 8_010_000);
    packed_families(w, family_of(Call::LbltFactor), 9..=12, 1000, 8_020_000);
    for n in ORDERS {
        for shift in [None, Some(n as f64)] {
            w.case();
            packed_by_chance(w, n, 50 + n as u64, shift);
            calls(w, n, &[1, 7]);
        }
    }
}

/// A packed further batch on what register A holds, of these rows, over rubbish.
fn packed_batch(w: &mut Writer, earlier: usize, n: usize, rows: &[u64]) -> u64 {
    w.set(Slice::B, rows);
    rubbish(w, Slice::C, packed_length(n));
    w.call(Call::PackedCholeskyExtend, n, earlier, 0)
}

/// Solves of 1 and 7 columns by the packed factor in register A.
fn packed_solves(w: &mut Writer, n: usize) {
    for columns in [1, 7] {
        w.random(Slice::B, n * columns, 42);
        w.call(Call::PackedCholeskySolve, n, columns, 0);
    }
}

/// What the last batch left becomes the old factor.
fn fresh_to_old(w: &mut Writer) {
    let fresh = w.words(Slice::C);
    set_unless_there(w, Slice::A, &fresh);
}

fn packed_cholesky(w: &mut Writer) {
    let first: [(usize, &[f64]); 8] = [
        (0, &[]),
        (1, &[4.0]),
        (1, &[-0.0]),
        (2, &[4.0, 2.0, 5.0]),
        (2, &[1.0, 1.0, 1.0]),
        (2, &[3.0, 3.0, 3.0]),
        (3, &[4.0, 2.0, 5.0, 6.0, 7.0, 26.0]),
        (3, &[f64::INFINITY, 1.0, 1.0, 1.0, 2.0, 9.0]),
    ];
    // at once, and in batches of one row after a batch of none
    for (n, lower) in first {
        w.case();
        w.set(Slice::A, &bits(&pack(&matrix(n, lower), n, n)));
        w.call(Call::PackedCholeskyFactor, n, 0, 0);
        packed_solves(w, n);
        w.set(Slice::A, &[]);
        packed_batch(w, 0, 0, &[]);
        for i in 0..n {
            let row = &lower[packed_length(i)..packed_length(i + 1)];
            if packed_batch(w, i, i + 1, &bits(row)) != 0 {
                break;
            }
            fresh_to_old(w);
        }
    }
    // diagonals on both sides of each test: last of three at once and in a batch of its own, and in a batch with a row after it
    let least = f64::from_bits(1);
    for x in [0.0, -0.0, least, -least, f64::MAX, f64::MIN, f64::INFINITY, f64::NEG_INFINITY, f64::NAN, -f64::NAN] {
        w.case();
        w.set(Slice::A, &bits(&[1.0, 0.0, 0.0, 1.0, 0.0, x]));
        w.call(Call::PackedCholeskyFactor, 3, 0, 0);
        w.set(Slice::A, &bits(&[1.0, 0.0, 1.0]));
        packed_batch(w, 2, 3, &bits(&[0.0, 0.0, x]));
        packed_batch(w, 2, 4, &bits(&[0.5, 0.0, x, 2.0, 3.0, 5.0, 50.0]));
    }
    let of_cholesky = [Call::PackedCholeskyFactor, Call::PackedCholeskyExtend, Call::PackedCholeskySolve];
    some_of_each_code(w, cases::packed_refusals(), &of_cholesky);
    // each count by itself at the most, above it, and not that of what is lent; then two at a time, so that the order of the checks shows
    w.case();
    w.set(Slice::A, &bits(&[2.0]));
    w.set(Slice::B, &bits(&[3.0, 9.0]));
    w.set(Slice::C, &bits(&[7.0; 3]));
    let counts = COUNTS.iter().flat_map(|&far| [(far, 1), (2, far), (far, far)]);
    for (n, x) in counts.chain([(0, 0), (0, 1), (1, 0), (1, 1), (1, 2), (2, 0), (2, 2), (2, 3), (3, 1), (1024, 1025), (1025, 1024), (2, 1)])
    {
        w.call(Call::PackedCholeskyExtend, n, x, 0);
        w.call(Call::PackedCholeskySolve, n, x, 0);
    }
    for n in COUNTS.into_iter().chain([0, 2]) {
        w.call(Call::PackedCholeskyFactor, n, 0, 0);
    }
    // one length at a time that is not the counts': of a factor, then of a batch of rows 2 and 3
    for len in [0, 2, 4, 5, 7, 9] {
        w.case();
        w.set_or_fill(Slice::A, &bits(&filled(len)));
        w.set_or_fill(Slice::B, &bits(&filled(3)));
        w.call(Call::PackedCholeskyFactor, 3, 0, 0);
        w.call(Call::PackedCholeskySolve, 3, 1, 0);
    }
    for (old, rows, fresh) in [
        (0, 7, 10),
        (2, 7, 10),
        (4, 7, 10),
        (10, 7, 10),
        (3, 0, 10),
        (3, 6, 10),
        (3, 8, 10),
        (3, 10, 10),
        (3, 7, 0),
        (3, 7, 7),
        (3, 7, 9),
        (3, 7, 11),
        (3, 7, 16),
        (2, 6, 10),
        (2, 7, 9),
        (3, 6, 11),
        (3, 7, 10),
    ] {
        w.case();
        for (slice, len) in [(Slice::A, old), (Slice::B, rows), (Slice::C, fresh)] {
            w.set_or_fill(slice, &bits(&filled(len)));
        }
        w.call(Call::PackedCholeskyExtend, 4, 2, 0);
    }
    packed_families(w, family_of(Call::CholeskyFactor), 1..=3, 1500, 8_100_000);
    packed_families(w, family_of(Call::CholeskyFactor), 4..=6, 1500, 8_110_000);
    packed_families(w, family_of(Call::CholeskyFactor), 9..=12, 1000, 8_120_000);
    packed_families(w, cases::solves, 1..=6, 1000, 8_130_000);
    for n in ORDERS {
        // the smaller shift makes the matrix indefinite at most orders
        for shift in [n as f64, 0.5] {
            w.case();
            packed_by_chance(w, n, 60 + n as u64, Some(shift));
            w.call(Call::PackedCholeskyFactor, n, 0, 0);
            packed_solves(w, n);
        }
        chain_of_fresh_buffers(w, n);
    }
}

/// Batches that are accepted, one of no rows among them; above order 33 the last of them alone, after one call. On each old factor also rows by chance,
/// rows that are no numbers, and subnormal ones.
fn chain_of_fresh_buffers(w: &mut Writer, n: usize) {
    let r = &mut Rng::new(8_140_000 + n as u64);
    let places = (0..n).flat_map(|i| (0..=i).map(move |j| (i, j)));
    let lower: Vec<f64> = places.map(|(i, j)| r.unit() + if i == j { n as f64 } else { 0.0 }).collect();
    let (mut earlier, cuts) = if n <= 33 { (0, vec![n / 3, n / 3, 2 * n / 3, n]) } else { (2 * n / 3, vec![n]) };
    w.case();
    packed_by_chance(w, earlier, 44, Some(n as f64));
    w.call(Call::PackedCholeskyFactor, earlier, 0, 0);
    for cut in cuts {
        w.case();
        packed_batch(w, earlier, cut, &bits(&lower[packed_length(earlier)..packed_length(cut)]));
        if n <= 33 {
            fresh_to_old(w);
            earlier = cut;
        }
        let further = (earlier + 3).min(64);
        let rows = packed_length(further) - packed_length(earlier);
        for first_word in [None, Some(NANS), Some(0)] {
            w.case();
            match first_word {
                None => w.random(Slice::B, rows, 43),
                Some(word) => w.set_or_fill(Slice::B, &(word..word + rows as u64).collect::<Vec<_>>()),
            }
            rubbish(w, Slice::C, packed_length(further));
            w.call(Call::PackedCholeskyExtend, further, earlier, 0);
        }
    }
    packed_solves(w, earlier);
}

fn packed_twins(w: &mut Writer) {
    let nan = |payload: u64| f64::from_bits(NANS + payload);
    let first: [(usize, &[f64]); 11] = [
        (0, &[]),
        (1, &[1.0]),
        (2, &[1.0, 1.0, 1.0]),
        (2, &[1.0, 1.0, 2.0]),
        (2, &[1.0, 2.0, 1.0]),
        (2, &[0.0, -0.0, 0.0]),
        (2, &[nan(0), nan(1), -nan(2)]),
        (3, &[4.0, 2.0, 5.0, 4.0, 2.0, 4.0]),
        (3, &[4.0, 2.0, 5.0, 2.0, 5.0, 5.0]),
        (3, &[4.0, 4.0, 4.0, 2.0, 2.0, 5.0]),
        (3, &[1.0, 1.0, 1.0, 1.0, 1.0, 1.0]),
    ];
    let call = |w: &mut Writer, n: usize| w.call(Call::PackedFirstTwin, n, 0, 0);
    for (n, lower) in first {
        w.case();
        w.set(Slice::A, &bits(&pack(&matrix(n, lower), n, n)));
        call(w, n);
    }
    some_of_each_code(w, cases::packed_refusals(), &[Call::PackedFirstTwin]);
    // each length that is and is not an order's, asked for every order, and counts far above
    for len in [0, 1, 2, 3, 4, 5, 6, 7, 9, 10, 11, 16] {
        w.case();
        w.set(Slice::A, &vec![ONE; len]);
        for n in (0..=4).chain(COUNTS) {
            call(w, n);
        }
    }
    let first_of_a_seed = |seed: u64| cases::twins(seed).into_iter().filter(|case| case.call == Call::FirstTwin).take(4).collect();
    packed_families(w, first_of_a_seed, 2..=4, 800, 8_200_000);
    packed_families(w, first_of_a_seed, 5..=8, 800, 8_210_000);
    packed_families(w, first_of_a_seed, 9..=12, 800, 8_220_000);
    let pattern = |n: usize| Pattern { n, room: n, base: ONE, kept: ALL, rest: NANS, mask: 1 };
    let twin = |w: &mut Writer, n: usize, spot: Spot| {
        let pattern = pattern(n);
        w.case();
        w.set(Slice::A, &pack(&pattern.words(spot, pattern.count()), n, n));
        call(w, n);
    };
    // every row again as every later one, with every entry changed
    for n in 2..=5 {
        for spot in pattern(n).spots().filter(|spot| spot.p < spot.q) {
            twin(w, n, spot);
        }
    }
    // the first row again as the last, and with its last entry changed; at orders up to 20 the two in the middle and the last two, too
    for n in ORDERS {
        let (middle, last) = (n / 2, n - 1);
        let again = [(0, last), (middle.saturating_sub(1), middle), (last.saturating_sub(1), last)];
        for &(p, q) in if n <= 20 { &again[..] } else { &again[..1] } {
            twin(w, n, Spot { p, q, i: n, j: n });
        }
        twin(w, n, Spot { p: 0, q: last, i: last, j: last });
        // no twins, and rows of NaNs, which are twins all
        w.case();
        w.random(Slice::A, packed_length(n), 70);
        call(w, n);
        w.set_or_fill(Slice::A, &(NANS..NANS + packed_length(n) as u64).collect::<Vec<_>>());
        call(w, n);
    }
}
