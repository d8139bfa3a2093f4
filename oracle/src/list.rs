//! The stored lists: a stream of words that sets registers, makes calls and says what they answer and leave. README.md describes it; the
//! machine below replays it on any implementation of the calls and is what the programs of the test command do.

use crate::call::{Call, Calls, Case, FORMS, Form, Number, Slice, word};
use crate::cases::fill;

pub const BLOCK_WORDS: usize = 8192;

pub const CASE: u64 = 1;
pub const SET: u64 = 2;
pub const FILL: u64 = 3;
pub const RANDOM: u64 = 4;
pub const SHIFT: u64 = 5;
pub const CALL: u64 = 6;
pub const SAME: u64 = 7;
pub const DIGEST: u64 = 8;
pub const SWEEP: u64 = 9;
pub const REPEAT: u64 = 10;
pub const PLACES: u64 = 11;

/// The most that A, B and C have to hold as f64, C as bench numbers or as a list, and R. Of a tray C holds at most 1,025 run numbers and as many answers.
pub const MOST: [usize; 3] = [4096, 64, 4096];

pub fn step(mut x: u64) -> u64 {
    x ^= x << 13;
    x ^= x >> 7;
    x ^= x << 17;
    x
}

pub const DIGEST_START: u64 = 0x9e37_79b9_7f4a_7c15;

pub(crate) fn digest_of(start: u64, words: &[u64]) -> u64 {
    words.iter().fold(step(start ^ words.len() as u64), |h, &w| step(h ^ w))
}

/// The register's number in an instruction.
fn number(slice: Slice) -> u64 {
    match slice {
        Slice::A => 0,
        Slice::B => 1,
        Slice::C | Slice::Benches | Slice::List | Slice::Runs | Slice::Answers => 2,
        Slice::Record => 3,
    }
}

fn slice(number: u64) -> Slice {
    [Slice::A, Slice::B, Slice::C, Slice::Record][number as usize]
}

/// A matrix of order n in a room, whose entries follow from their places.
#[derive(Clone, Copy)]
pub struct Pattern {
    pub n: usize,
    pub room: usize,
    /// An entry is this word and more.
    pub base: u64,
    /// The bits of an entry's number that are added to the base.
    pub kept: u64,
    /// What stands beside the entries is this word and more.
    pub rest: u64,
    /// The bits by which a changed entry differs.
    pub mask: u64,
}

/// Row and column q are those of p, and entry (i, j) is changed.
#[derive(Clone, Copy)]
pub struct Spot {
    pub p: usize,
    pub q: usize,
    pub i: usize,
    pub j: usize,
}

impl Pattern {
    fn of(payload: &[u64]) -> Pattern {
        let [base, kept, rest, mask] = [2, 3, 4, 5].map(|at| payload[at]);
        Pattern { n: payload[0] as usize, room: payload[1] as usize, base, kept, rest, mask }
    }

    fn payload(&self) -> [u64; 6] {
        [self.n as u64, self.room as u64, self.base, self.kept, self.rest, self.mask]
    }

    /// How many numbers the register holds.
    pub fn count(&self) -> usize {
        self.room * self.room
    }

    fn word(&self, spot: Spot, at: usize) -> u64 {
        let (i, j) = (at % self.room, at / self.room);
        if i < j || self.n <= i {
            return self.rest.wrapping_add(at as u64);
        }
        let source = |row: usize| if row == spot.q { spot.p } else { row };
        let (least, most) = (source(i).min(source(j)), source(i).max(source(j)));
        let word = self.base.wrapping_add(((most << 6) ^ least) as u64 & self.kept);
        if (i, j) == (spot.i, spot.j) { word ^ self.mask } else { word }
    }

    pub fn words(&self, spot: Spot, count: usize) -> Vec<u64> {
        (0..count).map(|at| self.word(spot, at)).collect()
    }

    /// Every row again as itself and as every later row, and each time every entry changed. The order is at most 8.
    pub fn spots(&self) -> impl Iterator<Item = Spot> + use<> {
        let n = self.n;
        (0..4096)
            .map(|t| Spot { p: t % 8, q: t / 8 % 8, i: t / 64 % 8, j: t / 512 })
            .filter(move |s| s.p <= s.q && s.q < n && s.j <= s.i && s.i < n)
    }
}

impl Spot {
    fn of(payload: &[u64]) -> Spot {
        let [p, q, i, j] = [0, 1, 2, 3].map(|at| payload[at] as usize);
        Spot { p, q, i, j }
    }

    fn payload(&self) -> [u64; 4] {
        [self.p, self.q, self.i, self.j].map(|x| x as u64)
    }
}

pub struct Machine<'a> {
    calls: &'a dyn Calls,
    held: Case,
    pub cases: u64,
    pub calls_made: u64,
    /// What differs, as words for a reader.
    pub differences: Vec<String>,
}

impl<'a> Machine<'a> {
    pub fn new(calls: &'a dyn Calls) -> Self {
        let held = Case::new(Call::LbltFactor, 0, vec![]);
        Machine { calls, held, cases: 0, calls_made: 0, differences: vec![] }
    }

    /// Replays a list.
    pub fn replay(&mut self, list: &[u64]) {
        let mut at = 0;
        while at < list.len() {
            let (op, which, count) = (list[at] & 255, list[at] >> 8 & 255, (list[at] >> 16) as usize);
            let payload = &list[at + 1..];
            at += 1;
            at += match op {
                0 => 0,
                CASE => {
                    self.cases += 1;
                    0
                }
                SET => {
                    self.set(slice(which), &payload[..count]);
                    count
                }
                FILL => {
                    let words: Vec<u64> = (0..count as u64).map(|i| payload[0] + i).collect();
                    self.set(slice(which), &words);
                    1
                }
                RANDOM => {
                    self.set(slice(which), &random(payload[0], count));
                    1
                }
                SHIFT => {
                    self.shift(slice(which), count, payload[0] as usize, f64::from_bits(payload[1]));
                    2
                }
                CALL => {
                    let [n, x, y] = [0, 1, 2].map(|i| payload[i] as usize);
                    let (answer, value) = self.call(which, n, x, y);
                    self.hold("answer", answer, payload[3]);
                    self.hold("value", value, payload[4]);
                    5
                }
                SAME => {
                    let words = self.words(slice(which));
                    self.hold("length", words.len() as u64, count as u64);
                    for (place, (&found, &wanted)) in words.iter().zip(payload).take(count).enumerate() {
                        self.hold(&format!("{:?}[{place}]", slice(which)), found, wanted);
                    }
                    count
                }
                DIGEST => {
                    let found = digest_of(DIGEST_START, &self.words(slice(which)));
                    self.hold(&format!("digest of {:?}", slice(which)), found, payload[0]);
                    1
                }
                SWEEP => {
                    let special = &payload[..count];
                    for first in 0..count {
                        let found = self.sweep(which, special, first);
                        self.hold(&format!("sweep at {first}"), found, payload[count + first]);
                    }
                    self.cases += (count * count * count) as u64;
                    2 * count
                }
                REPEAT => {
                    self.set(slice(which), &Pattern::of(payload).words(Spot::of(&payload[6..]), count));
                    10
                }
                PLACES => {
                    let found = self.places(Pattern::of(payload), count);
                    self.hold("places", found, payload[6]);
                    7
                }
                _ => panic!("no instruction {op}"),
            };
        }
    }

    fn hold(&mut self, what: &str, found: u64, wanted: u64) {
        if found != wanted {
            self.differences.push(format!("case {}: {what}: {found:016x}, not {wanted:016x}", self.cases));
        }
    }

    pub fn set(&mut self, slice: Slice, words: &[u64]) {
        let floats = || words.iter().map(|&w| f64::from_bits(w)).collect();
        match slice {
            Slice::A => self.held.a = floats(),
            Slice::B => self.held.b = floats(),
            Slice::C | Slice::Benches | Slice::List | Slice::Runs | Slice::Answers => self.held.c = floats(),
            Slice::Record => self.held.record = words.iter().map(|&w| w as u32).collect(),
        }
    }

    fn shift(&mut self, slice: Slice, count: usize, stride: usize, by: f64) {
        let held = match slice {
            Slice::A => &mut self.held.a,
            _ => &mut self.held.b,
        };
        for i in 0..count {
            held[i + i * stride] += by;
        }
    }

    /// The words of a register, all NaNs as one.
    pub fn words(&self, slice: Slice) -> Vec<u64> {
        match slice {
            Slice::A => self.held.a.iter().map(|&x| word(x)).collect(),
            Slice::B => self.held.b.iter().map(|&x| word(x)).collect(),
            Slice::C | Slice::Benches | Slice::List | Slice::Runs | Slice::Answers => self.held.c.iter().map(|&x| word(x)).collect(),
            Slice::Record => self.held.record.iter().map(|&w| w as u64).collect(),
        }
    }

    /// The answer, and the word of the value or 0.
    pub fn call(&mut self, call: u64, n: usize, x: usize, y: usize) -> (u64, u64) {
        self.calls_made += 1;
        let form = form(call);
        let (y, bench, run) = if form.numbers.contains(&Number::Run) { (0, (y >> 32) as u32, y as u32) } else { (y, 0, 0) };
        let held_by_c = self.words(Slice::C);
        let benches: Vec<u32> = held_by_c.iter().map(|&w| w as u32).collect();
        let list = benches.iter().map(|&w| w as i32).collect();
        let (runs, answers) =
            if form.slices.contains(&Slice::Runs) { (benches[..y].to_vec(), held_by_c[y..].to_vec()) } else { (vec![], vec![]) };
        let held = std::mem::replace(&mut self.held, Case::new(form.call, 0, vec![]));
        let floor = if form.numbers.contains(&Number::Floor) { the_one(&held.c) } else { 0.0 };
        self.held = Case { call: form.call, n, x, y, bench, run, info: x as i32, floor, benches, list, runs, answers, ..held };
        let (answer, value) = self.held.run_in_place(self.calls);
        if form.slices.contains(&Slice::List) && written(form.call, Slice::List) {
            self.held.c = self.held.list.iter().map(|&number| f64::from_bits(number as u32 as u64)).collect();
        }
        if form.slices.contains(&Slice::Answers) {
            let runs = self.held.runs.iter().map(|&run| run as u64);
            self.held.c = runs.chain(self.held.answers.iter().copied()).map(f64::from_bits).collect();
        }
        (answer, value.unwrap_or(0))
    }

    /// The digest over all that the calls of a library answer and leave at order 2, with `special[first]` as entry (0, 0).
    pub fn sweep(&mut self, library: u64, special: &[u64], first: usize) -> u64 {
        let mut h = DIGEST_START;
        for &y in special {
            for &z in special {
                h = self.sweep_one(library, [special[first], y, z], h);
            }
        }
        h
    }

    /// The digest over all that `first_twin_since` answers at every spot, for every earlier order.
    fn places(&mut self, pattern: Pattern, count: usize) -> u64 {
        let mut h = DIGEST_START;
        for spot in pattern.spots() {
            self.cases += 1;
            self.set(Slice::A, &pattern.words(spot, count));
            for earlier in 0..=pattern.n {
                h = step(h ^ self.call(12, pattern.n, pattern.room, earlier).0);
            }
        }
        h
    }

    fn sweep_one(&mut self, library: u64, [x, y, z]: [u64; 3], mut h: u64) -> u64 {
        let filled = [0, 1, 2, 3].map(|at| fill(at).to_bits());
        let lower = [x, y, filled[2], z];
        match library {
            1 => {
                self.set(Slice::A, &lower);
                self.set(Slice::Record, &[9; 6]);
                h = self.swept(h, 1, [0, 1], &[Slice::A, Slice::Record]);
                self.set(Slice::B, &[y, z]);
                h = self.swept(h, 2, [1, 1], &[Slice::B]);
                h = self.swept(h, 3, [0, 1], &[]);
                self.set(Slice::B, &filled);
                h = self.swept(h, 4, [0, 1], &[Slice::B]);
                self.set(Slice::B, &filled);
                self.swept(h, 5, [0, 1], &[Slice::B])
            }
            2 => {
                self.set(Slice::A, &lower);
                h = self.swept(h, 7, [2, 1], &[Slice::A]);
                self.set(Slice::A, &lower);
                h = self.swept(h, 6, [2, 0], &[Slice::A]);
                h = self.swept(h, 10, [2, 0], &[]);
                self.set(Slice::B, &filled);
                h = self.swept(h, 8, [2, 0], &[Slice::B]);
                self.swept(h, 9, [2, 0], &[Slice::A])
            }
            3 => {
                self.set(Slice::A, &[x, filled[1], y, z]);
                self.set(Slice::B, &filled);
                self.set(Slice::C, &filled[..2]);
                self.swept(h, 11, [0, 0], &[Slice::B, Slice::C])
            }
            4 => {
                self.set(Slice::A, &lower);
                h = self.swept(h, 12, [2, 1], &[]);
                self.swept(h, 13, [2, 0], &[])
            }
            _ => {
                self.set(Slice::A, &lower);
                self.set(Slice::B, &[x, y, z].repeat(4));
                self.swept(h, 14, [2, 6], &[Slice::B])
            }
        }
    }

    fn swept(&mut self, h: u64, call: u64, [x, y]: [usize; 2], left: &[Slice]) -> u64 {
        let (answer, value) = self.call(call, 2, x, y);
        let h = step(step(h ^ answer) ^ value);
        left.iter().fold(h, |h, &s| digest_of(h, &self.words(s)))
    }
}

/// The floor, which stands alone in its register.
fn the_one(register: &[f64]) -> f64 {
    match register {
        &[floor] => floor,
        _ => panic!("{} numbers where the floor stands", register.len()),
    }
}

pub fn form(number: u64) -> &'static Form {
    FORMS.iter().find(|f| f.number == number).expect("a call's number")
}

/// From −0.5 to 0.5, 52 digits.
fn random(seed: u64, count: usize) -> Vec<u64> {
    let mut x = seed;
    let mut out = Vec::with_capacity(count);
    for _ in 0..count {
        x = step(x);
        out.push((f64::from_bits(x >> 12 | 0x3ff0_0000_0000_0000) - 1.5).to_bits());
    }
    out
}

/// Writes a list while a machine over the text runs it.
pub struct Writer<'a> {
    machine: Machine<'a>,
    pub list: Vec<u64>,
    pub cases: u64,
}

impl<'a> Writer<'a> {
    pub fn new(text: &'a dyn Calls) -> Self {
        Writer { machine: Machine::new(text), list: vec![], cases: 0 }
    }

    /// No instruction stands across the end of a block.
    fn put(&mut self, op: u64, which: u64, count: usize, payload: &[u64]) {
        let left = BLOCK_WORDS - self.list.len() % BLOCK_WORDS;
        assert!(payload.len() < BLOCK_WORDS);
        if payload.len() + 1 > left {
            self.list.resize(self.list.len() + left, 0);
        }
        self.list.push(op | which << 8 | (count as u64) << 16);
        self.list.extend_from_slice(payload);
    }

    pub fn case(&mut self) {
        self.cases += 1;
        self.put(CASE, 0, self.cases as usize, &[]);
    }

    pub fn set(&mut self, slice: Slice, words: &[u64]) {
        self.put(SET, number(slice), words.len(), words);
        self.machine.set(slice, words);
    }

    /// As `set`, in fewer words if every entry is the one before and 1.
    pub fn set_or_fill(&mut self, slice: Slice, words: &[u64]) {
        if words.len() > 1 && words.windows(2).all(|w| w[0].wrapping_add(1) == w[1]) {
            self.put(FILL, number(slice), words.len(), &[words[0]]);
            self.machine.set(slice, words);
        } else {
            self.set(slice, words);
        }
    }

    pub fn random(&mut self, slice: Slice, count: usize, seed: u64) {
        self.put(RANDOM, number(slice), count, &[seed]);
        self.machine.set(slice, &random(seed, count));
    }

    pub fn shift(&mut self, slice: Slice, count: usize, stride: usize, by: f64) {
        self.put(SHIFT, number(slice), count, &[stride as u64, by.to_bits()]);
        self.machine.shift(slice, count, stride, by);
    }

    /// Makes a call and says what it answers and leaves: words for short slices, a digest for long ones.
    pub fn call(&mut self, call: Call, n: usize, x: usize, y: usize) -> u64 {
        let form = call.form();
        let (answer, value) = self.machine.call(form.number, n, x, y);
        self.put(CALL, form.number, 0, &[n as u64, x as u64, y as u64, answer, value]);
        for &slice in form.slices.iter().filter(|&&s| written(call, s)) {
            let words = self.machine.words(slice);
            if words.len() <= 36 {
                self.put(SAME, number(slice), words.len(), &words);
            } else {
                self.put(DIGEST, number(slice), 0, &[digest_of(DIGEST_START, &words)]);
            }
        }
        answer
    }

    pub fn sweep(&mut self, library: u64, special: &[f64]) {
        let special: Vec<u64> = special.iter().map(|x| x.to_bits()).collect();
        let mut payload = special.clone();
        payload.extend((0..special.len()).map(|first| self.machine.sweep(library, &special, first)));
        self.put(SWEEP, library, special.len(), &payload);
        self.cases += special.len().pow(3) as u64;
    }

    pub fn repeat(&mut self, pattern: Pattern, spot: Spot) {
        let payload = [&pattern.payload()[..], &spot.payload()].concat();
        self.put(REPEAT, number(Slice::A), pattern.count(), &payload);
        self.machine.set(Slice::A, &pattern.words(spot, pattern.count()));
    }

    pub fn places(&mut self, pattern: Pattern) {
        let digest = self.machine.places(pattern, pattern.count());
        self.put(PLACES, number(Slice::A), pattern.count(), &[&pattern.payload()[..], &[digest]].concat());
        self.cases += pattern.spots().count() as u64;
    }

    pub fn words(&self, slice: Slice) -> Vec<u64> {
        self.machine.words(slice)
    }
}

/// The slices that a call may write.
fn written(call: Call, slice: Slice) -> bool {
    match call {
        Call::LbltFactor | Call::PackedLbltFactor | Call::HandheldFactor => true,
        Call::LbltTray => slice != Slice::Runs,
        Call::CholeskyFactor | Call::CholeskyExtend | Call::CholeskyUnpack | Call::PackedCholeskyFactor => true,
        Call::CholeskyFactorFloored | Call::CholeskyExtendFloored | Call::CholeskyTeaching => true,
        Call::PivotsFromLapack => slice == Slice::Record,
        Call::PackedCholeskyExtend => slice == Slice::C,
        _ => matches!(slice, Slice::B | Slice::C | Slice::List),
    }
}
