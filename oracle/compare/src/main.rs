//! compare paper|port FIRST SEEDS: the text against document 01's steps, or against the port, on the cases that need no chance and on the
//! families, solves by Cholesky's factor, twin rows, benches and LAPACK's lists of the seeds FIRST, FIRST + 1, .. Every word of every slice is
//! compared, all NaNs being one. The calls that the steps alone answer are compared with the port. UDU of every block of rows and columns m to n − 1 is
//! held against those rows and columns of UDU of the whole, a bench's solve against one that differs only in the columns of the other benches, and a list
//! or a record against what comes back of it. Beside every full call that has one its packed call is made and held against it, and packed batches are held
//! against one packed call on the whole and against the batches of the full layout. Beside every plain factor and further batch of Cholesky floored calls
//! are made and held against it, and floored batches against one floored call. Beside every plain factor of Cholesky the teaching call is made and held
//! against it. Beside every lent factor and solve of order 3 the handheld's calls are made and held against the lent ones. Trays are held against a factor
//! and a solve of each item, and against trays with another item in one place. What is packed or floored, the teaching call, the handheld's calls and trays
//! are counted by themselves.

mod floored;
mod handheld;
mod teaching;
mod tray;

use std::collections::BTreeMap;
use std::process::ExitCode;

use oracle::call::{Call, Calls, Case, Outcome, mark, pairs, word};
use oracle::cases::{self, Chain};
use oracle::line::{case_line, outcome_line};
use oracle::paper::Paper;
use oracle::text::Text;
use oracle::{back, packed, pair, tail};

use floored::Floored;
use handheld::Held;
use teaching::Taught;
use tray::Trays;

fn main() -> ExitCode {
    let words: Vec<String> = std::env::args().skip(1).collect();
    let [against, first, seeds] = &words[..] else {
        eprintln!("usage: compare paper|port FIRST SEEDS");
        return ExitCode::FAILURE;
    };
    let other: &dyn Calls = match against.as_str() {
        "paper" => &Paper,
        #[cfg(feature = "port")]
        "port" => &port::Port,
        _ => {
            eprintln!("{against}: not here (the port needs the feature \"port\")");
            return ExitCode::FAILURE;
        }
    };
    let (Ok(first), Ok(seeds)) = (first.parse::<u64>(), seeds.parse::<u64>()) else {
        eprintln!("FIRST and SEEDS are numbers");
        return ExitCode::FAILURE;
    };
    let mut tally = Tally::new(other, against == "paper");
    cases::sweep().for_each(|case| tally.hold(&case));
    println!("special numbers at orders 1 and 2: {} calls", tally.calls());
    let before = tally.calls();
    cases::refusals().iter().for_each(|case| tally.hold(case));
    println!("refusals and records: {} calls", tally.calls() - before);
    let before = tally.calls();
    let largest = [cases::largest(), cases::largest_solves(), cases::largest_twins(), cases::largest_benches(), cases::largest_lists()];
    largest.iter().flatten().for_each(|case| tally.hold(case));
    println!("orders 1,024 and 1,025: {} calls", tally.calls() - before);
    let before = tally.calls();
    cases::many_columns().iter().for_each(|case| tally.hold(case));
    println!("solves of many columns: {} calls", tally.calls() - before);
    let before = tally.calls();
    cases::solves_of_all_orders().iter().for_each(|case| tally.hold(case));
    println!("solves by Cholesky's factor at all orders: {} calls", tally.calls() - before);
    let before = tally.calls();
    cases::bench_lists().iter().chain(&cases::benches_of_all_orders()).for_each(|case| tally.hold(case));
    println!("benches by lists and at all orders: {} calls", tally.calls() - before);
    let before = tally.calls();
    let lists = [cases::short_lists(), cases::sound_lists(), cases::lists_but_one_bit(), cases::short_records()];
    lists.iter().flatten().for_each(|case| tally.hold(case));
    println!("LAPACK's lists of orders up to 5: {} calls", tally.calls() - before);
    cases::packed_refusals().iter().chain(&cases::largest_packed()).for_each(|case| _ = tally.hold_packed(case));
    cases::full_calls_on_triangles().iter().for_each(|case| tally.hold_unfit(case));
    let chains = cases::chains_of_all_cuts();
    cases::largest_chains().iter().chain(&chains).for_each(|chain| tally.hold_packed_chain(chain));
    println!("packed beside these, and of their own: {} calls, {} chains", tally.packed.calls(), tally.packed.chains());
    let floored = [cases::floored_sweep(), cases::floored_refusals(), cases::largest_floored()];
    floored.iter().flatten().for_each(|case| tally.hold_floored(case));
    chains.iter().for_each(|chain| tally.hold_floored_chains(chain));
    let (chain, floor) = cases::largest_floored_chain();
    tally.hold_floored_chain(&chain, floor);
    println!("floored beside these, and of their own: {} calls, {} chains", tally.floored.calls(), tally.floored.chains());
    let taught = [cases::taught_small(), cases::taught_orders(), cases::taught_refusals(), cases::largest_taught()];
    taught.iter().flatten().for_each(|case| tally.hold_taught(case));
    println!("teaching beside these, and of their own: {} calls", tally.taught.calls());
    cases::held_few().chain(cases::held_special()).for_each(|case| tally.hold_held(&case));
    cases::held_pivots().chain(cases::held_sides()).for_each(|case| tally.hold_held(&case));
    println!("handheld beside these, and of their own: {} calls", tally.held.calls());
    let trays = [cases::trays_small(), cases::trays_of_all_orders(), cases::tray_refusals(), cases::largest_trays()];
    trays.iter().flatten().for_each(|case| tally.hold_tray(case));
    cases::trays_of_many().for_each(|case| tally.hold_tray(&case));
    println!("trays: {} calls", tally.trays.calls());
    let before = tally.calls();
    let (packed_calls, packed_chains) = (tally.packed.calls(), tally.packed.chains());
    let (floored_calls, floored_chains) = (tally.floored.calls(), tally.floored.chains());
    let (taught_calls, held_calls, tray_calls) = (tally.taught.calls(), tally.held.calls(), tally.trays.calls());
    for seed in first..first + seeds {
        let family = cases::family(seed);
        family.cases.iter().for_each(|case| tally.hold(case));
        family.chains.iter().for_each(|chain| tally.hold_chain(chain));
        for chain in family.chains.iter().chain([&cases::packed_chain(seed)]) {
            tally.hold_packed_chain(chain);
            tally.hold_floored_chains(chain);
        }
        cases::solves(seed).iter().for_each(|case| tally.hold(case));
        cases::twins(seed).iter().for_each(|case| tally.hold(case));
        cases::benches(seed).iter().for_each(|case| tally.hold(case));
        cases::lists(seed).iter().for_each(|case| tally.hold(case));
        cases::floored(seed).iter().for_each(|case| tally.hold_floored(case));
        let (chain, floor) = cases::floored_chain(seed);
        tally.hold_floored_chain(&chain, floor);
        cases::taught(seed).iter().for_each(|case| tally.hold_taught(case));
        cases::held(seed).iter().for_each(|case| tally.hold_held(case));
        cases::trays(seed).iter().for_each(|case| tally.hold_tray(case));
    }
    println!("seeds {first} to {}: {} calls", (first + seeds).saturating_sub(1), tally.calls() - before);
    let (calls, chains) = (tally.packed.calls() - packed_calls, tally.packed.chains() - packed_chains);
    println!("packed beside these, and of their own: {calls} calls, {chains} chains");
    let (calls, chains) = (tally.floored.calls() - floored_calls, tally.floored.chains() - floored_chains);
    println!("floored beside these, and of their own: {calls} calls, {chains} chains");
    println!("teaching beside these, and of their own: {} calls", tally.taught.calls() - taught_calls);
    println!("handheld beside these, and of their own: {} calls", tally.held.calls() - held_calls);
    println!("trays: {} calls", tally.trays.calls() - tray_calls);
    tally.print(against);
    if tally.differences == 0 { ExitCode::SUCCESS } else { ExitCode::FAILURE }
}

struct Tally<'a> {
    other: &'a dyn Calls,
    /// The other implementation is the steps.
    steps: bool,
    per_call: BTreeMap<Call, u64>,
    per_code: BTreeMap<u64, u64>,
    size_two: u64,
    marks: u64,
    twins: u64,
    chains: u64,
    tails: Tails,
    pairs: Pairs,
    backs: Backs,
    packed: Packed,
    floored: Floored,
    taught: Taught,
    held: Held,
    trays: Trays,
    differences: u64,
    smallest: Option<(usize, String)>,
}

/// Blocks of matrices that UDU accepts, refuses before the block, and refuses in it.
#[derive(Default)]
struct Tails {
    accepted: u64,
    before: u64,
    within: u64,
}

/// Two runs of one bench that differ only in the columns of the others: solved, done for a bench with no column, and refused.
#[derive(Default)]
struct Pairs {
    solved: u64,
    without: u64,
    refused: u64,
}

/// Accepted lists that are written again, and records that are read again.
#[derive(Default)]
struct Backs {
    lists: u64,
    records: u64,
}

/// The packed calls, and what they are held against.
#[derive(Default)]
struct Packed {
    per_call: BTreeMap<Call, u64>,
    per_code: BTreeMap<u64, u64>,
    twins: u64,
    /// Held against the full call of the same implementation.
    beside: u64,
    /// Full calls on as many numbers as the packed ones take.
    unfit: u64,
    /// Chains whose rows are all accepted, and chains that end with a refused batch.
    accepted: u64,
    refused: u64,
    batches: u64,
}

impl Packed {
    fn calls(&self) -> u64 {
        self.per_call.values().sum()
    }

    fn chains(&self) -> u64 {
        self.accepted + self.refused
    }
}

impl<'a> Tally<'a> {
    fn new(other: &'a dyn Calls, steps: bool) -> Self {
        Tally {
            other,
            steps,
            per_call: BTreeMap::new(),
            per_code: BTreeMap::new(),
            size_two: 0,
            marks: 0,
            twins: 0,
            chains: 0,
            tails: Tails::default(),
            pairs: Pairs::default(),
            backs: Backs::default(),
            packed: Packed::default(),
            floored: Floored::default(),
            taught: Taught::default(),
            held: Held::default(),
            trays: Trays::default(),
            differences: 0,
            smallest: None,
        }
    }

    fn calls(&self) -> u64 {
        self.per_call.values().sum()
    }

    /// The case, and the packed one beside it.
    fn hold(&mut self, case: &Case) {
        let one_implementation = self.steps && case.call.by_steps_alone();
        let packed = packed::beside(case);
        if one_implementation && packed.is_none() {
            return;
        }
        let text = case.outcome(&Text);
        let other = case.outcome(self.other);
        if !one_implementation {
            self.hold_full(case, &text, &other);
        }
        if let Some(packed) = packed {
            self.hold_beside(&packed, case, &text, &other);
        }
    }

    fn hold_full(&mut self, case: &Case, text: &Outcome, other: &Outcome) {
        *self.per_call.entry(case.call).or_default() += 1;
        match text.answer / 4096 {
            code if code < 4096 => *self.per_code.entry(code).or_default() += 1,
            _ => self.twins += 1,
        }
        if case.call == Call::LbltFactor && text.answer == 0 {
            self.size_two += blocks_of_two(text);
            self.marks += (mark(&text.record) != 0) as u64;
        }
        self.hold_alike(case, text, other);
        if case.call == Call::UduFactor && matches!(text.answer / 4096, 0 | 8) {
            self.hold_tails(case, text, other);
        }
        if case.call == Call::LbltSolveBench {
            self.hold_pair(case, text, other);
        }
        if text.answer == 0 && matches!(case.call, Call::PivotsFromLapack | Call::PivotsToLapack) {
            self.hold_back(case, text, other);
        }
        self.hold_floors(case, text, other);
        self.hold_taught_beside(case, text, other);
        self.hold_held_beside(case);
    }

    fn hold_alike(&mut self, case: &Case, text: &Outcome, other: &Outcome) {
        self.hold_one_alike(case, "text", text, other);
    }

    /// What one implementation of this name and the other answer and leave.
    fn hold_one_alike(&mut self, case: &Case, name: &str, one: &Outcome, other: &Outcome) {
        if one != other {
            let [one, other] = [one, other].map(|outcome| outcome_line(case, outcome));
            self.differ(case.size(), format!("{}\n{name}  {one}\nother {other}", case_line(case)));
        }
    }

    /// A packed call: what the text and the other implementation answer and leave.
    fn hold_packed(&mut self, case: &Case) -> [Outcome; 2] {
        let [text, other] = [&Text, self.other].map(|calls: &dyn Calls| case.outcome(calls));
        *self.packed.per_call.entry(case.call).or_default() += 1;
        match text.answer / 4096 {
            code if code < 4096 => *self.packed.per_code.entry(code).or_default() += 1,
            _ => self.packed.twins += 1,
        }
        self.hold_alike(case, &text, &other);
        [text, other]
    }

    /// A packed call and the full one, by the text and by the other implementation, each against its own.
    fn hold_beside(&mut self, packed: &Case, full: &Case, text: &Outcome, other: &Outcome) {
        self.packed.beside += 1;
        let found = self.hold_packed(packed);
        for ((left, found), name) in [text, other].into_iter().zip(found).zip(["text", "other"]) {
            self.hold_kept(packed, full, &packed::kept(packed, full, left), &found, name);
        }
    }

    /// What a call is to leave by what another call leaves, and what is found.
    fn hold_kept(&mut self, case: &Case, by: &Case, kept: &Outcome, found: &Outcome, name: &str) {
        if kept != found {
            let [kept, found] = [kept, found].map(|outcome| outcome_line(case, outcome));
            let said = format!("{}\n{}\nby the {name}\nkept  {kept}\nfound {found}", case_line(by), case_line(case));
            self.differ(case.size(), said);
        }
    }

    /// A full call that both refuse, on as many numbers as the packed one takes.
    fn hold_unfit(&mut self, case: &Case) {
        self.packed.unfit += 1;
        self.hold_alike(case, &case.outcome(&Text), &case.outcome(self.other));
    }

    /// Demand 3 over the chain of new buffers: each batch by the text and by the other implementation, and the batches of each against its own batches in
    /// one room, the last against its own one call.
    fn hold_packed_chain(&mut self, chain: &Chain) {
        let whole = packed::whole(chain);
        let [text, other] = [&Text, self.other].map(|calls: &dyn Calls| packed::packed_batches(calls, chain));
        self.packed.batches += text.len() as u64;
        match text.last() {
            Some((_, left)) if left.answer != 0 => self.packed.refused += 1,
            _ => self.packed.accepted += 1,
        }
        for ((batch, left), (_, by_other)) in text.iter().zip(&other) {
            self.hold_alike(batch, left, by_other);
        }
        for (calls, batches, name) in [(&Text as &dyn Calls, text, "text"), (self.other, other, "other")] {
            let in_a_room = packed::full_batches(calls, chain);
            for ((batch, found), (full, left)) in batches.iter().zip(&in_a_room) {
                self.hold_kept(batch, full, &packed::kept(batch, full, left), found, name);
            }
            let (last, found) = batches.last().expect("a chain has a cut");
            let kept = packed::by_the_whole(last, &whole, &whole.outcome(calls));
            self.hold_kept(last, &whole, &kept, found, name);
        }
    }

    /// The blocks of every m, by the text and by the other implementation, each against its own whole. Above order 130 some blocks alone.
    fn hold_tails(&mut self, whole: &Case, text: &Outcome, other: &Outcome) {
        let n = whole.n;
        let from = if n <= 130 { (0..n).collect() } else { vec![0, 1, 15, 16, n / 2, n - 17, n - 2, n - 1] };
        for m in from {
            match (text.answer / 4096, text.answer % 4096) {
                (0, _) => self.tails.accepted += 1,
                (_, j) if j < m as u64 => self.tails.before += 1,
                _ => self.tails.within += 1,
            }
            let block = tail::block(whole, m);
            for (calls, left, name) in [(&Text as &dyn Calls, text, "text"), (self.other, other, "other")] {
                let (kept, found) = (tail::tail(&block, m, left), block.outcome(calls));
                if kept != found {
                    let [kept, found] = [kept, found].map(|outcome| outcome_line(&block, &outcome));
                    let said = format!("{}\nrows and columns from {m} on, by the {name}\nkept  {kept}\nblock {found}", case_line(whole));
                    self.differ(whole.size(), said);
                }
            }
        }
    }

    /// The run and one with other numbers in the columns of the other benches, by the text and by the other implementation, each against its first.
    fn hold_pair(&mut self, first: &Case, text: &Outcome, other: &Outcome) {
        let Some(second) = pair::second(first) else { return };
        match text.answer {
            0 if first.benches.contains(&first.bench) => self.pairs.solved += 1,
            0 => self.pairs.without += 1,
            _ => self.pairs.refused += 1,
        }
        for (calls, left, name) in [(&Text as &dyn Calls, text, "text"), (self.other, other, "other")] {
            for (run, found) in [(first, left), (&second, &second.outcome(calls))] {
                let kept = pair::kept(run, left);
                if kept != *found {
                    let [kept, found] = [&kept, found].map(|outcome| outcome_line(run, outcome));
                    let said = format!("{}\n{}\nby the {name}\nkept  {kept}\nfound {found}", case_line(first), case_line(run));
                    self.differ(first.size(), said);
                }
            }
        }
    }

    /// A list to a record and back, or a record to a list and back, by the text and by the other implementation, each by what it gave itself.
    fn hold_back(&mut self, there: &Case, text: &Outcome, other: &Outcome) {
        match there.call {
            Call::PivotsFromLapack => self.backs.lists += 1,
            _ => self.backs.records += 1,
        }
        for (calls, left, name) in [(&Text as &dyn Calls, text, "text"), (self.other, other, "other")] {
            let Some(back) = back::back(there, left) else { continue };
            let (given, found) = (back::given(there, &back), back.outcome(calls));
            if given != found {
                let [given, found] = [given, found].map(|outcome| outcome_line(&back, &outcome));
                let said = format!("{}\n{}\nby the {name}\ngiven {given}\nfound {found}", case_line(there), case_line(&back));
                self.differ(there.size(), said);
            }
        }
    }

    fn differ(&mut self, size: usize, said: String) {
        self.differences += 1;
        if self.smallest.as_ref().is_none_or(|(least, _)| size < *least) {
            self.smallest = Some((size, said));
        }
    }

    /// Demand 3: the batches of the other implementation against the one call of the text.
    fn hold_chain(&mut self, chain: &Chain) {
        self.chains += 1;
        let n = chain.n;
        let mut whole = chain.a.clone();
        let answer = Text.cholesky_factor(&mut whole, chain.room, n);
        let mut batched = chain.a.clone();
        let mut earlier = 0;
        let mut last = 0;
        for &cut in &chain.cuts {
            last = self.other.cholesky_extend(&mut batched, chain.room, earlier, cut);
            earlier = cut;
            if last != 0 {
                break;
            }
        }
        let same = |i: usize, j: usize| {
            let at = i + j * chain.room;
            let wanted = if j <= i && i < earlier { whole[at] } else { chain.a[at] };
            word(batched[at]) == word(wanted)
        };
        let all = (0..chain.room).all(|j| (0..chain.room).all(|i| same(i, j)));
        if last != answer || !all {
            let case = Case { x: chain.room, ..Case::new(Call::CholeskyFactor, n, chain.a.clone()) };
            self.differ(case.size(), format!("in batches that end at {:?}: {}", chain.cuts, case_line(&case)));
        }
    }

    fn print(&self, against: &str) {
        for (call, count) in &self.per_call {
            println!("  {:<22}{count:>9}", call.form().name);
        }
        for (code, count) in &self.per_code {
            println!("  code {code:<17}{count:>9}");
        }
        println!(
            "  blocks of size 2 in factors: {}; factors with a mark: {}; chains of batches: {}; pairs of twin rows: {}",
            self.size_two, self.marks, self.chains, self.twins
        );
        println!(
            "  blocks of UDU from a row on: {} of accepted matrices, {} of matrices refused before them, {} of matrices refused in them",
            self.tails.accepted, self.tails.before, self.tails.within
        );
        println!(
            "  pairs of a bench's runs: {} solved, {} of benches with no column, {} refused",
            self.pairs.solved, self.pairs.without, self.pairs.refused
        );
        println!("  there and back: {} lists, {} records", self.backs.lists, self.backs.records);
        for (call, count) in &self.packed.per_call {
            println!("  {:<24}{count:>7}", call.form().name);
        }
        for (code, count) in &self.packed.per_code {
            println!("  packed, code {code:<11}{count:>7}");
        }
        println!(
            "  packed calls beside full ones: {}; full calls on packed matrices: {}; pairs of twin rows in packed matrices: {}",
            self.packed.beside, self.packed.unfit, self.packed.twins
        );
        println!(
            "  chains of packed batches: {} accepted, {} refused, with {} batches",
            self.packed.accepted, self.packed.refused, self.packed.batches
        );
        self.floored.print();
        self.taught.print();
        self.held.print();
        self.trays.print();
        println!(
            "text against {against}: {} calls, {} chains, {} blocks, {} pairs, {} there and back, {} packed calls, {} packed chains, \
             {} floored calls, {} floored chains, {} teaching calls, {} handheld calls, {} trays, {} differ",
            self.calls(),
            self.chains,
            self.tails.accepted + self.tails.before + self.tails.within,
            self.pairs.solved + self.pairs.without + self.pairs.refused,
            self.backs.lists + self.backs.records,
            self.packed.calls(),
            self.packed.chains(),
            self.floored.calls(),
            self.floored.chains(),
            self.taught.calls(),
            self.held.calls(),
            self.trays.calls(),
            self.differences
        );
        if let Some((_, said)) = &self.smallest {
            println!("the smallest that differs:\n{said}");
        }
    }
}

fn blocks_of_two(factored: &Outcome) -> u64 {
    pairs(&factored.record).filter(|pair| pair[1] == 2).count() as u64 / 2
}
