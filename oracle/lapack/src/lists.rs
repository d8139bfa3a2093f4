//! LAPACK's pivot lists for the lower triangle: read as records and written back, its factors solved by our call, ours by `dsytrs`.

use oracle::call::{Calls, mark, pairs, record_length};
use oracle::cases::Rng;

use crate::fortran::{List, Uplo::Lower, block_size, dsytf2, dsytrf, dsytrs, in_blocks};
use crate::matrix::{apart, relative, residual, same_bits, shown, shown_answer, shown_list, shown_record, weighted};

/// The run number of every record here.
pub const RUN: u32 = 1116;

/// No residual of a well-scaled matrix may be above it.
pub const BOUND: f64 = 1e-12;

/// The record of a list, or the refusal.
pub fn read(ours: &dyn Calls, list: &List) -> Result<Vec<u32>, u64> {
    let n = list.ipiv.len();
    let mut record = vec![u32::MAX; record_length(n)];
    match ours.pivots_from_lapack(&list.ipiv, list.info, &mut record, n, RUN) {
        0 => Ok(record),
        refused => Err(refused),
    }
}

/// The list of a record, and its run number, or the refusal.
pub fn written(ours: &dyn Calls, record: &[u32]) -> Result<(List, u32), u64> {
    let mut ipiv = vec![i32::MIN; record.len() / 2 - 1];
    let n = ipiv.len();
    match ours.pivots_to_lapack(record, &mut ipiv, n) {
        (0, info, run) => Ok((List { ipiv, info }, run)),
        (refused, ..) => Err(refused),
    }
}

/// Lists read and written back.
#[derive(Default)]
pub struct Trips {
    lists: u64,
    refused: u64,
    changed: u64,
    /// INFO is above 0.
    pub infos: u64,
    /// The smallest that is refused or changed: its order, and what becomes of it.
    smallest: Option<(usize, String)>,
}

impl Trips {
    /// The record, if the list is read. The list is the matrix's.
    pub fn there_and_back(&mut self, ours: &dyn Calls, a: &[f64], list: &List) -> Option<Vec<u32>> {
        self.lists += 1;
        self.infos += (list.info > 0) as u64;
        let record = match read(ours, list) {
            Ok(record) => record,
            Err(refused) => {
                self.refused += 1;
                self.show(a, list, format!("refused by {}", shown_answer(refused)));
                return None;
            }
        };
        let back = written(ours, &record);
        if back.as_ref() != Ok(&(list.clone(), RUN)) {
            self.changed += 1;
            self.show(a, list, format!("read as {} and written back as {back:?}", shown_record(&record)));
        }
        Some(record)
    }

    fn show(&mut self, a: &[f64], list: &List, what: String) {
        let n = list.ipiv.len();
        if self.smallest.as_ref().is_none_or(|smallest| n < smallest.0) {
            self.smallest = Some((n, format!("{} of {}: {what}", shown_list(list), shown(a, n))));
        }
    }

    pub fn held(&self) -> bool {
        self.smallest.is_none()
    }

    pub fn shown(&self) -> String {
        let Trips { lists, refused, changed, .. } = self;
        match &self.smallest {
            None => format!("{lists} lists, all read, and written back as they were"),
            Some((_, what)) => format!("! {lists} lists, {refused} refused, {changed} written back otherwise; the smallest: {what}"),
        }
    }
}

/// Systems solved by one factor in two ways: by our solve and its record, by `dsytrs` and its list.
#[derive(Default)]
struct Solved {
    systems: u64,
    ours: f64,
    theirs: f64,
    apart: f64,
    far: u64,
    equal: u64,
}

impl Solved {
    /// The answer of our solve, its solution, and that of `dsytrs`.
    fn add(&mut self, system: &System, (answer, ours, theirs): (u64, &[f64], &[f64])) {
        let System { n, a, b, .. } = system;
        self.systems += 1;
        self.ours = self.ours.max(if answer == 0 { residual(a, ours, b, *n) } else { f64::INFINITY });
        self.theirs = self.theirs.max(residual(a, theirs, b, *n));
        let apart = relative(ours, theirs);
        self.apart = self.apart.max(apart);
        self.far += (apart > 1e-10) as u64;
        self.equal += same_bits(ours, theirs) as u64;
    }

    fn held(&self) -> bool {
        self.ours <= BOUND && self.theirs <= BOUND
    }

    fn shown(&self) -> String {
        let Solved { systems, ours, theirs, apart, far, equal } = self;
        format!(
            "{}{systems} solved: residuals at most {ours:.1e} by our solve, {theirs:.1e} by dsytrs; \
             solutions apart by at most {apart:.1e}, by more than 1e-10 in {far}; equal bits in {equal}",
            if self.held() { "" } else { "! " }
        )
    }
}

/// Factors whose pivots are the same.
#[derive(Default)]
struct Factors {
    compared: u64,
    same: u64,
    apart: f64,
    equal: u64,
}

impl Factors {
    fn add(&mut self, same_pivots: bool, one: &[f64], other: &[f64], n: usize) {
        self.compared += 1;
        if same_pivots {
            self.same += 1;
            self.apart = self.apart.max(apart(one, other, n));
            self.equal += same_bits(one, other) as u64;
        }
    }

    /// With earlier columns exchanged in one alone they would be apart by far more.
    fn held(&self) -> bool {
        self.apart <= 1e-8
    }

    fn shown(&self) -> String {
        let Factors { compared, same, apart, equal } = self;
        format!(
            "{}the same pivots in {same} of {compared}; factors then apart by at most {apart:.1e} of the greatest entry, \
             equal bits in {equal}",
            if self.held() { "" } else { "! " }
        )
    }
}

/// A matrix with right-hand sides, and our own factor and record.
struct System {
    n: usize,
    a: Vec<f64>,
    b: Vec<f64>,
    columns: usize,
    factor: Vec<f64>,
    record: Vec<u32>,
}

impl System {
    /// Mostly of small order, some for which `dsytrf` works by blocks; now and then rows and columns of zeros.
    fn random(ours: &dyn Calls, r: &mut Rng) -> System {
        let n = match r.below(40) {
            0 => 201 + r.below(200),
            1..=9 => 65 + r.below(136),
            _ => 1 + r.below(64),
        };
        let mut a = weighted(r, n);
        if r.one_in(8) {
            for _ in 0..1 + r.below(3) {
                let zero = r.below(n);
                (0..zero).for_each(|j| a[zero + j * n] = 0.0);
                (zero..n).for_each(|i| a[i + zero * n] = 0.0);
            }
        }
        let columns = 1 + r.below(3);
        let b = (0..n * columns).map(|_| r.unit()).collect();
        System::of(ours, n, a, b, columns)
    }

    fn of(ours: &dyn Calls, n: usize, a: Vec<f64>, b: Vec<f64>, columns: usize) -> System {
        let (mut factor, mut record) = (a.clone(), vec![0; record_length(n)]);
        assert_eq!(ours.lblt_factor(&mut factor, &mut record, n, RUN), 0);
        System { n, a, b, columns, factor, record }
    }

    /// By a factor of LAPACK's: the factor and its list.
    fn factored(&self, by: impl Fn(&mut [f64]) -> List) -> (Vec<f64>, List) {
        let mut a = self.a.clone();
        let list = by(&mut a);
        (a, list)
    }

    /// The answer of our solve, its solution, and that of `dsytrs`.
    fn solved(&self, ours: &dyn Calls, factor: &[f64], record: &[u32], list: &List) -> (u64, Vec<f64>, Vec<f64>) {
        let (mut x, mut y) = (self.b.clone(), self.b.clone());
        let answer = ours.lblt_solve(factor, record, &mut x, self.n, self.columns, RUN);
        dsytrs(factor, &list.ipiv, &mut y, self.n, self.columns);
        (answer, x, y)
    }
}

/// What is counted of one of LAPACK's routines.
#[derive(Default)]
struct Routine {
    trips: Trips,
    /// Rows: size 1 on its own row, size 1 exchanged, size 2.
    rows: [u64; 3],
    /// INFO 0: systems solved, and the factor beside our own.
    solved: Solved,
    factors: Factors,
    /// The matrix again by our `lblt_d` and `lblt_l_permuted`, at orders up to 200: how far from it.
    rebuilt: f64,
    /// INFO above 0: our solve refuses by 6 at that row and writes nothing; `dsytrs` leaves a number that is not finite.
    refused: u64,
    not_finite: u64,
}

impl Routine {
    fn add(&mut self, ours: &dyn Calls, system: &System, (factor, list): &(Vec<f64>, List)) {
        let Some(record) = self.trips.there_and_back(ours, &system.a, list) else { return };
        for (row, pair) in pairs(&record).enumerate() {
            self.rows[if pair[1] == 2 { 2 } else { (pair[0] as usize != row) as usize }] += 1;
        }
        let (answer, x, y) = system.solved(ours, factor, &record, list);
        if list.info > 0 {
            self.refused += (answer == 6 * 4096 + list.info as u64 - 1 && same_bits(&x, &system.b)) as u64;
            self.not_finite += y.iter().any(|y| !y.is_finite()) as u64;
        } else {
            self.solved.add(system, (answer, &x, &y));
            self.factors.add(record == system.record, &system.factor, factor, system.n);
            if system.n <= 200 {
                self.rebuilt = self.rebuilt.max(apart(&system.a, &rebuilt(ours, factor, &record, system.n), system.n));
            }
        }
    }

    fn held(&self) -> bool {
        self.trips.held() && self.solved.held() && self.factors.held() && self.rebuilt <= BOUND && self.refused == self.trips.infos
    }

    fn print(&self, name: &str) {
        let ([own, exchanged, twos], infos) = (self.rows, self.trips.infos);
        println!("  {name}: {}", self.trips.shown());
        println!("    {own} blocks of size 1 on their own row, {exchanged} exchanged, {} of size 2", twos / 2);
        println!("    INFO 0, by its factor and list: {}", self.solved.shown());
        println!("    INFO 0, its factor beside our own: {}", self.factors.shown());
        println!(
            "    {}INFO 0, orders up to 200: our lblt_d and lblt_l_permuted of its factor give the matrix, \
             apart by at most {:.1e} of its greatest entry",
            if self.rebuilt <= BOUND { "" } else { "! " },
            self.rebuilt
        );
        println!(
            "    {}INFO above 0 in {infos}: our solve refuses {} by 6 at row INFO - 1; dsytrs leaves a number that is not finite in {}",
            if self.refused == infos { "" } else { "! " },
            self.refused,
            self.not_finite
        );
    }
}

/// L·D·Lᵀ by our two calls, the lower triangle.
fn rebuilt(ours: &dyn Calls, factor: &[f64], record: &[u32], n: usize) -> Vec<f64> {
    let (mut d, mut l) = (vec![0.0; n * n], vec![0.0; n * n]);
    assert_eq!(ours.lblt_d(factor, record, &mut d, n, RUN), 0);
    assert_eq!(ours.lblt_l_permuted(factor, record, &mut l, n, RUN), 0);
    let mut a = vec![0.0; n * n];
    for k in 0..n {
        // column k of L·D, and row k of Lᵀ
        let mut column = vec![0.0; n];
        for c in k.saturating_sub(1)..(k + 2).min(n) {
            (0..n).for_each(|i| column[i] += l[i + c * n] * d[c + k * n]);
        }
        for j in (0..n).filter(|&j| l[j + k * n] != 0.0) {
            (j..n).for_each(|i| a[i + j * n] += column[i] * l[j + k * n]);
        }
    }
    a
}

/// What is counted of our own factors.
#[derive(Default)]
struct Own {
    records: u64,
    changed: u64,
    marks: u64,
    /// No mark.
    solved: Solved,
}

impl Own {
    fn add(&mut self, ours: &dyn Calls, system: &System) {
        self.records += 1;
        let record = &system.record;
        let list = match written(ours, record) {
            Ok((list, RUN)) if read(ours, &list).as_ref() == Ok(record) && list.info as u32 == mark(record) => list,
            _ => {
                self.changed += 1;
                return;
            }
        };
        if mark(record) != 0 {
            self.marks += 1;
            return;
        }
        let (answer, x, y) = system.solved(ours, &system.factor, record, &list);
        self.solved.add(system, (answer, &x, &y));
    }

    fn held(&self) -> bool {
        self.changed == 0 && self.solved.held()
    }

    fn print(&self) {
        let Own { records, changed, marks, solved } = self;
        match changed {
            0 => println!("  our records: {records} written as lists, all read back as they were; {marks} marked"),
            _ => println!("  ! our records: {changed} of {records} not written as lists, or not read back as they were"),
        }
        println!("    no mark, by our factor and the list: {}", solved.shown());
    }
}

/// `dsytrf` by blocks beside `dsytf2`.
#[derive(Default)]
struct Blocked {
    /// INFO 0 in both.
    factors: Factors,
    infos: u64,
    same_infos: u64,
    /// Whether `in_blocks` does what `dsytrf` does.
    in_blocks: u64,
    matrices: u64,
}

impl Blocked {
    fn add(&mut self, system: &System, block: usize, one: &(Vec<f64>, List), other: &(Vec<f64>, List)) {
        self.matrices += 1;
        if one.1.info == 0 && other.1.info == 0 {
            self.factors.add(one.1 == other.1, &one.0, &other.0, system.n);
        } else {
            self.infos += 1;
            self.same_infos += (one.1.info == other.1.info) as u64;
        }
        let (factor, list) = system.factored(|a| in_blocks(a, system.n, block));
        self.in_blocks += (list == other.1 && same_bits(&factor, &other.0)) as u64;
    }

    fn held(&self) -> bool {
        self.factors.held() && self.in_blocks == self.matrices
    }

    fn print(&self) {
        let Blocked { factors, infos, same_infos, in_blocks, matrices } = self;
        println!("  dsytrf by blocks beside dsytf2, {matrices} matrices; INFO 0: {}", factors.shown());
        println!("    INFO above 0 in {infos}, the same in {same_infos}");
        println!("    {}dlasyf and dsytf2 in dsytrf's order: dsytrf's bits in {in_blocks}", if in_blocks == matrices { "" } else { "! " });
    }
}

pub fn well_scaled(ours: &dyn Calls, matrices: u64, first: u64) -> bool {
    let (mut unblocked, mut standard, mut blocked, mut own) = (Routine::default(), Routine::default(), Blocked::default(), Own::default());
    let mut greatest = 0;
    for seed in first..first + matrices {
        let r = &mut Rng::new(seed);
        let system = System::random(ours, r);
        let n = system.n;
        greatest = greatest.max(n);
        let whole = block_size(n);
        // LWORK for less than a whole block, too
        let block = if r.one_in(3) { 8 + r.below(whole.saturating_sub(8)) } else { whole };
        let one = system.factored(|a| dsytf2(Lower, a, n, n));
        let other = system.factored(|a| dsytrf(Lower, a, n, n, block));
        unblocked.add(ours, &system, &one);
        standard.add(ours, &system, &other);
        if n > whole {
            blocked.add(&system, block, &one, &other);
        }
        own.add(ours, &system);
    }
    println!("lists of well-scaled matrices: {matrices} of orders 1 to {greatest}; dsytrf's block is {} columns", block_size(greatest));
    unblocked.print("dsytf2");
    standard.print("dsytrf");
    blocked.print();
    own.print();
    unblocked.held() && standard.held() && blocked.held() && own.held()
}

/// Matrices times a power of two: how many systems are solved wrong by our solve and by `dsytrs`, by `dsytrf`'s factor and by ours.
pub fn scaled(ours: &dyn Calls, matrices: u64, first: u64) -> bool {
    println!(
        "well-scaled matrices of orders 1 to 64 times a power of two, INFO 0; a solution is wrong if its residual is above {BOUND:.0e}"
    );
    let mut held = true;
    for exponent in [-600i64, -500, 500, 600] {
        let scale = f64::from_bits((1023 + exponent) as u64 * (1 << 52));
        // with a block of size 2, without one: systems, then those that are wrong
        let mut counts = [[0u64; 5]; 2];
        for seed in first..first + matrices.div_ceil(10) {
            let r = &mut Rng::new(seed);
            let n = 1 + r.below(64);
            let a = weighted(r, n).iter().map(|x| x * scale).collect();
            let b = (0..n).map(|_| r.unit()).collect();
            let system = System::of(ours, n, a, b, 1);
            let (factor, list) = system.factored(|a| dsytrf(Lower, a, n, n, block_size(n)));
            let Ok(record) = read(ours, &list) else { continue };
            let Ok((own, _)) = written(ours, &system.record) else { continue };
            if list.info > 0 || own.info > 0 {
                continue;
            }
            let count = &mut counts[list.ipiv.iter().all(|&p| p > 0) as usize];
            count[0] += 1;
            let (_, x, y) = system.solved(ours, &factor, &record, &list);
            let (_, z, w) = system.solved(ours, &system.factor, &system.record, &own);
            for (at, x) in [x, y, z, w].iter().enumerate() {
                count[1 + at] += (residual(&system.a, x, &system.b, n) > BOUND) as u64;
            }
        }
        for (what, [systems, x, y, z, w]) in ["with", "without"].iter().zip(counts) {
            println!(
                "  2^{exponent}, {systems} {what} a block of size 2: wrong by dsytrf's factor {x} of our solve and {y} of dsytrs, \
                 by our factor {z} and {w}"
            );
        }
        held &= exponent.abs() > 500 || counts.iter().all(|count| count[1..] == [0; 4]);
    }
    held
}
