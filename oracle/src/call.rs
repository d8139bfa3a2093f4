//! The calls as documents 01 and 02 and the C convention give them, the two calls for rows that came twice, and a case: one call with what it is
//! lent.

/// An implementation of the calls. An answer is code·4,096 + place, and for a pair of twin rows p < q (4,096 + q)·4,096 + p.
pub trait Calls {
    fn lblt_factor(&self, a: &mut [f64], record: &mut [u32], n: usize, run: u32) -> u64;
    fn lblt_solve(&self, a: &[f64], record: &[u32], b: &mut [f64], n: usize, columns: usize, run: u32) -> u64;
    #[allow(clippy::too_many_arguments)]
    fn lblt_solve_bench(
        &self,
        a: &[f64],
        record: &[u32],
        b: &mut [f64],
        benches: &[u32],
        n: usize,
        columns: usize,
        bench: u32,
        run: u32,
    ) -> u64;
    fn lblt_determinant(&self, a: &[f64], record: &[u32], n: usize, run: u32) -> (u64, f64);
    fn lblt_d(&self, a: &[f64], record: &[u32], d: &mut [f64], n: usize, run: u32) -> u64;
    fn lblt_l_permuted(&self, a: &[f64], record: &[u32], l: &mut [f64], n: usize, run: u32) -> u64;
    /// The items laid end to end; each gets its own answer.
    #[allow(clippy::too_many_arguments)]
    fn lblt_tray(
        &self,
        a: &mut [f64],
        records: &mut [u32],
        b: &mut [f64],
        runs: &[u32],
        answers: &mut [u64],
        n: usize,
        count: usize,
    ) -> u64;
    fn cholesky_factor(&self, a: &mut [f64], room: usize, n: usize) -> u64;
    fn cholesky_extend(&self, a: &mut [f64], room: usize, earlier: usize, n: usize) -> u64;
    /// The answer, and how many columns used the floor.
    fn cholesky_factor_floored(&self, a: &mut [f64], room: usize, n: usize, floor: f64) -> (u64, u64);
    fn cholesky_extend_floored(&self, a: &mut [f64], room: usize, earlier: usize, n: usize, floor: f64) -> (u64, u64);
    fn cholesky_teaching(&self, a: &mut [f64], room: usize, n: usize) -> u64;
    fn cholesky_solve(&self, a: &[f64], b: &mut [f64], room: usize, n: usize, columns: usize) -> u64;
    fn cholesky_l(&self, a: &[f64], l: &mut [f64], room: usize, n: usize) -> u64;
    fn cholesky_unpack(&self, a: &mut [f64], room: usize, n: usize) -> u64;
    fn cholesky_determinant(&self, a: &[f64], room: usize, n: usize) -> (u64, f64);
    fn udu_factor(&self, p: &[f64], u: &mut [f64], d: &mut [f64], n: usize) -> u64;
    fn first_twin_since(&self, a: &[f64], room: usize, earlier: usize, n: usize) -> u64;
    fn first_twin(&self, a: &[f64], room: usize, n: usize) -> u64;
    fn pivots_from_lapack(&self, list: &[i32], info: i32, record: &mut [u32], n: usize, run: u32) -> u64;
    /// The answer, INFO and the run number.
    fn pivots_to_lapack(&self, record: &[u32], list: &mut [i32], n: usize) -> (u64, i32, u32);
    fn packed_lblt_factor(&self, a: &mut [f64], record: &mut [u32], n: usize, run: u32) -> u64;
    fn packed_lblt_solve(&self, a: &[f64], record: &[u32], b: &mut [f64], n: usize, columns: usize, run: u32) -> u64;
    fn packed_lblt_determinant(&self, a: &[f64], record: &[u32], n: usize, run: u32) -> (u64, f64);
    fn packed_cholesky_factor(&self, a: &mut [f64], n: usize) -> u64;
    /// `rows` are the lower rows from `earlier` on, end to end.
    fn packed_cholesky_extend(&self, old: &[f64], rows: &[f64], fresh: &mut [f64], earlier: usize, n: usize) -> u64;
    fn packed_cholesky_solve(&self, a: &[f64], b: &mut [f64], n: usize, columns: usize) -> u64;
    fn packed_first_twin(&self, a: &[f64], n: usize) -> u64;
    /// Order 3, by value. It refuses nothing.
    fn handheld_factor(&self, matrix: Matrix3) -> (Matrix3, Pivots3);
    /// The answer and the solution, or the side as given.
    fn handheld_solve(&self, matrix: Matrix3, pivots: Pivots3, side: [f64; 3]) -> (u64, [f64; 3]);
}

/// Three columns of three numbers: entry (i, j) at [j][i].
pub type Matrix3 = [[f64; 3]; 3];

/// The pivots of the handheld.
#[derive(Clone, Copy, Debug, PartialEq, Eq)]
pub struct Pivots3 {
    pub index: [u32; 3],
    pub size: [u32; 3],
    /// 0, or the marked row + 1.
    pub mark: u32,
}

impl Pivots3 {
    /// Three indexes, three sizes, the mark.
    pub fn of(words: [u32; 7]) -> Pivots3 {
        let [i0, i1, i2, s0, s1, s2, mark] = words;
        Pivots3 { index: [i0, i1, i2], size: [s0, s1, s2], mark }
    }

    pub fn words(self) -> [u32; 7] {
        let ([i0, i1, i2], [s0, s1, s2]) = (self.index, self.size);
        [i0, i1, i2, s0, s1, s2, self.mark]
    }
}

#[derive(Clone, Copy, Debug, PartialEq, Eq, PartialOrd, Ord)]
pub enum Call {
    LbltFactor,
    LbltSolve,
    LbltSolveBench,
    LbltDeterminant,
    LbltD,
    LbltLPermuted,
    LbltTray,
    CholeskyFactor,
    CholeskyExtend,
    CholeskyFactorFloored,
    CholeskyExtendFloored,
    CholeskyTeaching,
    CholeskySolve,
    CholeskyL,
    CholeskyUnpack,
    CholeskyDeterminant,
    UduFactor,
    FirstTwinSince,
    FirstTwin,
    PivotsFromLapack,
    PivotsToLapack,
    PackedLbltFactor,
    PackedLbltSolve,
    PackedLbltDeterminant,
    PackedCholeskyFactor,
    PackedCholeskyExtend,
    PackedCholeskySolve,
    PackedFirstTwin,
    HandheldFactor,
    HandheldSolve,
}

use Call::*;

/// What a call takes, in the order of the text form: numbers, then slices.
pub struct Form {
    pub call: Call,
    pub name: &'static str,
    /// The call's number in the stored lists.
    pub number: u64,
    pub numbers: &'static [Number],
    pub slices: &'static [Slice],
    /// It hands back a value beside the answer.
    pub valued: bool,
}

#[derive(Clone, Copy, Debug, PartialEq, Eq)]
pub enum Number {
    N,
    /// The columns of `lblt_solve`, `lblt_solve_bench` and the packed solves, the items of a tray, the earlier order of the packed further batch, or room.
    X,
    /// Earlier order, or the columns of `cholesky_solve`.
    Y,
    /// The bench whose columns are solved.
    Bench,
    /// The run number of LBLT's calls, or of the record that is read from a list.
    Run,
    /// INFO beside a list that is read.
    Info,
    /// What stands in for a diagonal that fails, an f64.
    Floor,
}

#[derive(Clone, Copy, Debug, PartialEq, Eq)]
pub enum Slice {
    A,
    B,
    C,
    /// Of a tray its items' records.
    Record,
    Benches,
    List,
    Runs,
    Answers,
}

use Number::{Bench, Floor, Info, N, Run, X, Y};
use Slice::{A, Answers, B, Benches, C, List, Record, Runs};

#[rustfmt::skip]
pub const FORMS: [Form; 30] = [
    Form { call: LbltFactor, name: "lblt_factor", number: 1, numbers: &[N, Run], slices: &[A, Record], valued: false },
    Form { call: LbltSolve, name: "lblt_solve", number: 2, numbers: &[N, X, Run], slices: &[A, Record, B], valued: false },
    Form { call: LbltDeterminant, name: "lblt_determinant", number: 3, numbers: &[N, Run], slices: &[A, Record], valued: true },
    Form { call: LbltD, name: "lblt_d", number: 4, numbers: &[N, Run], slices: &[A, Record, B], valued: false },
    Form { call: LbltLPermuted, name: "lblt_l_permuted", number: 5, numbers: &[N, Run], slices: &[A, Record, B], valued: false },
    Form { call: CholeskyFactor, name: "cholesky_factor", number: 6, numbers: &[X, N], slices: &[A], valued: false },
    Form { call: CholeskyExtend, name: "cholesky_extend", number: 7, numbers: &[X, Y, N], slices: &[A], valued: false },
    Form { call: CholeskyL, name: "cholesky_l", number: 8, numbers: &[X, N], slices: &[A, B], valued: false },
    Form { call: CholeskyUnpack, name: "cholesky_unpack", number: 9, numbers: &[X, N], slices: &[A], valued: false },
    Form { call: CholeskyDeterminant, name: "cholesky_determinant", number: 10, numbers: &[X, N], slices: &[A], valued: true },
    Form { call: UduFactor, name: "udu_factor", number: 11, numbers: &[N], slices: &[A, B, C], valued: false },
    Form { call: FirstTwinSince, name: "first_twin_since", number: 12, numbers: &[X, Y, N], slices: &[A], valued: false },
    Form { call: FirstTwin, name: "first_twin", number: 13, numbers: &[X, N], slices: &[A], valued: false },
    Form { call: CholeskySolve, name: "cholesky_solve", number: 14, numbers: &[X, N, Y], slices: &[A, B], valued: false },
    Form { call: LbltSolveBench, name: "lblt_solve_bench", number: 15, numbers: &[N, X, Bench, Run], slices: &[A, Record, B, Benches], valued: false },
    Form { call: PivotsFromLapack, name: "pivots_from_lapack", number: 16, numbers: &[N, Info, Run], slices: &[List, Record], valued: false },
    Form { call: PivotsToLapack, name: "pivots_to_lapack", number: 17, numbers: &[N], slices: &[Record, List], valued: true },
    Form { call: PackedLbltFactor, name: "packed_lblt_factor", number: 18, numbers: &[N, Run], slices: &[A, Record], valued: false },
    Form { call: PackedLbltSolve, name: "packed_lblt_solve", number: 19, numbers: &[N, X, Run], slices: &[A, Record, B], valued: false },
    Form { call: PackedLbltDeterminant, name: "packed_lblt_determinant", number: 20, numbers: &[N, Run], slices: &[A, Record], valued: true },
    Form { call: PackedCholeskyFactor, name: "packed_cholesky_factor", number: 21, numbers: &[N], slices: &[A], valued: false },
    Form { call: PackedCholeskyExtend, name: "packed_cholesky_extend", number: 22, numbers: &[X, N], slices: &[A, B, C], valued: false },
    Form { call: PackedCholeskySolve, name: "packed_cholesky_solve", number: 23, numbers: &[N, X], slices: &[A, B], valued: false },
    Form { call: PackedFirstTwin, name: "packed_first_twin", number: 24, numbers: &[N], slices: &[A], valued: false },
    Form { call: CholeskyFactorFloored, name: "cholesky_factor_floored", number: 25, numbers: &[X, N, Floor], slices: &[A], valued: true },
    Form { call: CholeskyExtendFloored, name: "cholesky_extend_floored", number: 26, numbers: &[X, Y, N, Floor], slices: &[A], valued: true },
    Form { call: CholeskyTeaching, name: "cholesky_teaching", number: 27, numbers: &[X, N], slices: &[A], valued: false },
    Form { call: HandheldFactor, name: "handheld_factor", number: 28, numbers: &[], slices: &[A, Record], valued: false },
    Form { call: HandheldSolve, name: "handheld_solve", number: 29, numbers: &[], slices: &[A, Record, B], valued: false },
    Form { call: LbltTray, name: "lblt_tray", number: 30, numbers: &[N, X], slices: &[A, Record, B, Runs, Answers], valued: false },
];

impl Call {
    pub fn form(self) -> &'static Form {
        FORMS.iter().find(|f| f.call == self).expect("every call has a form")
    }

    /// The text does not have it, or not what it rests on: the steps stand in for the text.
    pub fn by_steps_alone(self) -> bool {
        matches!(self, CholeskySolve | FirstTwinSince | FirstTwin)
    }

    /// The call with a floor for the diagonals that fail.
    pub fn floored(self) -> Option<Call> {
        match self {
            CholeskyFactor => Some(CholeskyFactorFloored),
            CholeskyExtend => Some(CholeskyExtendFloored),
            _ => None,
        }
    }

    /// The call that takes the packed lower triangle where this one takes the whole matrix.
    pub fn packed(self) -> Option<Call> {
        match self {
            LbltFactor => Some(PackedLbltFactor),
            LbltSolve => Some(PackedLbltSolve),
            LbltDeterminant => Some(PackedLbltDeterminant),
            CholeskyFactor => Some(PackedCholeskyFactor),
            CholeskyExtend => Some(PackedCholeskyExtend),
            CholeskySolve => Some(PackedCholeskySolve),
            FirstTwin => Some(PackedFirstTwin),
            _ => None,
        }
    }
}

/// A call with its numbers and all that is lent to it. What a call does not take is empty or 0.
#[derive(Clone, Debug)]
pub struct Case {
    pub call: Call,
    /// The order.
    pub n: usize,
    /// `lblt_solve`, `lblt_solve_bench`, the packed solves: columns; `lblt_tray`: items; `packed_cholesky_extend`: earlier order; Cholesky and twin rows:
    /// room.
    pub x: usize,
    /// `cholesky_extend`, `cholesky_extend_floored`, `first_twin_since`: earlier order; `cholesky_solve`: columns.
    pub y: usize,
    /// `lblt_solve_bench`: the bench whose columns are solved.
    pub bench: u32,
    /// LBLT: the run number, given or expected; `pivots_from_lapack`: given.
    pub run: u32,
    /// `pivots_from_lapack`: what stands beside the list.
    pub info: i32,
    /// The floored calls: what stands in for a diagonal that fails.
    pub floor: f64,
    /// The first matrix, or those of a tray.
    pub a: Vec<f64>,
    /// Right-hand sides, `d`, `l`, `u`, or the rows of the packed further batch.
    pub b: Vec<f64>,
    /// UDU's `d`, or the fresh buffer of the packed further batch.
    pub c: Vec<f64>,
    /// Of the handheld its pivots: three indexes, three sizes, the mark; of a tray its records.
    pub record: Vec<u32>,
    /// A bench number for each column.
    pub benches: Vec<u32>,
    /// LAPACK's pivots, a number for each row.
    pub list: Vec<i32>,
    /// A tray's run numbers, one for each item.
    pub runs: Vec<u32>,
    /// A tray's answers, likewise.
    pub answers: Vec<u64>,
}

/// What a call answers and what it leaves in everything lent, as words in which all NaNs are one.
#[derive(Clone, Debug, Default, PartialEq, Eq)]
pub struct Outcome {
    pub answer: u64,
    pub value: Option<u64>,
    pub a: Vec<u64>,
    pub b: Vec<u64>,
    pub c: Vec<u64>,
    pub record: Vec<u32>,
    pub benches: Vec<u32>,
    pub list: Vec<i32>,
    pub runs: Vec<u32>,
    pub answers: Vec<u64>,
}

pub const NAN: u64 = 0x7ff8_0000_0000_0000;

/// The words of a pivot record: index and size of each row, the mark, the run number.
pub fn record_length(n: usize) -> usize {
    2 * n + 2
}

/// Index and size of each row.
pub fn pairs(record: &[u32]) -> std::slice::ChunksExact<'_, u32> {
    record[..record.len() - 2].chunks_exact(2)
}

/// 0, or the marked row + 1.
pub fn mark(record: &[u32]) -> u32 {
    record[record.len() - 2]
}

/// The value of `pivots_to_lapack` as a word: INFO's 32 bits in the low half, the run number in the high one.
pub fn info_and_run(info: i32, run: u32) -> u64 {
    (run as u64) << 32 | info as u32 as u64
}

pub fn word(x: f64) -> u64 {
    if x.is_nan() { NAN } else { x.to_bits() }
}

pub fn words(s: &[f64]) -> Vec<u64> {
    s.iter().map(|&x| word(x)).collect()
}

impl Case {
    pub fn new(call: Call, n: usize, a: Vec<f64>) -> Case {
        let (b, c, record, benches, list, runs, answers) = (vec![], vec![], vec![], vec![], vec![], vec![], vec![]);
        Case { call, n, x: 0, y: 0, bench: 0, run: 0, info: 0, floor: 0.0, a, b, c, record, benches, list, runs, answers }
    }

    /// Runs the call on what is lent, in place.
    pub fn run_in_place(&mut self, calls: &dyn Calls) -> (u64, Option<u64>) {
        let Case { call, n, x, y, bench, run, info, floor, a, b, c, record, benches, list, runs, answers } = self;
        let (n, x, y, bench, run, info, floor) = (*n, *x, *y, *bench, *run, *info, *floor);
        match call {
            LbltFactor => (calls.lblt_factor(a, record, n, run), None),
            LbltSolve => (calls.lblt_solve(a, record, b, n, x, run), None),
            LbltSolveBench => (calls.lblt_solve_bench(a, record, b, benches, n, x, bench, run), None),
            LbltDeterminant => with_value(calls.lblt_determinant(a, record, n, run)),
            LbltD => (calls.lblt_d(a, record, b, n, run), None),
            LbltLPermuted => (calls.lblt_l_permuted(a, record, b, n, run), None),
            LbltTray => (calls.lblt_tray(a, record, b, runs, answers, n, x), None),
            CholeskyFactor => (calls.cholesky_factor(a, x, n), None),
            CholeskyExtend => (calls.cholesky_extend(a, x, y, n), None),
            CholeskyFactorFloored => with_count(calls.cholesky_factor_floored(a, x, n, floor)),
            CholeskyExtendFloored => with_count(calls.cholesky_extend_floored(a, x, y, n, floor)),
            CholeskyTeaching => (calls.cholesky_teaching(a, x, n), None),
            CholeskySolve => (calls.cholesky_solve(a, b, x, n, y), None),
            CholeskyL => (calls.cholesky_l(a, b, x, n), None),
            CholeskyUnpack => (calls.cholesky_unpack(a, x, n), None),
            CholeskyDeterminant => with_value(calls.cholesky_determinant(a, x, n)),
            UduFactor => (calls.udu_factor(a, b, c, n), None),
            FirstTwinSince => (calls.first_twin_since(a, x, y, n), None),
            FirstTwin => (calls.first_twin(a, x, n), None),
            PivotsFromLapack => (calls.pivots_from_lapack(list, info, record, n, run), None),
            PivotsToLapack => {
                let (answer, info, run) = calls.pivots_to_lapack(record, list, n);
                (answer, Some(info_and_run(info, run)))
            }
            PackedLbltFactor => (calls.packed_lblt_factor(a, record, n, run), None),
            PackedLbltSolve => (calls.packed_lblt_solve(a, record, b, n, x, run), None),
            PackedLbltDeterminant => with_value(calls.packed_lblt_determinant(a, record, n, run)),
            PackedCholeskyFactor => (calls.packed_cholesky_factor(a, n), None),
            PackedCholeskyExtend => (calls.packed_cholesky_extend(a, b, c, x, n), None),
            PackedCholeskySolve => (calls.packed_cholesky_solve(a, b, n, x), None),
            PackedFirstTwin => (calls.packed_first_twin(a, n), None),
            HandheldFactor => {
                let (matrix, pivots) = calls.handheld_factor(three_columns(a));
                a.copy_from_slice(matrix.as_flattened());
                record.copy_from_slice(&pivots.words());
                (0, None)
            }
            HandheldSolve => {
                let (answer, side) = calls.handheld_solve(three_columns(a), Pivots3::of(exactly(record)), exactly(b));
                b.copy_from_slice(&side);
                (answer, None)
            }
        }
    }

    pub fn outcome(&self, calls: &dyn Calls) -> Outcome {
        let mut after = self.clone();
        let (answer, value) = after.run_in_place(calls);
        let [a, b, c] = [&after.a, &after.b, &after.c].map(|s| words(s));
        let Case { record, benches, list, runs, answers, .. } = after;
        Outcome { answer, value, a, b, c, record, benches, list, runs, answers }
    }

    /// The second number of its call in a stored list: of a list's reader INFO's 32 bits.
    pub fn second(&self) -> usize {
        if self.call.form().numbers.contains(&Info) { self.info as u32 as usize } else { self.x }
    }

    /// The third one: of the calls that take a run number that number in the low half and the bench in the high one, of a tray how many run numbers it has.
    pub fn third(&self) -> usize {
        let form = self.call.form();
        if form.numbers.contains(&Run) {
            (self.bench as usize) << 32 | self.run as usize
        } else if form.slices.contains(&Runs) {
            self.runs.len()
        } else {
            self.y
        }
    }

    /// How much there is to read in it.
    pub fn size(&self) -> usize {
        let floats = self.a.len() + self.b.len() + self.c.len();
        floats + self.record.len() + self.benches.len() + self.list.len() + self.runs.len() + self.answers.len()
    }
}

/// A call by value takes neither more nor less.
fn exactly<T: Copy, const N: usize>(lent: &[T]) -> [T; N] {
    lent.try_into().unwrap_or_else(|_| panic!("{} where a call by value takes {N}", lent.len()))
}

pub fn three_columns(a: &[f64]) -> Matrix3 {
    let numbers: [f64; 9] = exactly(a);
    [0, 3, 6].map(|first| [numbers[first], numbers[first + 1], numbers[first + 2]])
}

fn with_value((answer, value): (u64, f64)) -> (u64, Option<u64>) {
    (answer, Some(word(value)))
}

fn with_count((answer, count): (u64, u64)) -> (u64, Option<u64>) {
    (answer, Some(count))
}
