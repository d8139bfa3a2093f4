//! Lists and factors that are not `dsytrf`'s for the lower triangle in n·n numbers: what the reader says of them, and what a solve gives.

use oracle::call::Calls;
use oracle::cases::Rng;

use crate::fortran::{List, Uplo::Lower, Uplo::Upper, block_size, dsytrf, dsytrf_aa, dsytrf_rk, dsytrf_rook};
use crate::lists::{BOUND, RUN, read};
use crate::matrix::{both_triangles, placed, residual, same_bits, shown, shown_answer, shown_list, times, weighted};

/// A residual above it is a wrong solution.
const WRONG: f64 = 1e-8;

/// Of a list, and in words.
type Test = (fn(&[i32]) -> bool, &'static str);

/// One kind of lists.
struct Kind {
    name: &'static str,
    factor: fn(&mut [f64], usize) -> List,
    /// Which lists are read, and which of these give a right solution.
    read: Test,
    right: Test,
}

const OWN_ROWS: Test = (|list| own_rows_from(list, 0), "exactly if every number is its own row");
const OWN_ROWS_AFTER: Test = (|list| own_rows_from(list, 1), "exactly if every number after the first is its own row");
const ABOVE_ZERO: Test = (|list| list.iter().all(|&p| p > 0), "exactly if no number is below zero");
const ORDER_ONE: Test = (|list| list.len() == 1, "exactly if the order is 1");
const ALWAYS: Test = (|_| true, "always");

const UPPER: Kind =
    Kind { name: "dsytrf, UPLO = 'U'", factor: |a, n| dsytrf(Upper, a, n, n, block_size(n)), read: OWN_ROWS, right: ORDER_ONE };
const ROOK: Kind = Kind { name: "dsytrf_rook", factor: dsytrf_rook, read: ABOVE_ZERO, right: ALWAYS };
const RK: Kind = Kind { name: "dsytrf_rk", factor: dsytrf_rk, read: ABOVE_ZERO, right: OWN_ROWS_AFTER };
const AA: Kind = Kind { name: "dsytrf_aa", factor: dsytrf_aa, read: ALWAYS, right: ORDER_ONE };

/// What becomes of the lists of a kind.
#[derive(Default)]
struct Counts {
    lists: u64,
    refused: u64,
    /// INFO is above 0, and our solve refuses.
    marked: u64,
    right: u64,
    wrong: u64,
    /// Not as the kind says.
    read_otherwise: u64,
    right_otherwise: u64,
}

impl Counts {
    fn add(&mut self, kind: &Kind, ours: &dyn Calls, a: &[f64], b: &[f64], n: usize) {
        let mut factor = both_triangles(a, n);
        let list = (kind.factor)(&mut factor, n);
        self.lists += 1;
        let record = read(ours, &list);
        self.read_otherwise += (record.is_ok() != (kind.read.0)(&list.ipiv)) as u64;
        let Ok(record) = record else {
            self.refused += 1;
            return;
        };
        let mut x = b.to_vec();
        if ours.lblt_solve(&factor, &record, &mut x, n, 1, RUN) != 0 {
            self.marked += 1;
            return;
        }
        let residual = residual(a, &x, b, n);
        self.right += (residual <= BOUND) as u64;
        self.wrong += (residual > WRONG) as u64;
        self.right_otherwise += ((residual <= BOUND) != (kind.right.0)(&list.ipiv)) as u64;
    }

    fn print(&self, kind: &Kind) {
        let Counts { lists, refused, marked, right, wrong, read_otherwise, right_otherwise } = self;
        let between = lists - refused - marked - right - wrong;
        println!("  {}: {lists} lists, {refused} refused by 12, {marked} read with a mark;", kind.name);
        println!("    by the others our solve gives {right} right solutions, {wrong} wrong ones and {between} between");
        println!("    read {}{}; right {}{}", kind.read.1, but(*read_otherwise), kind.right.1, but(*right_otherwise));
    }
}

fn but(lists: u64) -> String {
    if lists == 0 { String::new() } else { format!(", ! but for {lists}") }
}

fn own_rows_from(list: &[i32], from: usize) -> bool {
    list.iter().enumerate().skip(from).all(|(row, &p)| p == row as i32 + 1)
}

pub fn other_lists(ours: &dyn Calls, matrices: u64, first: u64) -> bool {
    println!("other lists, read all the same; a solution is right up to a residual of {BOUND:.0e}, wrong above {WRONG:.0e}");
    let mut kinds = [UPPER, ROOK, RK, AA].map(|kind| (kind, Counts::default()));
    let (mut room, mut wide) = (Room::default(), Wide::default());
    for seed in first..first + matrices {
        let r = &mut Rng::new(seed);
        let (least, orders) = r.pick(&[(1, 4), (1, 12), (1, 40), (65, 64)]);
        let n = least + r.below(orders);
        let mut a = weighted(r, n);
        if n == 1 {
            // it is not [0], which has no solution
            a[0] = 1.0;
        }
        let b: Vec<f64> = (0..n).map(|_| r.unit()).collect();
        kinds.iter_mut().for_each(|(kind, counts)| counts.add(kind, ours, &a, &b, n));
        room.add(ours, r, &a, &b, n);
        wide.add(ours, &a, n);
    }
    kinds.iter().for_each(|(kind, counts)| counts.print(kind));
    room.print();
    wide.print();
    examples(ours);
    kinds.iter().all(|(_, counts)| counts.read_otherwise == 0) && room.held() && wide.held()
}

/// Factors with LDA above n.
#[derive(Default)]
struct Room {
    factors: u64,
    refused: u64,
    same: u64,
}

impl Room {
    fn add(&mut self, ours: &dyn Calls, r: &mut Rng, a: &[f64], b: &[f64], n: usize) {
        self.factors += 1;
        let lda = n + 1 + r.below(8);
        let mut wide = vec![f64::NAN; lda * n];
        (0..n).for_each(|j| wide[j * lda..j * lda + n].copy_from_slice(&a[j * n..(j + 1) * n]));
        let list = dsytrf(Lower, &mut wide, lda, n, block_size(n));
        let mut factor = a.to_vec();
        let same_list = dsytrf(Lower, &mut factor, n, n, block_size(n)) == list;
        let Ok(record) = read(ours, &list) else { return };
        let mut x = b.to_vec();
        self.refused += (ours.lblt_solve(&wide, &record, &mut x, n, 1, RUN) == 3 * 4096) as u64;
        let together: Vec<f64> = wide.chunks_exact(lda).flat_map(|column| &column[..n]).copied().collect();
        self.same += (same_list && same_bits(&together, &factor)) as u64;
    }

    fn held(&self) -> bool {
        self.refused == self.factors && self.same == self.factors
    }

    fn print(&self) {
        let Room { factors, refused, same } = self;
        println!(
            "  {}dsytrf, LDA above n: {factors} factors of LDA*n numbers, {refused} refused by 3; with the columns copied together \
             the factor and the list of LDA = n in {same}",
            if self.held() { "" } else { "! " }
        );
    }
}

/// Lists of 64-bit numbers, as LAPACK built for them would write.
#[derive(Default)]
struct Wide {
    lists: u64,
    too_long: u64,
    refused: u64,
    of_order_one: u64,
}

impl Wide {
    fn add(&mut self, ours: &dyn Calls, a: &[f64], n: usize) {
        self.lists += 1;
        let list = dsytrf(Lower, &mut a.to_vec(), n, n, block_size(n));
        let halves = |&p: &i32| [p, p >> 31];
        let ipiv: Vec<i32> = list.ipiv.iter().flat_map(halves).collect();
        let mut record = vec![0; 2 * n + 2];
        self.too_long += (ours.pivots_from_lapack(&ipiv, list.info, &mut record, n, RUN) == 4 * 4096) as u64;
        match read(ours, &List { ipiv: ipiv[..n].to_vec(), info: list.info }) {
            Ok(_) => self.of_order_one += (n == 1) as u64,
            Err(refused) => self.refused += (refused >> 12 == 12) as u64,
        }
    }

    fn held(&self) -> bool {
        self.too_long == self.lists && self.refused + self.of_order_one == self.lists
    }

    fn print(&self) {
        let Wide { lists, too_long, refused, of_order_one } = self;
        println!(
            "  {}dsytrf's lists in 64-bit numbers, seen as halves: {lists}, {too_long} refused by 4 for their 2n halves; \
             the first n halves refused by 12 in {refused}, read in {of_order_one}, all of order 1",
            if self.held() { "" } else { "! " }
        );
    }
}

/// Small lists that are read and mean something else. The right-hand side is the matrix times ones.
fn examples(ours: &dyn Calls) {
    println!("  such lists that are read; the solution should be ones");
    let (two, three): (&[f64], &[f64]) = (&[4.0, 2.0, 3.0], &[8.0, 1.0, 1.0, 3.0, 2.0, 8.0]);
    for (kind, rows) in [(UPPER, two), (ROOK, three), (RK, three), (AA, two)] {
        let (a, n) = placed(rows);
        let mut factor = both_triangles(&a, n);
        let list = (kind.factor)(&mut factor, n);
        let mut x = times(&a, &vec![1.0; n], n);
        let solved = match read(ours, &list) {
            Ok(record) => match ours.lblt_solve(&factor, &record, &mut x, n, 1, RUN) {
                0 => format!("solution {x:?}"),
                refused => format!("the solve refuses: {}", shown_answer(refused)),
            },
            Err(refused) => format!("refused: {}", shown_answer(refused)),
        };
        println!("    {} of {}: {}; {solved}", kind.name, shown(&a, n), shown_list(&list));
    }
}
