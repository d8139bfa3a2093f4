//! What is timed.

use std::hint::black_box;

use oracle::call::{Calls, record_length};
use oracle::cases::Rng;
use oracle::linalg::lblt::LBLT;
use oracle::text::square;
use oracle::{Dyn, OMatrix};
use port::Port;

use crate::clock::now;
use crate::port_tray;

pub struct Kind {
    pub name: &'static str,
    /// The entry (i, i) of order n, from a number between −1 and 1.
    diagonal: fn(n: usize, number: f64) -> f64,
}

pub const KINDS: [Kind; 3] = [
    Kind { name: "random symmetric", diagonal: |_, x| x },
    Kind { name: "heavy diagonal", diagonal: |n, x| x + n as f64 + 1.0 },
    // nearly every matrix has blocks of two
    Kind { name: "small diagonal", diagonal: |_, x| x / 100.0 },
];

/// The items of a tray.
const COUNT: usize = 1024;

/// A turn goes over as many trays as have about this many rows together, so that at small orders no branch is foretold from the turn before.
const ROWS: usize = 65_536;

/// Systems of one order, tray after tray, and the memory of the three ways to solve them. What a way works on is made or restored before the clock starts;
/// what it leaves is dropped after it has stopped.
pub struct Ways {
    n: usize,
    /// Of all trays.
    count: usize,
    given: Systems,
    lent: Systems,
    records: Vec<u32>,
    runs: Vec<u32>,
    answers: Vec<u64>,
    sides: Vec<OMatrix<f64, Dyn, Dyn>>,
    factors: Vec<LBLT<f64, Dyn>>,
}

/// Matrices, both triangles alike, and one side each, laid end to end.
#[derive(Clone)]
struct Systems {
    a: Vec<f64>,
    b: Vec<f64>,
}

impl Ways {
    pub fn new(kind: &Kind, n: usize) -> Ways {
        let count = COUNT * ROWS.div_ceil(COUNT * n);
        let given = Systems::new(kind, n, count);
        Ways {
            n,
            count,
            lent: given.clone(),
            given,
            records: vec![u32::MAX; record_length(n) * count],
            runs: (1..).take(count).collect(),
            answers: vec![u64::MAX; count],
            sides: vec![],
            factors: Vec::with_capacity(count),
        }
    }

    pub fn items(&self) -> usize {
        self.count
    }

    /// All three give the same solutions and do all items.
    pub fn agree(&mut self) {
        self.text();
        let text: Vec<u64> = self.sides.iter().flat_map(|side| bits(side.as_slice())).collect();
        self.calls();
        let calls: Vec<u64> = bits(&self.lent.b).collect();
        self.tray();
        let tray: Vec<u64> = bits(&self.lent.b).collect();
        assert!(text == tray, "the text's solutions are not the tray's");
        assert!(calls == tray, "the solutions of the two calls are not the tray's");
    }

    /// A new factor and a solve for each item: seconds.
    pub fn text(&mut self) -> f64 {
        let n = self.n;
        self.factors.clear();
        let mut matrices: Vec<_> = self.given.a.chunks_exact(n * n).map(|a| square(n, a.to_vec())).collect();
        self.sides = self.given.b.chunks_exact(n).map(|b| OMatrix::from_vec(Dyn(n), Dyn(1), b.to_vec())).collect();
        let mut solved = true;
        let began = now();
        for (a, b) in matrices.drain(..).zip(&mut self.sides) {
            let factor = LBLT::new(a);
            solved &= factor.solve_mut(b);
            self.factors.push(factor);
        }
        let spent = now() - began;
        black_box((&self.factors, &self.sides));
        assert!(solved, "the text did not solve all items");
        spent
    }

    /// The port's two calls for each item: seconds.
    pub fn calls(&mut self) -> f64 {
        let n = self.n;
        self.restore();
        let began = now();
        let matrices = self.lent.a.chunks_exact_mut(n * n).zip(self.records.chunks_exact_mut(record_length(n)));
        let sides = self.lent.b.chunks_exact_mut(n).zip(&mut self.answers);
        for (((a, record), (b, answer)), &run) in matrices.zip(sides).zip(&self.runs) {
            Port.lblt_factor(a, record, n, run);
            *answer = Port.lblt_solve(a, record, b, n, 1, run);
        }
        let spent = now() - began;
        assert!(self.answers.iter().all(|&answer| answer == 0), "the two calls did not solve all items");
        spent
    }

    /// One call for each tray: seconds.
    pub fn tray(&mut self) -> f64 {
        let n = self.n;
        self.restore();
        let mut answers = 0;
        let began = now();
        for first in (0..self.count).step_by(COUNT) {
            let end = first + COUNT;
            answers |= port_tray::tray(
                &mut self.lent.a[first * n * n..end * n * n],
                &mut self.records[first * record_length(n)..end * record_length(n)],
                &mut self.lent.b[first * n..end * n],
                &self.runs[first..end],
                &mut self.answers[first..end],
                n,
                COUNT,
            );
        }
        let spent = now() - began;
        assert!(answers == 0 && self.answers.iter().all(|&answer| answer == 0), "the tray did not solve all items");
        spent
    }

    fn restore(&mut self) {
        self.answers.fill(u64::MAX);
        self.records.fill(u32::MAX);
        self.lent.a.copy_from_slice(&self.given.a);
        self.lent.b.copy_from_slice(&self.given.b);
    }
}

impl Systems {
    fn new(kind: &Kind, n: usize, count: usize) -> Systems {
        let r = &mut Rng::new(n as u64);
        let mut a = vec![0.0; n * n * count];
        for a in a.chunks_exact_mut(n * n) {
            for j in 0..n {
                for i in j..n {
                    let x = r.unit();
                    let x = if i == j { (kind.diagonal)(n, x) } else { x };
                    a[i + j * n] = x;
                    a[j + i * n] = x;
                }
            }
        }
        Systems { a, b: (0..n * count).map(|_| r.unit()).collect() }
    }
}

fn bits(numbers: &[f64]) -> impl Iterator<Item = u64> + '_ {
    numbers.iter().map(|x| x.to_bits())
}
