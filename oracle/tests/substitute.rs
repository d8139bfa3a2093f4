//! How often the text turns a number down and how often it takes a root, counted by the numbers that it is given. So the text itself says how many columns
//! used its substitute, and at which column it answers `None`; the calls are held to that.

use std::cell::Cell;
use std::ops::{Add, AddAssign, Div, DivAssign, Mul, MulAssign, Neg, Sub, SubAssign};

use oracle::call::{Call, Calls, Case, words};
use oracle::cases::{self, Chain};
use oracle::linalg::cholesky::Cholesky;
use oracle::paper::Paper;
use oracle::text::Text;
use oracle::{Arithmetic, ComplexField, Dyn, OMatrix, One, RealField, Zero};

thread_local! {
    static TURNED_DOWN: Cell<u64> = const { Cell::new(0) };
    static ROOTS: Cell<u64> = const { Cell::new(0) };
}

fn count(of: &'static std::thread::LocalKey<Cell<u64>>) {
    of.set(of.get() + 1);
}

/// An f64 that counts. The text asks a number whether it is zero, and for its root, at its diagonals and its substitute alone.
#[derive(Clone, Copy, Debug, PartialEq, PartialOrd)]
struct Counting(f64);

impl Zero for Counting {
    fn zero() -> Self {
        Counting(0.0)
    }

    fn is_zero(&self) -> bool {
        let zero = self.0.is_zero();
        if zero {
            count(&TURNED_DOWN);
        }
        zero
    }
}

impl One for Counting {
    fn one() -> Self {
        Counting(1.0)
    }
}

macro_rules! as_f64 {
    ($($op:ident $name:ident $assign:ident $in_place:ident)*) => {$(
        impl $op for Counting {
            type Output = Self;
            fn $name(self, other: Self) -> Self {
                Counting(self.0.$name(other.0))
            }
        }

        impl $assign for Counting {
            fn $in_place(&mut self, other: Self) {
                self.0.$in_place(other.0);
            }
        }
    )*};
}

as_f64! { Add add AddAssign add_assign Sub sub SubAssign sub_assign Mul mul MulAssign mul_assign Div div DivAssign div_assign }

impl Neg for Counting {
    type Output = Self;
    fn neg(self) -> Self {
        Counting(-self.0)
    }
}

impl Arithmetic for Counting {}

impl ComplexField for Counting {
    type RealField = Self;

    fn from_real(re: Self) -> Self {
        re
    }

    fn from_f64(x: f64) -> Self {
        Counting(x)
    }

    fn real(self) -> Self {
        self
    }

    fn conjugate(self) -> Self {
        self
    }

    fn abs(self) -> Self {
        Counting(self.0.abs())
    }

    fn norm1(self) -> Self {
        Counting(self.0.norm1())
    }

    fn modulus_squared(self) -> Self {
        Counting(self.0.modulus_squared())
    }

    fn scale(self, factor: Self) -> Self {
        self * factor
    }

    fn unscale(self, factor: Self) -> Self {
        self / factor
    }

    fn powi(self, n: i32) -> Self {
        Counting(ComplexField::powi(self.0, n))
    }

    fn sqrt(self) -> Self {
        Counting(self.0.sqrt())
    }

    fn try_sqrt(self) -> Option<Self> {
        let root = self.0.try_sqrt();
        count(if root.is_some() { &ROOTS } else { &TURNED_DOWN });
        root.map(Counting)
    }
}

impl RealField for Counting {
    fn max(self, other: Self) -> Self {
        Counting(RealField::max(self.0, other.0))
    }
}

/// What the text makes of the first n rows of a room: its factor, how many numbers it turned down, and how many roots it took.
fn by_text(a: &[f64], room: usize, n: usize, substitute: Option<f64>) -> (Option<Vec<f64>>, u64, u64) {
    let cells = (0..n * n).map(|at| Counting(a[at % n + at / n * room])).collect();
    let matrix = OMatrix::from_vec(Dyn(n), Dyn(n), cells);
    TURNED_DOWN.set(0);
    ROOTS.set(0);
    let factor = match substitute {
        None => Cholesky::new(matrix),
        Some(x) => Cholesky::new_with_substitute(matrix, Counting(x)),
    };
    (factor.map(|factor| factor.unpack_dirty().as_slice().iter().map(|x| x.0).collect()), TURNED_DOWN.get(), ROOTS.get())
}

/// The calls on one matrix, with a floor and without, by what the text does.
fn hold(a: &[f64], room: usize, n: usize, floor: f64, seen: &mut [u64; 4]) {
    let case = Case { x: room, floor, ..Case::new(Call::CholeskyFactorFloored, n, a.to_vec()) };
    for (case, substitute) in [(Case { call: Call::CholeskyFactor, ..case.clone() }, None), (case, Some(floor))] {
        let (factor, turned_down, roots) = by_text(a, room, n, substitute);
        for calls in [&Text as &dyn Calls, &Paper] {
            let left = case.outcome(calls);
            match &factor {
                Some(factor) => {
                    // every number that was turned down is a diagonal, and the substitute's root was taken for it
                    assert_eq!((left.answer, left.value.unwrap_or(0), roots), (0, turned_down, n as u64));
                    let block: Vec<u64> = (0..n * n).map(|at| left.a[at % n + at / n * room]).collect();
                    assert_eq!(block, words(factor));
                }
                None => {
                    // the roots are those of the columns before, and what is turned down is the diagonal, and the substitute
                    let asked = if substitute.is_some() { 2 } else { 1 };
                    assert!(matches!(left.answer / 4096, 7 | 10 | 11));
                    assert_eq!((left.answer % 4096, left.value.unwrap_or(0), turned_down), (roots, 0, asked));
                }
            }
        }
        seen[2 * usize::from(substitute.is_some()) + usize::from(factor.is_none())] += 1;
    }
}

#[test]
fn the_text_counts() {
    let mut seen = [0; 4];
    for seed in 1..=3000 {
        for case in cases::floored(seed).iter().filter(|case| case.call == Call::CholeskyFactorFloored) {
            hold(&case.a, case.x, case.n, case.floor, &mut seen);
        }
        let (Chain { a, n, room, .. }, floor) = cases::floored_chain(seed);
        hold(&a, room, n, floor, &mut seen);
    }
    for case in cases::floored_sweep().iter().filter(|case| case.call == Call::CholeskyFactorFloored) {
        hold(&case.a, case.x, case.n, case.floor, &mut seen);
    }
    assert!(seen.iter().all(|&count| count > 1000), "accepted and refused, without a substitute and with one: {seen:?}");
}
