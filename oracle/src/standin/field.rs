//! Numbers: the traits of num and simba as far as the text uses them, and f64 in them.

use std::fmt::Debug;
use std::ops::{Add, AddAssign, Div, DivAssign, Mul, MulAssign, Neg, Sub, SubAssign};

use super::left_out;

pub trait Zero: Sized {
    fn zero() -> Self;
    fn is_zero(&self) -> bool;
}

pub trait One: Sized {
    fn one() -> Self;
}

/// The operations that every number of the text has.
pub trait Arithmetic:
    Clone
    + Debug
    + PartialEq
    + Zero
    + One
    + Neg<Output = Self>
    + Add<Output = Self>
    + Sub<Output = Self>
    + Mul<Output = Self>
    + Div<Output = Self>
    + AddAssign
    + SubAssign
    + MulAssign
    + DivAssign
    + 'static
{
}

pub trait ComplexField: Arithmetic {
    type RealField: RealField;

    fn from_real(re: Self::RealField) -> Self;
    fn from_f64(x: f64) -> Self;
    fn real(self) -> Self::RealField;
    fn conjugate(self) -> Self;
    fn abs(self) -> Self::RealField;
    fn norm1(self) -> Self::RealField;
    fn modulus_squared(self) -> Self::RealField;
    fn scale(self, factor: Self::RealField) -> Self;
    fn unscale(self, factor: Self::RealField) -> Self;
    fn powi(self, n: i32) -> Self;
    fn sqrt(self) -> Self;
    fn try_sqrt(self) -> Option<Self>;
}

pub trait RealField: ComplexField<RealField = Self> + PartialOrd {
    fn max(self, other: Self) -> Self;
}

pub trait SimdComplexField: Arithmetic {
    type SimdRealField: SimdComplexField;

    fn simd_conjugate(self) -> Self;
    fn simd_sqrt(self) -> Self;
    fn simd_modulus_squared(self) -> Self::SimdRealField;
    fn simd_ln(self) -> Self;
}

impl<T: ComplexField> SimdComplexField for T {
    type SimdRealField = T::RealField;

    #[inline]
    fn simd_conjugate(self) -> Self {
        self.conjugate()
    }

    #[inline]
    fn simd_sqrt(self) -> Self {
        self.sqrt()
    }

    #[inline]
    fn simd_modulus_squared(self) -> T::RealField {
        self.modulus_squared()
    }

    fn simd_ln(self) -> Self {
        left_out("ln")
    }
}

impl Zero for f64 {
    #[inline]
    fn zero() -> f64 {
        0.0
    }

    /// Either zero.
    #[inline]
    fn is_zero(&self) -> bool {
        *self == 0.0
    }
}

impl One for f64 {
    #[inline]
    fn one() -> f64 {
        1.0
    }
}

impl Arithmetic for f64 {}

/// Document 01: `conjugate` and `real` do nothing, `norm1` and `abs` are the absolute value, `scale` multiplies, `unscale` divides,
/// `modulus_squared` and `powi(2)` are x·x; `try_sqrt` refuses below zero and NaN.
impl ComplexField for f64 {
    type RealField = f64;

    #[inline]
    fn from_real(re: f64) -> f64 {
        re
    }

    #[inline]
    fn from_f64(x: f64) -> f64 {
        x
    }

    #[inline]
    fn real(self) -> f64 {
        self
    }

    #[inline]
    fn conjugate(self) -> f64 {
        self
    }

    #[inline]
    fn abs(self) -> f64 {
        f64::abs(self)
    }

    #[inline]
    fn norm1(self) -> f64 {
        f64::abs(self)
    }

    #[inline]
    fn modulus_squared(self) -> f64 {
        self * self
    }

    #[inline]
    fn scale(self, factor: f64) -> f64 {
        self * factor
    }

    #[inline]
    fn unscale(self, factor: f64) -> f64 {
        self / factor
    }

    #[inline]
    fn powi(self, n: i32) -> f64 {
        if n == 2 { self * self } else { left_out("a power other than 2") }
    }

    #[inline]
    fn sqrt(self) -> f64 {
        f64::sqrt(self)
    }

    #[inline]
    fn try_sqrt(self) -> Option<f64> {
        if self >= 0.0 { Some(f64::sqrt(self)) } else { None }
    }
}

/// Document 01: `max` drops a NaN if the other number is none. Rust's own `f64::max` of a signalling NaN and a number is NaN on arm64, and a choice
/// by `<` can be compiled to the same instruction there; so the order is taken from the bits. Benchmarks alone have Rust's own.
impl RealField for f64 {
    #[inline]
    fn max(self, other: f64) -> f64 {
        if cfg!(feature = "rust-max") {
            return f64::max(self, other);
        }
        if self.is_nan() || !other.is_nan() && self.total_cmp(&other).is_lt() { other } else { self }
    }
}

#[inline]
pub fn convert<T: ComplexField>(x: f64) -> T {
    T::from_f64(x)
}

#[inline]
pub fn one<T: One>() -> T {
    T::one()
}

#[inline]
pub fn zero<T: Zero>() -> T {
    T::zero()
}
