//! Sizes: `Dyn` is known at run time, `Const` by its type.

use std::fmt::Debug;
use std::ops::{RangeFrom, RangeTo};

pub trait Dim: Copy + Debug + PartialEq + 'static {
    fn value(&self) -> usize;
    fn from_usize(value: usize) -> Self;
}

#[derive(Copy, Clone, Debug, PartialEq)]
pub struct Dyn(pub usize);

#[derive(Copy, Clone, Debug, PartialEq)]
pub struct Const<const R: usize>;

pub type U1 = Const<1>;
pub const U1: U1 = Const::<1>;

impl Dim for Dyn {
    #[inline]
    fn value(&self) -> usize {
        self.0
    }

    #[inline]
    fn from_usize(value: usize) -> Dyn {
        Dyn(value)
    }
}

impl<const R: usize> Dim for Const<R> {
    #[inline]
    fn value(&self) -> usize {
        R
    }

    #[inline]
    fn from_usize(value: usize) -> Self {
        assert_eq!(value, R);
        Const
    }
}

pub trait DimAdd<D: Dim>: Dim {
    type Output: Dim;
    fn add(self, other: D) -> Self::Output;
}

pub trait DimSub<D: Dim>: Dim {
    type Output: Dim;
    fn sub(self, other: D) -> Self::Output;
}

pub type DimSum<A, B> = <A as DimAdd<B>>::Output;
pub type DimDiff<A, B> = <A as DimSub<B>>::Output;

impl<D: Dim> DimAdd<D> for Dyn {
    type Output = Dyn;

    fn add(self, other: D) -> Dyn {
        Dyn(self.0 + other.value())
    }
}

impl<D: Dim> DimSub<D> for Dyn {
    type Output = Dyn;

    fn sub(self, other: D) -> Dyn {
        Dyn(self.0 - other.value())
    }
}

/// A choice of rows or columns: one of them, all before, or all from.
pub trait DimRange {
    type Size: Dim;
    fn begin(&self) -> usize;
    fn size(&self, whole: usize) -> Self::Size;
}

impl DimRange for usize {
    type Size = U1;

    #[inline]
    fn begin(&self) -> usize {
        *self
    }

    #[inline]
    fn size(&self, _: usize) -> U1 {
        U1
    }
}

impl DimRange for RangeFrom<usize> {
    type Size = Dyn;

    #[inline]
    fn begin(&self) -> usize {
        self.start
    }

    #[inline]
    fn size(&self, whole: usize) -> Dyn {
        Dyn(whole - self.start)
    }
}

impl DimRange for RangeTo<usize> {
    type Size = Dyn;

    #[inline]
    fn begin(&self) -> usize {
        0
    }

    #[inline]
    fn size(&self, _: usize) -> Dyn {
        Dyn(self.end)
    }
}
