//! Where the numbers of a matrix stand, column by column: owned in a `Vec`, or a view of another matrix.

use std::marker::PhantomData;

use super::dimension::{Dim, U1};

/// # Safety
/// For i below `nrows` and j below `ncols`, `ptr + i + j·stride` can be read.
pub unsafe trait Storage<T, R: Dim, C: Dim = U1> {
    fn nrows(&self) -> R;
    fn ncols(&self) -> C;
    fn stride(&self) -> usize;
    fn ptr(&self) -> *const T;
}

/// # Safety
/// As `Storage`, and `ptr_mut` can be written there.
pub unsafe trait StorageMut<T, R: Dim, C: Dim = U1>: Storage<T, R, C> {
    fn ptr_mut(&mut self) -> *mut T;
}

#[derive(Clone, Debug, PartialEq)]
pub struct VecStorage<T, R, C> {
    pub(crate) data: Vec<T>,
    pub(crate) nrows: R,
    pub(crate) ncols: C,
}

unsafe impl<T, R: Dim, C: Dim> Storage<T, R, C> for VecStorage<T, R, C> {
    #[inline]
    fn nrows(&self) -> R {
        self.nrows
    }

    #[inline]
    fn ncols(&self) -> C {
        self.ncols
    }

    #[inline]
    fn stride(&self) -> usize {
        self.nrows.value()
    }

    #[inline]
    fn ptr(&self) -> *const T {
        self.data.as_ptr()
    }
}

unsafe impl<T, R: Dim, C: Dim> StorageMut<T, R, C> for VecStorage<T, R, C> {
    #[inline]
    fn ptr_mut(&mut self) -> *mut T {
        self.data.as_mut_ptr()
    }
}

pub struct View<'a, T, R, C> {
    pub(crate) ptr: *const T,
    pub(crate) nrows: R,
    pub(crate) ncols: C,
    pub(crate) stride: usize,
    pub(crate) lent: PhantomData<&'a T>,
}

pub struct ViewMut<'a, T, R, C> {
    pub(crate) ptr: *mut T,
    pub(crate) nrows: R,
    pub(crate) ncols: C,
    pub(crate) stride: usize,
    pub(crate) lent: PhantomData<&'a mut T>,
}

macro_rules! view_storage {
    ($view: ident) => {
        unsafe impl<T, R: Dim, C: Dim> Storage<T, R, C> for $view<'_, T, R, C> {
            #[inline]
            fn nrows(&self) -> R {
                self.nrows
            }

            #[inline]
            fn ncols(&self) -> C {
                self.ncols
            }

            #[inline]
            fn stride(&self) -> usize {
                self.stride
            }

            #[inline]
            fn ptr(&self) -> *const T {
                self.ptr
            }
        }
    };
}

view_storage!(View);
view_storage!(ViewMut);

unsafe impl<T, R: Dim, C: Dim> StorageMut<T, R, C> for ViewMut<'_, T, R, C> {
    #[inline]
    fn ptr_mut(&mut self) -> *mut T {
        self.ptr
    }
}
