//! Matrices over a storage, with the operations that the text calls.

use std::marker::PhantomData;
use std::ops::{DivAssign, Index, IndexMut};

use super::dimension::{Dim, DimRange, U1};
use super::field::{Arithmetic, ComplexField, One, Zero};
use super::left_out;
use super::storage::{Storage, StorageMut, VecStorage, View, ViewMut};

#[derive(Clone, Debug, PartialEq)]
pub struct Matrix<T, R, C, S> {
    pub(crate) data: S,
    shape: PhantomData<(T, R, C)>,
}

pub type OMatrix<T, R, C> = Matrix<T, R, C, VecStorage<T, R, C>>;
pub type OVector<T, D> = OMatrix<T, D, U1>;
pub type Vector<T, D, S> = Matrix<T, D, U1, S>;
type MatrixView<'a, T, R, C> = Matrix<T, R, C, View<'a, T, R, C>>;
type MatrixViewMut<'a, T, R, C> = Matrix<T, R, C, ViewMut<'a, T, R, C>>;

/// Every matrix can be made: the bound says nothing here.
pub trait Allocator<R: Dim, C: Dim = U1> {}
pub struct DefaultAllocator;
impl<R: Dim, C: Dim> Allocator<R, C> for DefaultAllocator {}

pub trait SameNumberOfRows<A: Dim, B: Dim> {}
pub struct ShapeConstraint;
impl<A: Dim, B: Dim> SameNumberOfRows<A, B> for ShapeConstraint {}

/// A place in a matrix: row and column, or a row of a vector.
pub trait Place {
    fn row_and_column(self) -> (usize, usize);
}

impl Place for (usize, usize) {
    #[inline]
    fn row_and_column(self) -> (usize, usize) {
        self
    }
}

impl Place for usize {
    #[inline]
    fn row_and_column(self) -> (usize, usize) {
        (self, 0)
    }
}

impl<T, R, C, S> Matrix<T, R, C, S> {
    #[inline]
    fn over(data: S) -> Self {
        Matrix { data, shape: PhantomData }
    }
}

impl<T: Clone, R: Dim, C: Dim> OMatrix<T, R, C> {
    /// The matrix whose columns stand in `data`, one after another.
    pub fn from_vec(nrows: R, ncols: C, data: Vec<T>) -> Self {
        assert_eq!(data.len(), nrows.value() * ncols.value());
        Matrix::over(VecStorage { data, nrows, ncols })
    }

    pub fn into_vec(self) -> Vec<T> {
        self.data.data
    }

    pub fn as_slice(&self) -> &[T] {
        &self.data.data
    }

    #[inline]
    pub fn from_element_generic(nrows: R, ncols: C, x: T) -> Self {
        Self::from_vec(nrows, ncols, vec![x; nrows.value() * ncols.value()])
    }

    #[inline]
    pub fn zeros_generic(nrows: R, ncols: C) -> Self
    where
        T: Zero,
    {
        Self::from_element_generic(nrows, ncols, T::zero())
    }

    #[inline]
    pub fn identity_generic(nrows: R, ncols: C) -> Self
    where
        T: Zero + One,
    {
        let mut out = Self::zeros_generic(nrows, ncols);
        for i in 0..nrows.value().min(ncols.value()) {
            unsafe { *out.get_unchecked_mut((i, i)) = T::one() };
        }
        out
    }
}

impl<T, D: Dim> OMatrix<T, D, D> {
    pub fn from_diagonal(_: &OVector<T, D>) -> Self {
        left_out("d_matrix")
    }
}

impl<T, R: Dim, C: Dim, S: Storage<T, R, C>> Matrix<T, R, C, S> {
    #[inline]
    pub fn nrows(&self) -> usize {
        self.data.nrows().value()
    }

    #[inline]
    pub fn ncols(&self) -> usize {
        self.data.ncols().value()
    }

    #[inline]
    pub fn shape(&self) -> (usize, usize) {
        (self.nrows(), self.ncols())
    }

    #[inline]
    pub fn shape_generic(&self) -> (R, C) {
        (self.data.nrows(), self.data.ncols())
    }

    #[inline]
    pub fn is_square(&self) -> bool {
        self.nrows() == self.ncols()
    }

    /// # Safety
    /// The place is in the matrix.
    #[inline]
    pub unsafe fn get_unchecked<P: Place>(&self, place: P) -> &T {
        let (i, j) = place.row_and_column();
        debug_assert!(i < self.nrows() && j < self.ncols());
        unsafe { &*self.data.ptr().add(i + j * self.data.stride()) }
    }

    pub fn clone_owned(&self) -> OMatrix<T, R, C>
    where
        T: Clone,
    {
        let (nrows, ncols) = self.shape_generic();
        let mut data = Vec::with_capacity(nrows.value() * ncols.value());
        for j in 0..ncols.value() {
            for i in 0..nrows.value() {
                data.push(unsafe { self.get_unchecked((i, j)).clone() });
            }
        }
        OMatrix::from_vec(nrows, ncols, data)
    }

    pub fn into_owned(self) -> OMatrix<T, R, C>
    where
        T: Clone,
    {
        self.clone_owned()
    }

    #[inline]
    fn vector_to_matrix_index(&self, i: usize) -> (usize, usize) {
        let (nrows, ncols) = self.shape();
        if nrows == 1 {
            (0, i)
        } else if ncols == 1 {
            (i, 0)
        } else {
            (i % nrows, i / nrows)
        }
    }

    #[inline]
    pub fn view_range<A: DimRange, B: DimRange>(&self, rows: A, cols: B) -> MatrixView<'_, T, A::Size, B::Size> {
        let (nrows, ncols) = (rows.size(self.nrows()), cols.size(self.ncols()));
        let (i, j) = (rows.begin(), cols.begin());
        assert!(i + nrows.value() <= self.nrows() && j + ncols.value() <= self.ncols());
        let stride = self.data.stride();
        let ptr = self.data.ptr().wrapping_add(i + j * stride);
        Matrix::over(View { ptr, nrows, ncols, stride, lent: PhantomData })
    }

    #[inline]
    pub fn rows_range<A: DimRange>(&self, rows: A) -> MatrixView<'_, T, A::Size, C> {
        let (nrows, ncols) = (rows.size(self.nrows()), self.data.ncols());
        assert!(rows.begin() + nrows.value() <= self.nrows());
        let ptr = self.data.ptr().wrapping_add(rows.begin());
        Matrix::over(View { ptr, nrows, ncols, stride: self.data.stride(), lent: PhantomData })
    }

    #[inline]
    pub fn column(&self, j: usize) -> MatrixView<'_, T, R, U1> {
        assert!(j < self.ncols());
        let stride = self.data.stride();
        let ptr = self.data.ptr().wrapping_add(j * stride);
        Matrix::over(View { ptr, nrows: self.data.nrows(), ncols: U1, stride, lent: PhantomData })
    }
}

impl<T, R: Dim, C: Dim, S: StorageMut<T, R, C>> Matrix<T, R, C, S> {
    /// # Safety
    /// The place is in the matrix.
    #[inline]
    pub unsafe fn get_unchecked_mut<P: Place>(&mut self, place: P) -> &mut T {
        let (i, j) = place.row_and_column();
        debug_assert!(i < self.nrows() && j < self.ncols());
        let at = i + j * self.data.stride();
        unsafe { &mut *self.data.ptr_mut().add(at) }
    }

    #[inline]
    unsafe fn swap_unchecked(&mut self, one: (usize, usize), other: (usize, usize)) {
        let stride = self.data.stride();
        let ptr = self.data.ptr_mut();
        unsafe { std::ptr::swap(ptr.add(one.0 + one.1 * stride), ptr.add(other.0 + other.1 * stride)) }
    }

    #[inline]
    pub fn swap(&mut self, one: (usize, usize), other: (usize, usize)) {
        let (nrows, ncols) = self.shape();
        assert!(one.0 < nrows && one.1 < ncols, "Matrix elements swap index out of bounds.");
        assert!(other.0 < nrows && other.1 < ncols, "Matrix elements swap index out of bounds.");
        unsafe { self.swap_unchecked(one, other) }
    }

    #[inline]
    pub fn swap_rows(&mut self, one: usize, other: usize) {
        assert!(one < self.nrows() && other < self.nrows());
        if one != other {
            for j in 0..self.ncols() {
                unsafe { self.swap_unchecked((one, j), (other, j)) }
            }
        }
    }

    #[inline]
    pub fn swap_columns(&mut self, one: usize, other: usize) {
        assert!(one < self.ncols() && other < self.ncols());
        if one != other {
            for i in 0..self.nrows() {
                unsafe { self.swap_unchecked((i, one), (i, other)) }
            }
        }
    }

    #[inline]
    pub fn view_range_mut<A: DimRange, B: DimRange>(&mut self, rows: A, cols: B) -> MatrixViewMut<'_, T, A::Size, B::Size> {
        let (nrows, ncols) = (rows.size(self.nrows()), cols.size(self.ncols()));
        let (i, j) = (rows.begin(), cols.begin());
        assert!(i + nrows.value() <= self.nrows() && j + ncols.value() <= self.ncols());
        let stride = self.data.stride();
        let ptr = self.data.ptr_mut().wrapping_add(i + j * stride);
        Matrix::over(ViewMut { ptr, nrows, ncols, stride, lent: PhantomData })
    }

    #[inline]
    pub fn rows_range_mut<A: DimRange>(&mut self, rows: A) -> MatrixViewMut<'_, T, A::Size, C> {
        let (nrows, ncols) = (rows.size(self.nrows()), self.data.ncols());
        assert!(rows.begin() + nrows.value() <= self.nrows());
        let stride = self.data.stride();
        let ptr = self.data.ptr_mut().wrapping_add(rows.begin());
        Matrix::over(ViewMut { ptr, nrows, ncols, stride, lent: PhantomData })
    }

    #[inline]
    pub fn column_mut(&mut self, j: usize) -> MatrixViewMut<'_, T, R, U1> {
        assert!(j < self.ncols());
        let nrows = self.data.nrows();
        let stride = self.data.stride();
        let ptr = self.data.ptr_mut().wrapping_add(j * stride);
        Matrix::over(ViewMut { ptr, nrows, ncols: U1, stride, lent: PhantomData })
    }

    /// Two columns that differ.
    #[inline]
    pub fn columns_range_pair_mut(&mut self, one: usize, other: usize) -> (MatrixViewMut<'_, T, R, U1>, MatrixViewMut<'_, T, R, U1>) {
        assert!(one < self.ncols() && other < self.ncols() && one != other);
        let nrows = self.data.nrows();
        let stride = self.data.stride();
        let ptr = self.data.ptr_mut();
        let column = |j: usize| {
            let ptr = ptr.wrapping_add(j * stride);
            Matrix::over(ViewMut { ptr, nrows, ncols: U1, stride, lent: PhantomData })
        };
        (column(one), column(other))
    }

    #[expect(clippy::type_complexity)]
    pub fn rows_range_pair_mut<A: DimRange, B: DimRange>(
        &mut self,
        _: A,
        _: B,
    ) -> (MatrixViewMut<'_, T, A::Size, C>, MatrixViewMut<'_, T, B::Size, C>) {
        left_out("insert_column")
    }

    /// Document 01: the strict upper part (`shift` 1) becomes `value`, nothing else changes.
    #[inline]
    pub fn fill_upper_triangle(&mut self, value: T, shift: usize)
    where
        T: Clone,
    {
        for j in shift..self.ncols() {
            for i in 0..(j + 1 - shift).min(self.nrows()) {
                unsafe { *self.get_unchecked_mut((i, j)) = value.clone() };
            }
        }
    }

    pub fn copy_from<S2: Storage<T, R2, C2>, R2: Dim, C2: Dim>(&mut self, _: &Matrix<T, R2, C2, S2>) {
        left_out("insert_column and remove_column")
    }
}

impl<T: Arithmetic, R: Dim, C: Dim, S: Storage<T, R, C>> Matrix<T, R, C, S> {
    /// Document 01, `l`: zero above the diagonal.
    #[inline]
    pub fn lower_triangle(&self) -> OMatrix<T, R, C> {
        let mut out = self.clone_owned();
        out.fill_upper_triangle(T::zero(), 1);
        out
    }

    pub fn solve_lower_triangular_unchecked_mut<R2: Dim, C2: Dim, S2: StorageMut<T, R2, C2>>(&self, _: &mut Matrix<T, R2, C2, S2>) {
        left_out("Cholesky's solve")
    }

    pub fn ad_solve_lower_triangular_unchecked_mut<R2: Dim, C2: Dim, S2: StorageMut<T, R2, C2>>(&self, _: &mut Matrix<T, R2, C2, S2>) {
        left_out("Cholesky's solve")
    }

    pub fn solve_lower_triangular_mut<R2: Dim, C2: Dim, S2: StorageMut<T, R2, C2>>(&self, _: &mut Matrix<T, R2, C2, S2>) -> bool {
        left_out("insert_column")
    }

    pub fn adjoint_to<R2: Dim, C2: Dim, S2: StorageMut<T, R2, C2>>(&self, _: &mut Matrix<T, R2, C2, S2>) {
        left_out("insert_column")
    }

    pub fn norm_squared(&self) -> T::RealField
    where
        T: ComplexField,
    {
        left_out("insert_column")
    }
}

impl<T: Arithmetic, D: Dim, S: StorageMut<T, D, U1>> Vector<T, D, S> {
    /// Document 01, each product and sum rounded once: for b = 1 entry y becomes y + a·x (Cholesky), for b = 0 it becomes a·x and is not
    /// read (UDU's last column). Products with 1 change no bit.
    #[inline(always)]
    pub fn axpy<D2: Dim, S2: Storage<T, D2, U1>>(&mut self, a: T, x: &Vector<T, D2, S2>, b: T) {
        assert_eq!(self.nrows(), x.nrows(), "Axpy: mismatched vector shapes.");
        let len = self.nrows();
        let x = unsafe { std::slice::from_raw_parts(x.data.ptr(), len) };
        let y = unsafe { std::slice::from_raw_parts_mut(self.data.ptr_mut(), len) };
        if b.is_zero() {
            for i in 0..len {
                y[i] = a.clone() * x[i].clone();
            }
        } else {
            for i in 0..len {
                y[i] = a.clone() * x[i].clone() + b.clone() * y[i].clone();
            }
        }
    }

    pub fn gemm<R2: Dim, C2: Dim, S2: Storage<T, R2, C2>, D3: Dim, S3: Storage<T, D3, U1>>(
        &mut self,
        _: T,
        _: &Matrix<T, R2, C2, S2>,
        _: &Vector<T, D3, S3>,
        _: T,
    ) {
        left_out("insert_column")
    }
}

/// Document 01: each entry is divided by the number, in place.
impl<T: Clone + DivAssign, R: Dim, C: Dim, S: StorageMut<T, R, C>> DivAssign<T> for Matrix<T, R, C, S> {
    #[inline]
    fn div_assign(&mut self, by: T) {
        for j in 0..self.ncols() {
            for i in 0..self.nrows() {
                unsafe { *self.get_unchecked_mut((i, j)) /= by.clone() };
            }
        }
    }
}

impl<T, R: Dim, C: Dim, S: Storage<T, R, C>> Index<(usize, usize)> for Matrix<T, R, C, S> {
    type Output = T;

    #[inline]
    fn index(&self, place: (usize, usize)) -> &T {
        let shape = self.shape();
        assert!(place.0 < shape.0 && place.1 < shape.1, "Matrix index out of bounds.");
        unsafe { self.get_unchecked(place) }
    }
}

impl<T, R: Dim, C: Dim, S: StorageMut<T, R, C>> IndexMut<(usize, usize)> for Matrix<T, R, C, S> {
    #[inline]
    fn index_mut(&mut self, place: (usize, usize)) -> &mut T {
        let shape = self.shape();
        assert!(place.0 < shape.0 && place.1 < shape.1, "Matrix index out of bounds.");
        unsafe { self.get_unchecked_mut(place) }
    }
}

impl<T, R: Dim, C: Dim, S: Storage<T, R, C>> Index<usize> for Matrix<T, R, C, S> {
    type Output = T;

    #[inline]
    fn index(&self, i: usize) -> &T {
        &self[self.vector_to_matrix_index(i)]
    }
}

impl<T, R: Dim, C: Dim, S: StorageMut<T, R, C>> IndexMut<usize> for Matrix<T, R, C, S> {
    #[inline]
    fn index_mut(&mut self, i: usize) -> &mut T {
        let place = self.vector_to_matrix_index(i);
        &mut self[place]
    }
}
