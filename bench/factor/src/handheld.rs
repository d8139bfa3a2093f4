//! The handheld's calls, by value.

/// Three columns of three numbers, as they lie in the C struct.
#[repr(C)]
#[derive(Clone, Copy)]
pub struct Matrix3 {
    pub column: [[f64; 3]; 3],
}

#[repr(C)]
#[derive(Clone, Copy)]
pub struct Pivots3 {
    pub index: [u32; 3],
    pub size: [u32; 3],
    pub mark: u32,
}

#[repr(C)]
#[derive(Clone, Copy)]
pub struct Column3 {
    pub row: [f64; 3],
}

#[repr(C)]
#[derive(Clone, Copy)]
pub struct Factored3 {
    pub matrix: Matrix3,
    pub pivots: Pivots3,
}

#[repr(C)]
#[derive(Clone, Copy)]
pub struct Solved3 {
    pub answer: u64,
    pub side: Column3,
}

unsafe extern "C" {
    fn urgyelpat_handheld_factor(matrix: Matrix3) -> Factored3;
    fn urgyelpat_handheld_solve(matrix: Matrix3, pivots: Pivots3, side: Column3) -> Solved3;
}

pub fn factor(matrix: Matrix3) -> Factored3 {
    // SAFETY: numbers are passed and returned by value.
    unsafe { urgyelpat_handheld_factor(matrix) }
}

pub fn solve(factored: &Factored3, side: Column3) -> Solved3 {
    // SAFETY: as above.
    unsafe { urgyelpat_handheld_solve(factored.matrix, factored.pivots, side) }
}
