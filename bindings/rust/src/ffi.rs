//! The functions of liburgyelpat.a. `tests/declarations` holds these lines to the Rattle source.

#[repr(C)]
pub struct Determined {
    pub answer: u64,
    pub value: f64,
}

#[repr(C)]
pub struct Floored {
    pub answer: u64,
    pub used: u64,
}

#[repr(C)]
pub struct Listed {
    pub answer: u64,
    pub info: i32,
    pub run: u32,
}

#[derive(Clone, Copy, PartialEq)]
#[repr(C)]
pub struct Column3 {
    pub row: [f64; 3],
}

#[derive(Clone, Copy, PartialEq)]
#[repr(C)]
pub struct Matrix3 {
    pub column: [Column3; 3],
}

#[derive(Clone, Copy, PartialEq)]
#[repr(C)]
pub struct Pivots3 {
    pub index: [u32; 3],
    pub size: [u32; 3],
    pub mark: u32,
}

#[derive(Clone, Copy, PartialEq)]
#[repr(C)]
pub struct Factored3 {
    pub matrix: Matrix3,
    pub pivots: Pivots3,
}

#[repr(C)]
pub struct Solved3 {
    pub answer: u64,
    pub side: Column3,
}

extern "C" {
    pub fn urgyelpat_lblt_factor(
        a: *mut f64,
        a_length: usize,
        record: *mut u32,
        record_length: usize,
        n: usize,
        run: u32,
    ) -> u64;
    pub fn urgyelpat_lblt_solve(
        a: *const f64,
        a_length: usize,
        record: *const u32,
        record_length: usize,
        b: *mut f64,
        b_length: usize,
        n: usize,
        columns: usize,
        run: u32,
    ) -> u64;
    pub fn urgyelpat_lblt_solve_bench(
        a: *const f64,
        a_length: usize,
        record: *const u32,
        record_length: usize,
        b: *mut f64,
        b_length: usize,
        benches: *const u32,
        benches_length: usize,
        n: usize,
        columns: usize,
        bench: u32,
        run: u32,
    ) -> u64;
    pub fn urgyelpat_lblt_tray(
        a: *mut f64,
        a_length: usize,
        records: *mut u32,
        records_length: usize,
        b: *mut f64,
        b_length: usize,
        runs: *const u32,
        runs_length: usize,
        answers: *mut u64,
        answers_length: usize,
        n: usize,
        count: usize,
    ) -> u64;
    pub fn urgyelpat_lblt_determinant(
        a: *const f64,
        a_length: usize,
        record: *const u32,
        record_length: usize,
        n: usize,
        run: u32,
    ) -> Determined;
    pub fn urgyelpat_lblt_d(
        a: *const f64,
        a_length: usize,
        record: *const u32,
        record_length: usize,
        d: *mut f64,
        d_length: usize,
        n: usize,
        run: u32,
    ) -> u64;
    pub fn urgyelpat_lblt_l_permuted(
        a: *const f64,
        a_length: usize,
        record: *const u32,
        record_length: usize,
        l: *mut f64,
        l_length: usize,
        n: usize,
        run: u32,
    ) -> u64;
    pub fn urgyelpat_pivots_from_lapack(
        list: *const i32,
        list_length: usize,
        info: i32,
        record: *mut u32,
        record_length: usize,
        n: usize,
        run: u32,
    ) -> u64;
    pub fn urgyelpat_pivots_to_lapack(
        record: *const u32,
        record_length: usize,
        list: *mut i32,
        list_length: usize,
        n: usize,
    ) -> Listed;
    pub fn urgyelpat_cholesky_factor(a: *mut f64, a_length: usize, room: usize, n: usize) -> u64;
    pub fn urgyelpat_cholesky_extend(a: *mut f64, a_length: usize, room: usize, earlier: usize, n: usize) -> u64;
    pub fn urgyelpat_cholesky_teaching(a: *mut f64, a_length: usize, room: usize, n: usize) -> u64;
    pub fn urgyelpat_cholesky_factor_floored(
        a: *mut f64,
        a_length: usize,
        room: usize,
        n: usize,
        floor: f64,
    ) -> Floored;
    pub fn urgyelpat_cholesky_extend_floored(
        a: *mut f64,
        a_length: usize,
        room: usize,
        earlier: usize,
        n: usize,
        floor: f64,
    ) -> Floored;
    pub fn urgyelpat_cholesky_solve(
        a: *const f64,
        a_length: usize,
        b: *mut f64,
        b_length: usize,
        room: usize,
        n: usize,
        columns: usize,
    ) -> u64;
    pub fn urgyelpat_cholesky_l(
        a: *const f64,
        a_length: usize,
        l: *mut f64,
        l_length: usize,
        room: usize,
        n: usize,
    ) -> u64;
    pub fn urgyelpat_cholesky_unpack(a: *mut f64, a_length: usize, room: usize, n: usize) -> u64;
    pub fn urgyelpat_cholesky_determinant(a: *const f64, a_length: usize, room: usize, n: usize) -> Determined;
    pub fn urgyelpat_packed_lblt_factor(
        a: *mut f64,
        a_length: usize,
        record: *mut u32,
        record_length: usize,
        n: usize,
        run: u32,
    ) -> u64;
    pub fn urgyelpat_packed_lblt_solve(
        a: *const f64,
        a_length: usize,
        record: *const u32,
        record_length: usize,
        b: *mut f64,
        b_length: usize,
        n: usize,
        columns: usize,
        run: u32,
    ) -> u64;
    pub fn urgyelpat_packed_lblt_determinant(
        a: *const f64,
        a_length: usize,
        record: *const u32,
        record_length: usize,
        n: usize,
        run: u32,
    ) -> Determined;
    pub fn urgyelpat_packed_cholesky_factor(a: *mut f64, a_length: usize, n: usize) -> u64;
    pub fn urgyelpat_packed_cholesky_extend(
        old: *const f64,
        old_length: usize,
        rows: *const f64,
        rows_length: usize,
        fresh: *mut f64,
        fresh_length: usize,
        earlier: usize,
        n: usize,
    ) -> u64;
    pub fn urgyelpat_packed_cholesky_solve(
        a: *const f64,
        a_length: usize,
        b: *mut f64,
        b_length: usize,
        n: usize,
        columns: usize,
    ) -> u64;
    pub fn urgyelpat_packed_first_twin(a: *const f64, a_length: usize, n: usize) -> u64;
    pub fn urgyelpat_handheld_factor(matrix: Matrix3) -> Factored3;
    pub fn urgyelpat_handheld_solve(matrix: Matrix3, pivots: Pivots3, side: Column3) -> Solved3;
    pub fn urgyelpat_udu_factor(
        p: *const f64,
        p_length: usize,
        u: *mut f64,
        u_length: usize,
        d: *mut f64,
        d_length: usize,
        n: usize,
    ) -> u64;
    pub fn urgyelpat_first_twin(a: *const f64, a_length: usize, room: usize, n: usize) -> u64;
    pub fn urgyelpat_first_twin_since(a: *const f64, a_length: usize, room: usize, earlier: usize, n: usize) -> u64;
}
