//! The port behind its C convention: a slice is a pointer and then a length; the handheld's calls take and give structs.

use oracle::call::{self, Calls};

#[repr(C)]
struct Determinant {
    answer: u64,
    value: f64,
}

#[repr(C)]
struct Listed {
    answer: u64,
    info: i32,
    run: u32,
}

#[repr(C)]
struct Floored {
    answer: u64,
    used: u64,
}

#[repr(C)]
struct Column3 {
    row: [f64; 3],
}

#[repr(C)]
struct Matrix3 {
    column: [Column3; 3],
}

#[repr(C)]
struct Pivots3 {
    index: [u32; 3],
    size: [u32; 3],
    mark: u32,
}

#[repr(C)]
struct Factored3 {
    matrix: Matrix3,
    pivots: Pivots3,
}

#[repr(C)]
struct Solved3 {
    answer: u64,
    side: Column3,
}

unsafe extern "C" {
    fn urgyelpat_lblt_factor(a: *mut f64, a_len: usize, record: *mut u32, record_len: usize, n: usize, run: u32) -> u64;
    fn urgyelpat_lblt_solve(
        a: *const f64,
        a_len: usize,
        record: *const u32,
        record_len: usize,
        b: *mut f64,
        b_len: usize,
        n: usize,
        columns: usize,
        run: u32,
    ) -> u64;
    fn urgyelpat_lblt_solve_bench(
        a: *const f64,
        a_len: usize,
        record: *const u32,
        record_len: usize,
        b: *mut f64,
        b_len: usize,
        benches: *const u32,
        benches_len: usize,
        n: usize,
        columns: usize,
        bench: u32,
        run: u32,
    ) -> u64;
    fn urgyelpat_lblt_determinant(a: *const f64, a_len: usize, record: *const u32, record_len: usize, n: usize, run: u32) -> Determinant;
    fn urgyelpat_lblt_d(
        a: *const f64,
        a_len: usize,
        record: *const u32,
        record_len: usize,
        d: *mut f64,
        d_len: usize,
        n: usize,
        run: u32,
    ) -> u64;
    fn urgyelpat_lblt_l_permuted(
        a: *const f64,
        a_len: usize,
        record: *const u32,
        record_len: usize,
        l: *mut f64,
        l_len: usize,
        n: usize,
        run: u32,
    ) -> u64;
    fn urgyelpat_lblt_tray(
        a: *mut f64,
        a_len: usize,
        records: *mut u32,
        records_len: usize,
        b: *mut f64,
        b_len: usize,
        runs: *const u32,
        runs_len: usize,
        answers: *mut u64,
        answers_len: usize,
        n: usize,
        count: usize,
    ) -> u64;
    fn urgyelpat_cholesky_factor(a: *mut f64, a_len: usize, room: usize, n: usize) -> u64;
    fn urgyelpat_cholesky_extend(a: *mut f64, a_len: usize, room: usize, earlier: usize, n: usize) -> u64;
    fn urgyelpat_cholesky_factor_floored(a: *mut f64, a_len: usize, room: usize, n: usize, floor: f64) -> Floored;
    fn urgyelpat_cholesky_extend_floored(a: *mut f64, a_len: usize, room: usize, earlier: usize, n: usize, floor: f64) -> Floored;
    fn urgyelpat_cholesky_teaching(a: *mut f64, a_len: usize, room: usize, n: usize) -> u64;
    fn urgyelpat_cholesky_solve(a: *const f64, a_len: usize, b: *mut f64, b_len: usize, room: usize, n: usize, columns: usize) -> u64;
    fn urgyelpat_cholesky_l(a: *const f64, a_len: usize, l: *mut f64, l_len: usize, room: usize, n: usize) -> u64;
    fn urgyelpat_cholesky_unpack(a: *mut f64, a_len: usize, room: usize, n: usize) -> u64;
    fn urgyelpat_cholesky_determinant(a: *const f64, a_len: usize, room: usize, n: usize) -> Determinant;
    fn urgyelpat_udu_factor(p: *const f64, p_len: usize, u: *mut f64, u_len: usize, d: *mut f64, d_len: usize, n: usize) -> u64;
    fn urgyelpat_first_twin_since(a: *const f64, a_len: usize, room: usize, earlier: usize, n: usize) -> u64;
    fn urgyelpat_first_twin(a: *const f64, a_len: usize, room: usize, n: usize) -> u64;
    fn urgyelpat_pivots_from_lapack(
        list: *const i32,
        list_len: usize,
        info: i32,
        record: *mut u32,
        record_len: usize,
        n: usize,
        run: u32,
    ) -> u64;
    fn urgyelpat_pivots_to_lapack(record: *const u32, record_len: usize, list: *mut i32, list_len: usize, n: usize) -> Listed;
    fn urgyelpat_packed_lblt_factor(a: *mut f64, a_len: usize, record: *mut u32, record_len: usize, n: usize, run: u32) -> u64;
    fn urgyelpat_packed_lblt_solve(
        a: *const f64,
        a_len: usize,
        record: *const u32,
        record_len: usize,
        b: *mut f64,
        b_len: usize,
        n: usize,
        columns: usize,
        run: u32,
    ) -> u64;
    fn urgyelpat_packed_lblt_determinant(
        a: *const f64,
        a_len: usize,
        record: *const u32,
        record_len: usize,
        n: usize,
        run: u32,
    ) -> Determinant;
    fn urgyelpat_packed_cholesky_factor(a: *mut f64, a_len: usize, n: usize) -> u64;
    fn urgyelpat_packed_cholesky_extend(
        old: *const f64,
        old_len: usize,
        rows: *const f64,
        rows_len: usize,
        fresh: *mut f64,
        fresh_len: usize,
        earlier: usize,
        n: usize,
    ) -> u64;
    fn urgyelpat_packed_cholesky_solve(a: *const f64, a_len: usize, b: *mut f64, b_len: usize, n: usize, columns: usize) -> u64;
    fn urgyelpat_packed_first_twin(a: *const f64, a_len: usize, n: usize) -> u64;
    fn urgyelpat_handheld_factor(matrix: Matrix3) -> Factored3;
    fn urgyelpat_handheld_solve(matrix: Matrix3, pivots: Pivots3, side: Column3) -> Solved3;
}

pub struct Port;

/// Every slice is lent by Rust for the time of the call, and no two overlap.
impl Calls for Port {
    #[inline]
    fn lblt_factor(&self, a: &mut [f64], record: &mut [u32], n: usize, run: u32) -> u64 {
        unsafe { urgyelpat_lblt_factor(a.as_mut_ptr(), a.len(), record.as_mut_ptr(), record.len(), n, run) }
    }

    #[inline]
    fn lblt_solve(&self, a: &[f64], record: &[u32], b: &mut [f64], n: usize, columns: usize, run: u32) -> u64 {
        unsafe { urgyelpat_lblt_solve(a.as_ptr(), a.len(), record.as_ptr(), record.len(), b.as_mut_ptr(), b.len(), n, columns, run) }
    }

    #[inline]
    fn lblt_solve_bench(
        &self,
        a: &[f64],
        record: &[u32],
        b: &mut [f64],
        benches: &[u32],
        n: usize,
        columns: usize,
        bench: u32,
        run: u32,
    ) -> u64 {
        unsafe {
            urgyelpat_lblt_solve_bench(
                a.as_ptr(),
                a.len(),
                record.as_ptr(),
                record.len(),
                b.as_mut_ptr(),
                b.len(),
                benches.as_ptr(),
                benches.len(),
                n,
                columns,
                bench,
                run,
            )
        }
    }

    #[inline]
    fn lblt_determinant(&self, a: &[f64], record: &[u32], n: usize, run: u32) -> (u64, f64) {
        let r = unsafe { urgyelpat_lblt_determinant(a.as_ptr(), a.len(), record.as_ptr(), record.len(), n, run) };
        (r.answer, r.value)
    }

    #[inline]
    fn lblt_d(&self, a: &[f64], record: &[u32], d: &mut [f64], n: usize, run: u32) -> u64 {
        unsafe { urgyelpat_lblt_d(a.as_ptr(), a.len(), record.as_ptr(), record.len(), d.as_mut_ptr(), d.len(), n, run) }
    }

    #[inline]
    fn lblt_l_permuted(&self, a: &[f64], record: &[u32], l: &mut [f64], n: usize, run: u32) -> u64 {
        unsafe { urgyelpat_lblt_l_permuted(a.as_ptr(), a.len(), record.as_ptr(), record.len(), l.as_mut_ptr(), l.len(), n, run) }
    }

    #[inline]
    fn lblt_tray(
        &self,
        a: &mut [f64],
        records: &mut [u32],
        b: &mut [f64],
        runs: &[u32],
        answers: &mut [u64],
        n: usize,
        count: usize,
    ) -> u64 {
        unsafe {
            urgyelpat_lblt_tray(
                a.as_mut_ptr(),
                a.len(),
                records.as_mut_ptr(),
                records.len(),
                b.as_mut_ptr(),
                b.len(),
                runs.as_ptr(),
                runs.len(),
                answers.as_mut_ptr(),
                answers.len(),
                n,
                count,
            )
        }
    }

    #[inline]
    fn cholesky_factor(&self, a: &mut [f64], room: usize, n: usize) -> u64 {
        unsafe { urgyelpat_cholesky_factor(a.as_mut_ptr(), a.len(), room, n) }
    }

    #[inline]
    fn cholesky_extend(&self, a: &mut [f64], room: usize, earlier: usize, n: usize) -> u64 {
        unsafe { urgyelpat_cholesky_extend(a.as_mut_ptr(), a.len(), room, earlier, n) }
    }

    #[inline]
    fn cholesky_factor_floored(&self, a: &mut [f64], room: usize, n: usize, floor: f64) -> (u64, u64) {
        let r = unsafe { urgyelpat_cholesky_factor_floored(a.as_mut_ptr(), a.len(), room, n, floor) };
        (r.answer, r.used)
    }

    #[inline]
    fn cholesky_extend_floored(&self, a: &mut [f64], room: usize, earlier: usize, n: usize, floor: f64) -> (u64, u64) {
        let r = unsafe { urgyelpat_cholesky_extend_floored(a.as_mut_ptr(), a.len(), room, earlier, n, floor) };
        (r.answer, r.used)
    }

    #[inline]
    fn cholesky_teaching(&self, a: &mut [f64], room: usize, n: usize) -> u64 {
        unsafe { urgyelpat_cholesky_teaching(a.as_mut_ptr(), a.len(), room, n) }
    }

    #[inline]
    fn cholesky_solve(&self, a: &[f64], b: &mut [f64], room: usize, n: usize, columns: usize) -> u64 {
        unsafe { urgyelpat_cholesky_solve(a.as_ptr(), a.len(), b.as_mut_ptr(), b.len(), room, n, columns) }
    }

    #[inline]
    fn cholesky_l(&self, a: &[f64], l: &mut [f64], room: usize, n: usize) -> u64 {
        unsafe { urgyelpat_cholesky_l(a.as_ptr(), a.len(), l.as_mut_ptr(), l.len(), room, n) }
    }

    #[inline]
    fn cholesky_unpack(&self, a: &mut [f64], room: usize, n: usize) -> u64 {
        unsafe { urgyelpat_cholesky_unpack(a.as_mut_ptr(), a.len(), room, n) }
    }

    #[inline]
    fn cholesky_determinant(&self, a: &[f64], room: usize, n: usize) -> (u64, f64) {
        let r = unsafe { urgyelpat_cholesky_determinant(a.as_ptr(), a.len(), room, n) };
        (r.answer, r.value)
    }

    #[inline]
    fn udu_factor(&self, p: &[f64], u: &mut [f64], d: &mut [f64], n: usize) -> u64 {
        unsafe { urgyelpat_udu_factor(p.as_ptr(), p.len(), u.as_mut_ptr(), u.len(), d.as_mut_ptr(), d.len(), n) }
    }

    #[inline]
    fn first_twin_since(&self, a: &[f64], room: usize, earlier: usize, n: usize) -> u64 {
        unsafe { urgyelpat_first_twin_since(a.as_ptr(), a.len(), room, earlier, n) }
    }

    #[inline]
    fn first_twin(&self, a: &[f64], room: usize, n: usize) -> u64 {
        unsafe { urgyelpat_first_twin(a.as_ptr(), a.len(), room, n) }
    }

    #[inline]
    fn pivots_from_lapack(&self, list: &[i32], info: i32, record: &mut [u32], n: usize, run: u32) -> u64 {
        unsafe { urgyelpat_pivots_from_lapack(list.as_ptr(), list.len(), info, record.as_mut_ptr(), record.len(), n, run) }
    }

    #[inline]
    fn pivots_to_lapack(&self, record: &[u32], list: &mut [i32], n: usize) -> (u64, i32, u32) {
        let r = unsafe { urgyelpat_pivots_to_lapack(record.as_ptr(), record.len(), list.as_mut_ptr(), list.len(), n) };
        (r.answer, r.info, r.run)
    }

    #[inline]
    fn packed_lblt_factor(&self, a: &mut [f64], record: &mut [u32], n: usize, run: u32) -> u64 {
        unsafe { urgyelpat_packed_lblt_factor(a.as_mut_ptr(), a.len(), record.as_mut_ptr(), record.len(), n, run) }
    }

    #[inline]
    fn packed_lblt_solve(&self, a: &[f64], record: &[u32], b: &mut [f64], n: usize, columns: usize, run: u32) -> u64 {
        unsafe { urgyelpat_packed_lblt_solve(a.as_ptr(), a.len(), record.as_ptr(), record.len(), b.as_mut_ptr(), b.len(), n, columns, run) }
    }

    #[inline]
    fn packed_lblt_determinant(&self, a: &[f64], record: &[u32], n: usize, run: u32) -> (u64, f64) {
        let r = unsafe { urgyelpat_packed_lblt_determinant(a.as_ptr(), a.len(), record.as_ptr(), record.len(), n, run) };
        (r.answer, r.value)
    }

    #[inline]
    fn packed_cholesky_factor(&self, a: &mut [f64], n: usize) -> u64 {
        unsafe { urgyelpat_packed_cholesky_factor(a.as_mut_ptr(), a.len(), n) }
    }

    #[inline]
    fn packed_cholesky_extend(&self, old: &[f64], rows: &[f64], fresh: &mut [f64], earlier: usize, n: usize) -> u64 {
        unsafe {
            urgyelpat_packed_cholesky_extend(
                old.as_ptr(),
                old.len(),
                rows.as_ptr(),
                rows.len(),
                fresh.as_mut_ptr(),
                fresh.len(),
                earlier,
                n,
            )
        }
    }

    #[inline]
    fn packed_cholesky_solve(&self, a: &[f64], b: &mut [f64], n: usize, columns: usize) -> u64 {
        unsafe { urgyelpat_packed_cholesky_solve(a.as_ptr(), a.len(), b.as_mut_ptr(), b.len(), n, columns) }
    }

    #[inline]
    fn packed_first_twin(&self, a: &[f64], n: usize) -> u64 {
        unsafe { urgyelpat_packed_first_twin(a.as_ptr(), a.len(), n) }
    }

    #[inline]
    fn handheld_factor(&self, matrix: call::Matrix3) -> (call::Matrix3, call::Pivots3) {
        let r = unsafe { urgyelpat_handheld_factor(by_columns(matrix)) };
        let Pivots3 { index, size, mark } = r.pivots;
        (r.matrix.column.map(|column| column.row), call::Pivots3 { index, size, mark })
    }

    #[inline]
    fn handheld_solve(&self, matrix: call::Matrix3, pivots: call::Pivots3, side: [f64; 3]) -> (u64, [f64; 3]) {
        let call::Pivots3 { index, size, mark } = pivots;
        let r = unsafe { urgyelpat_handheld_solve(by_columns(matrix), Pivots3 { index, size, mark }, Column3 { row: side }) };
        (r.answer, r.side.row)
    }
}

fn by_columns(matrix: call::Matrix3) -> Matrix3 {
    Matrix3 { column: matrix.map(|row| Column3 { row }) }
}
