//! The tray's call.

unsafe extern "C" {
    fn urgyelpat_lblt_tray(
        a: *mut f64,
        a_len: usize,
        records: *mut u32,
        records_len: usize,
        b: *mut f64,
        b_len: usize,
        runs: *const u32,
        runs_len: usize,
        answers: *mut u64,
        answers_len: usize,
        n: usize,
        count: usize,
    ) -> u64;
}

pub fn tray(a: &mut [f64], records: &mut [u32], b: &mut [f64], runs: &[u32], answers: &mut [u64], n: usize, count: usize) -> u64 {
    // SAFETY: every slice is lent by Rust for the time of the call, and no two overlap.
    unsafe {
        urgyelpat_lblt_tray(
            a.as_mut_ptr(),
            a.len(),
            records.as_mut_ptr(),
            records.len(),
            b.as_mut_ptr(),
            b.len(),
            runs.as_ptr(),
            runs.len(),
            answers.as_mut_ptr(),
            answers.len(),
            n,
            count,
        )
    }
}
