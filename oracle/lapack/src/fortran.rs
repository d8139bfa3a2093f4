//! The routines of liblapack that are run, behind safe calls. Matrices stand column by column, entry (i, j) at i + j·lda.

unsafe extern "C" {
    fn dsytf2_(uplo: *const u8, n: *const i32, a: *mut f64, lda: *const i32, ipiv: *mut i32, info: *mut i32, uplo_len: usize);
    fn dpotf2_(uplo: *const u8, n: *const i32, a: *mut f64, lda: *const i32, info: *mut i32, uplo_len: usize);
    fn dsytrf_(
        uplo: *const u8,
        n: *const i32,
        a: *mut f64,
        lda: *const i32,
        ipiv: *mut i32,
        work: *mut f64,
        lwork: *const i32,
        info: *mut i32,
        uplo_len: usize,
    );
    fn dsytrf_rook_(
        uplo: *const u8,
        n: *const i32,
        a: *mut f64,
        lda: *const i32,
        ipiv: *mut i32,
        work: *mut f64,
        lwork: *const i32,
        info: *mut i32,
        uplo_len: usize,
    );
    fn dsytrf_aa_(
        uplo: *const u8,
        n: *const i32,
        a: *mut f64,
        lda: *const i32,
        ipiv: *mut i32,
        work: *mut f64,
        lwork: *const i32,
        info: *mut i32,
        uplo_len: usize,
    );
    fn dsytrf_rk_(
        uplo: *const u8,
        n: *const i32,
        a: *mut f64,
        lda: *const i32,
        e: *mut f64,
        ipiv: *mut i32,
        work: *mut f64,
        lwork: *const i32,
        info: *mut i32,
        uplo_len: usize,
    );
    fn dlasyf_(
        uplo: *const u8,
        n: *const i32,
        nb: *const i32,
        kb: *mut i32,
        a: *mut f64,
        lda: *const i32,
        ipiv: *mut i32,
        w: *mut f64,
        ldw: *const i32,
        info: *mut i32,
        uplo_len: usize,
    );
    fn dsytrs_(
        uplo: *const u8,
        n: *const i32,
        nrhs: *const i32,
        a: *const f64,
        lda: *const i32,
        ipiv: *const i32,
        b: *mut f64,
        ldb: *const i32,
        info: *mut i32,
        uplo_len: usize,
    );
    fn ilaenv_(
        ispec: *const i32,
        name: *const u8,
        opts: *const u8,
        n1: *const i32,
        n2: *const i32,
        n3: *const i32,
        n4: *const i32,
        name_len: usize,
        opts_len: usize,
    ) -> i32;
    fn ilaver_(major: *mut i32, minor: *mut i32, patch: *mut i32);
}

/// The triangle that is read and written.
#[derive(Clone, Copy)]
pub enum Uplo {
    Lower,
    Upper,
}

impl Uplo {
    fn letter(self) -> *const u8 {
        match self {
            Uplo::Lower => b"L".as_ptr(),
            Uplo::Upper => b"U".as_ptr(),
        }
    }
}

/// IPIV and INFO.
#[derive(Clone, Debug, PartialEq, Eq)]
pub struct List {
    pub ipiv: Vec<i32>,
    pub info: i32,
}

impl List {
    fn empty(n: usize) -> List {
        List { ipiv: vec![0; n], info: 0 }
    }

    /// An INFO below 0 would be a wrong argument.
    fn filled(self) -> List {
        assert!(self.info >= 0, "INFO {}", self.info);
        self
    }
}

/// The order, for a matrix that has room for it.
fn order(a: &[f64], lda: usize, n: usize) -> (i32, i32) {
    assert!(lda >= n.max(1) && a.len() >= lda * n);
    (n as i32, lda as i32)
}

pub fn dsytf2(uplo: Uplo, a: &mut [f64], lda: usize, n: usize) -> List {
    let (order, leading) = order(a, lda, n);
    let mut list = List::empty(n);
    unsafe { dsytf2_(uplo.letter(), &order, a.as_mut_ptr(), &leading, list.ipiv.as_mut_ptr(), &mut list.info, 1) };
    list.filled()
}

/// By blocks of `block` columns at most: LWORK is n times that.
pub fn dsytrf(uplo: Uplo, a: &mut [f64], lda: usize, n: usize, block: usize) -> List {
    with_work(dsytrf_, uplo, a, lda, n, block)
}

pub fn dsytrf_rook(a: &mut [f64], n: usize) -> List {
    with_work(dsytrf_rook_, Uplo::Lower, a, n, n, 64)
}

pub fn dsytrf_aa(a: &mut [f64], n: usize) -> List {
    with_work(dsytrf_aa_, Uplo::Lower, a, n, n, 65)
}

type WithWork = unsafe extern "C" fn(*const u8, *const i32, *mut f64, *const i32, *mut i32, *mut f64, *const i32, *mut i32, usize);

fn with_work(routine: WithWork, uplo: Uplo, a: &mut [f64], lda: usize, n: usize, columns: usize) -> List {
    let (order, leading) = order(a, lda, n);
    let mut list = List::empty(n);
    let mut work = vec![0.0; (n * columns).max(1)];
    let (ipiv, size) = (list.ipiv.as_mut_ptr(), work.len() as i32);
    unsafe { routine(uplo.letter(), &order, a.as_mut_ptr(), &leading, ipiv, work.as_mut_ptr(), &size, &mut list.info, 1) };
    list.filled()
}

/// E, where it puts what stands beside the diagonal of D, is dropped.
pub fn dsytrf_rk(a: &mut [f64], n: usize) -> List {
    let (order, leading) = order(a, n, n);
    let mut list = List::empty(n);
    let (mut e, mut work) = (vec![0.0; n], vec![0.0; n * 64]);
    let (ipiv, size) = (list.ipiv.as_mut_ptr(), work.len() as i32);
    unsafe {
        dsytrf_rk_(b"L".as_ptr(), &order, a.as_mut_ptr(), &leading, e.as_mut_ptr(), ipiv, work.as_mut_ptr(), &size, &mut list.info, 1)
    };
    list.filled()
}

/// What `dsytrf` does for the lower triangle, with blocks of `block` columns at every order: `dlasyf` as long as more than `block` rows are
/// left, then `dsytf2`.
pub fn in_blocks(a: &mut [f64], n: usize, block: usize) -> List {
    assert!(block >= 2 && a.len() == n * n);
    let (leading, width) = (n.max(1) as i32, block as i32);
    let mut list = List::empty(n);
    let mut work = vec![0.0; n * block];
    let mut k = 0;
    while k < n {
        let (rest, mut taken, mut info) = ((n - k) as i32, (n - k) as i32, 0);
        let (corner, ipiv) = (a[k + k * n..].as_mut_ptr(), list.ipiv[k..].as_mut_ptr());
        if n - k > block {
            let w = work.as_mut_ptr();
            unsafe { dlasyf_(b"L".as_ptr(), &rest, &width, &mut taken, corner, &leading, ipiv, w, &leading, &mut info, 1) };
        } else {
            unsafe { dsytf2_(b"L".as_ptr(), &rest, corner, &leading, ipiv, &mut info, 1) };
        }
        let before = k as i32;
        if list.info == 0 && info > 0 {
            list.info = info + before;
        }
        for p in &mut list.ipiv[k..k + taken as usize] {
            *p += if *p > 0 { before } else { -before };
        }
        k += taken as usize;
    }
    list.filled()
}

/// Solves by a lower factor and its list, `columns` right-hand sides in place.
pub fn dsytrs(a: &[f64], ipiv: &[i32], b: &mut [f64], n: usize, columns: usize) {
    let (order, leading) = order(a, n.max(1), n);
    assert!(ipiv.len() == n && b.len() == n * columns && stays_inside(ipiv));
    let (sides, mut info) = (columns as i32, 0);
    let ipiv = ipiv.as_ptr();
    unsafe { dsytrs_(b"L".as_ptr(), &order, &sides, a.as_ptr(), &leading, ipiv, b.as_mut_ptr(), &leading, &mut info, 1) };
    assert!(info == 0, "INFO {info}");
}

/// It names rows of the matrix alone, and numbers below zero come in twos.
fn stays_inside(ipiv: &[i32]) -> bool {
    let mut twos = ipiv.chunk_by(|p, q| (*p < 0) == (*q < 0)).filter(|chunk| chunk[0] < 0);
    ipiv.iter().all(|p| (1..=ipiv.len()).contains(&(p.unsigned_abs() as usize))) && twos.all(|chunk| chunk.len() % 2 == 0)
}

/// INFO: 0, or the refused row and 1.
pub fn dpotf2(a: &mut [f64], n: usize) -> usize {
    let (order, leading) = order(a, n, n);
    let mut info = 0;
    unsafe { dpotf2_(b"L".as_ptr(), &order, a.as_mut_ptr(), &leading, &mut info, 1) };
    assert!(info >= 0);
    info as usize
}

/// The columns of a block that ILAENV has `dsytrf` take. It works by blocks where there are more columns than that.
pub fn block_size(n: usize) -> usize {
    let (name, none) = (b"DSYTRF", -1);
    unsafe { ilaenv_(&1, name.as_ptr(), b"L".as_ptr(), &(n as i32), &none, &none, &none, name.len(), 1) as usize }
}

pub fn version() -> String {
    let (mut major, mut minor, mut patch) = (0, 0, 0);
    unsafe { ilaver_(&mut major, &mut minor, &mut patch) };
    format!("{major}.{minor}.{patch}")
}
