//! What the three files of the text import and do not contain: numbers, sizes, matrices and views, for f64 and sizes known at run time.
//!
//! The arithmetic of each operation follows document 01 where the text only names it; each such place says "document 01".

pub mod dimension;
pub mod field;
pub mod matrix;
pub mod storage;

/// What the text asks for and document 01 leaves out: it compiles and is never called.
pub(crate) fn left_out<A>(what: &str) -> A {
    panic!("{what} is left out of the comparison")
}
