//! The Rust text of nalgebra 0.35.0's LBLT, Cholesky and UDU, unchanged, for f64 and sizes known at run time; document 01's steps written a
//! second time; cases to hold one against the other, or against the port.
//!
//! The text imports from its own crate and from `num`, `num_traits` and `simba`: this crate stands in for all four.

extern crate self as num;
extern crate self as num_traits;
extern crate self as simba;

mod standin;

pub use standin::dimension::{Dim, Dyn, U1};
pub use standin::field::{Arithmetic, ComplexField, One, RealField, Zero, convert, one, zero};
pub use standin::matrix::{DefaultAllocator, Matrix, OMatrix, OVector};
pub use standin::storage::Storage;

pub mod base {
    pub use crate::standin::dimension::Const;
    pub use crate::standin::matrix::{DefaultAllocator, Matrix, OMatrix, OVector, Vector};
}

pub mod allocator {
    pub use crate::standin::matrix::Allocator;
}

pub mod constraint {
    pub use crate::standin::matrix::{SameNumberOfRows, ShapeConstraint};
}

pub mod dimension {
    pub use crate::standin::dimension::{Dim, DimAdd, DimDiff, DimSub, DimSum, U1};
}

pub mod storage {
    pub use crate::standin::storage::{Storage, StorageMut};
}

pub mod scalar {
    pub use crate::standin::field::{ComplexField, RealField};
}

pub mod simd {
    pub use crate::standin::field::SimdComplexField;
}

pub mod back;
mod by_rows;
pub mod by_value;
pub mod call;
pub mod cases;
pub mod floored;
mod handheld;
pub mod line;
pub mod list;
pub mod packed;
pub mod pair;
pub mod paper;
pub mod tail;
pub mod teaching;
pub mod text;
pub mod tray;

/// The text.
pub mod linalg {
    pub mod lblt {
        include!(concat!(env!("URGYELPAT_TEXT_LINALG"), "/lblt.rs"));

        /// The text hides the fields of `LBLT`; this opens them.
        pub mod parts {
            use super::super::super::{Dyn, OMatrix, OVector};
            use super::LBLT;

            pub type Parts = (OMatrix<f64, Dyn, Dyn>, OVector<(usize, usize), Dyn>, Option<usize>);

            pub fn apart(f: LBLT<f64, Dyn>) -> Parts {
                (f.matrix, f.pivots, f.zero_pivot)
            }

            pub fn together((matrix, pivots, zero_pivot): Parts) -> LBLT<f64, Dyn> {
                LBLT { matrix, pivots, zero_pivot }
            }
        }
    }

    pub mod cholesky {
        include!(concat!(env!("URGYELPAT_TEXT_LINALG"), "/cholesky.rs"));
    }

    pub mod udu {
        include!(concat!(env!("URGYELPAT_TEXT_LINALG"), "/udu.rs"));
    }
}
