//! The plain Cholesky for teaching (document 02, E14): the teaching call by what the factor answers and leaves on the same matrix.

use crate::call::{Call, Case, Outcome, words};

/// The greatest order of the teaching call.
pub const MOST: usize = 64;

/// The teaching call on what a factor is lent.
pub fn beside(factor: &Case) -> Option<Case> {
    (factor.call == Call::CholeskyFactor).then(|| Case { call: Call::CholeskyTeaching, ..factor.clone() })
}

/// The factor on what a teaching call is lent.
pub fn factor(teaching: &Case) -> Case {
    Case { call: Call::CholeskyFactor, ..teaching.clone() }
}

/// What holds between the teaching call and the factor.
#[derive(Clone, Copy, Debug, PartialEq, Eq, PartialOrd, Ord)]
pub enum Law {
    /// The order is above 64: refused by 1, whatever the factor does, and all is as given.
    AboveMost,
    /// The factor refuses the sizes: the same.
    RefusesSizes,
    /// The factor accepts: the same.
    Accepts,
    /// The factor refuses a row: the same code and row, and the rows up to it are the factor's, from the left to their diagonals; all else is as given.
    RefusesRow,
}

pub fn law(teaching: &Case, factor: &Outcome) -> Law {
    match factor.answer / 4096 {
        _ if teaching.n > MOST => Law::AboveMost,
        0 => Law::Accepts,
        7 | 10 | 11 => Law::RefusesRow,
        _ => Law::RefusesSizes,
    }
}

/// What the teaching call is to answer and leave by what the factor does.
pub fn kept(teaching: &Case, factor: &Outcome) -> Outcome {
    let given = words(&teaching.a);
    match law(teaching, factor) {
        Law::AboveMost => Outcome { answer: 1 << 12, a: given, ..factor.clone() },
        Law::RefusesSizes | Law::Accepts => factor.clone(),
        Law::RefusesRow => {
            let (room, refused) = (teaching.x, (factor.answer % 4096) as usize);
            let found = |at: usize| at % room <= refused && at / room <= at % room;
            let a = (0..given.len()).map(|at| if found(at) { factor.a[at] } else { given[at] }).collect();
            Outcome { a, ..factor.clone() }
        }
    }
}
