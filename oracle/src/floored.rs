//! A floor for the diagonal (document 02, E12): a floored call by what the plain one answers and leaves on the same matrix, and floored batches by what
//! one floored call does.

use crate::call::{Call, Calls, Case, Outcome, word};
use crate::cases::{Chain, floors_beside};
use crate::packed::{Batch, batches};

/// The floored calls on what a plain one is lent.
pub fn beside(plain: &Case) -> Vec<Case> {
    let with = |call: Call| floors_beside(plain).into_iter().map(|floor| Case { call, floor, ..plain.clone() }).collect();
    plain.call.floored().map_or(vec![], with)
}

/// The plain call on what a floored one is lent.
pub fn plain(floored: &Case) -> Case {
    let call = match floored.call {
        Call::CholeskyFactorFloored => Call::CholeskyFactor,
        _ => Call::CholeskyExtend,
    };
    Case { call, floor: 0.0, ..floored.clone() }
}

/// What holds between a floored call and the plain one.
#[derive(Clone, Copy, Debug, PartialEq, Eq, PartialOrd, Ord)]
pub enum Law {
    /// The floor fails: as the plain call, none used.
    FailingFloor,
    /// The plain call accepts: as it, none used.
    PlainAccepts,
    /// The plain call refuses the sizes: as it, none used.
    PlainRefusesSizes,
    /// None used: as the plain call.
    NoneUsed,
    /// Refused: none used.
    Refused,
    /// The floor passes: nothing but the sizes is refused.
    PassingFloor,
    /// The floor passes and the plain call refuses a column: that one is used, and the columns up to it are the plain call's, with the floor in place of
    /// the diagonal.
    FirstUsed,
}

/// The laws that speak of these outcomes, and whether each holds.
pub fn laws(floored: &Case, plain: &Outcome, found: &Outcome) -> Vec<(Law, bool)> {
    let passes = floored.floor > 0.0;
    let none_used = found.value == Some(0);
    let as_plain = (found.answer, &found.a) == (plain.answer, &plain.a);
    let sizes = |outcome: &Outcome| matches!(outcome.answer / 4096, 1..=3);
    let diagonal = matches!(plain.answer / 4096, 7 | 10 | 11);
    let mut laws = vec![
        (Law::FailingFloor, !passes, as_plain && none_used),
        (Law::PlainAccepts, plain.answer == 0, as_plain && none_used),
        (Law::PlainRefusesSizes, sizes(plain), as_plain && none_used),
        (Law::NoneUsed, none_used, as_plain),
        (Law::Refused, found.answer != 0, none_used),
        (Law::PassingFloor, passes, found.answer == 0 || sizes(found)),
    ];
    if passes && diagonal {
        laws.push((Law::FirstUsed, true, first_used(floored, plain, found)));
    }
    laws.into_iter().filter(|&(_, speaks, _)| speaks).map(|(law, _, holds)| (law, holds)).collect()
}

fn first_used(floored: &Case, plain: &Outcome, found: &Outcome) -> bool {
    let (n, room, j) = (floored.n, floored.x, (plain.answer % 4096) as usize);
    let root = floored.floor.sqrt();
    let wanted = |at: usize| {
        let (row, column) = (at % room, at / room);
        let left = plain.a[at];
        match row {
            _ if row < column || n <= row || column < j => Some(left),
            _ if j < column => None,
            _ if row == j => Some(word(root)),
            _ => Some(word(f64::from_bits(left) / root)),
        }
    };
    let used = 1..=(n - j) as u64;
    found.value.is_some_and(|count| used.contains(&count)) && (0..room * room).all(|at| wanted(at).is_none_or(|word| word == found.a[at]))
}

/// The batches of a chain in one room, all with this floor; a refusal ends them.
pub fn floored_batches(calls: &dyn Calls, chain: &Chain, floor: f64) -> Vec<Batch> {
    let buffer = |left: &Outcome| left.a.iter().map(|&w| f64::from_bits(w)).collect();
    batches(calls, &chain.cuts, |earlier, cut, last| Case {
        x: chain.room,
        y: earlier,
        floor,
        ..Case::new(Call::CholeskyExtendFloored, cut, last.map_or(chain.a.clone(), buffer))
    })
}

/// The one call on the rows up to a cut.
pub fn one_call(chain: &Chain, cut: usize, floor: f64) -> Case {
    Case { x: chain.room, floor, ..Case::new(Call::CholeskyFactorFloored, cut, chain.a.clone()) }
}

/// What the batches up to the last of these have answered, counted and left together.
pub fn together(batches: &[Batch]) -> Option<Outcome> {
    let (_, last) = batches.last()?;
    let used = batches.iter().filter_map(|(_, left)| left.value).sum();
    Some(Outcome { value: Some(used), ..last.clone() })
}
