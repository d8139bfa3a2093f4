//! A list that is read and written again, and a record that is written as a list and read again (document 02, E4).

use crate::call::{Call, Case, Outcome, info_and_run, record_length};

/// What stands in a record before it is written; no pair of any order.
const BEFORE: u32 = 0x5a5a_5a5a;

/// A list to be read.
pub fn reader(n: usize, list: Vec<i32>, info: i32, run: u32) -> Case {
    Case { list, info, run, record: vec![BEFORE; record_length(n)], ..Case::new(Call::PivotsFromLapack, n, vec![]) }
}

/// A record to be written as a list.
pub fn writer(n: usize, record: Vec<u32>) -> Case {
    Case { record, list: vec![BEFORE as i32; n], ..Case::new(Call::PivotsToLapack, n, vec![]) }
}

/// The call that takes what an accepted one gave, with slices of its own.
pub fn back(there: &Case, left: &Outcome) -> Option<Case> {
    match (there.call, left.answer, left.value) {
        (Call::PivotsFromLapack, 0, _) => Some(writer(there.n, left.record.clone())),
        (Call::PivotsToLapack, 0, Some(value)) => Some(reader(there.n, left.list.clone(), value as i32, (value >> 32) as u32)),
        _ => None,
    }
}

/// What that call is to answer and leave: what the first one was given.
pub fn given(there: &Case, back: &Case) -> Outcome {
    let (value, record, list) = match there.call {
        Call::PivotsFromLapack => (Some(info_and_run(there.info, there.run)), &back.record, &there.list),
        _ => (None, &there.record, &back.list),
    };
    Outcome { answer: 0, value, record: record.clone(), list: list.clone(), ..Outcome::default() }
}
