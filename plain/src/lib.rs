//! Plain version of the handover checker: array reader, table reader,
//! the five rules, the mending of tables, the calculus without limits,
//! and the step engine.

#![forbid(unsafe_code)]

pub mod array;
pub mod bytes;
pub mod calculus;
pub mod engine;
pub mod mend;
pub mod programs;
pub mod rules;
pub mod table;

#[cfg(test)]
mod tests;

pub use array::{read_array, remark, Array, Kind, Node};
pub use engine::{start, step, stride, walk, Allowance, Counts, Ending, Made, Stride, Walked};
pub use mend::mend;
pub use rules::{check, Verdict};
pub use table::{read_table, Balance, Claim, Table};

/// A refusal: its number, and its place (0 where none is named).
#[derive(Clone, Copy, Debug, PartialEq, Eq)]
pub struct Refusal {
    pub number: u8,
    pub place: usize,
}

/// A refusal without a named place.
pub(crate) fn refuse<T>(number: u8) -> Result<T, Refusal> {
    Err(Refusal { number, place: 0 })
}

/// Refuses with the first of the places, if there is one.
/// The places must come in rising order.
pub(crate) fn refuse_at(number: u8, mut places: impl Iterator<Item = usize>) -> Result<(), Refusal> {
    match places.next() {
        Some(place) => Err(Refusal { number, place }),
        None => Ok(()),
    }
}
