//! The checker and the engine written for speed alone: unchecked indexing, raw pointers, nothing allocated unless
//! an array is refused.
//! Arguments and answers are those of `include/handover.h`. It has the base, the sets of claims and their order: what later requests add is
//! timed beside plain alone.

mod array;
mod engine;
mod filter;
mod formed;
mod index;
mod lanes;
mod pairs;
mod ready;
mod refused;
mod rules;
mod table;

pub use engine::{step, walk};
pub use filter::{BY_ARITY, BY_CHANNEL, NO_SETS};
pub use rules::check;

use std::mem::MaybeUninit;

/// 256 marks, one for each name.
type Row = [u64; 4];

/// A row for each name below N.
type Rows = [MaybeUninit<Row>; 256];

/// Safety: the name's row is there.
unsafe fn row_of(rows: &Rows, name: u8) -> &Row {
    rows.get_unchecked(usize::from(name)).assume_init_ref()
}

fn shares(one: &Row, other: &Row) -> bool {
    (0..4).fold(0, |bits, w| bits | one[w] & other[w]) != 0
}

fn within(row: &Row, other: &Row) -> bool {
    (0..4).fold(0, |bits, w| bits | row[w] & !other[w]) == 0
}

fn has(row: &Row, name: u8) -> bool {
    row[usize::from(name >> 6)] >> (name & 63) & 1 == 1
}

fn add(row: &mut Row, name: u8) {
    row[usize::from(name >> 6)] |= 1 << (name & 63);
}

fn remove(row: &mut Row, name: u8) {
    row[usize::from(name >> 6)] &= !(1 << (name & 63));
}

/// Calls `each` with the marked names in rising order until it answers false; tells whether it never did.
fn all_of(row: &Row, mut each: impl FnMut(u8) -> bool) -> bool {
    for (w, word) in row.iter().enumerate() {
        let mut rest = *word;
        while rest != 0 {
            if !each((64 * w + rest.trailing_zeros() as usize) as u8) {
                return false;
            }
            rest &= rest - 1;
        }
    }
    true
}

fn refusal(number: u64, place: usize) -> u64 {
    100 + number + ((place as u64) << 8)
}

/// The length of the remark, 0 after a refusal.
pub fn remark(file: &[u8]) -> usize {
    array::read(file).map_or(0, |array| array.start)
}

/// The little-endian number at a byte.
///
/// Safety: `at` + 2, 4 or 8 is at most the length.
unsafe fn u16_at(bytes: &[u8], at: usize) -> u16 {
    u16::from_le(bytes.as_ptr().add(at).cast::<u16>().read_unaligned())
}

unsafe fn u32_at(bytes: &[u8], at: usize) -> u32 {
    u32::from_le(bytes.as_ptr().add(at).cast::<u32>().read_unaligned())
}

unsafe fn u64_at(bytes: &[u8], at: usize) -> u64 {
    u64::from_le(bytes.as_ptr().add(at).cast::<u64>().read_unaligned())
}

/// The sum of the words before `end`.
///
/// Safety: `end` is at most the length.
unsafe fn word_sum(bytes: &[u8], end: usize) -> u32 {
    (0..end / 4).fold(0, |sum: u32, i| sum.wrapping_add(u32_at(bytes, 4 * i)))
}
