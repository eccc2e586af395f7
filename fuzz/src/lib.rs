//! libFuzzer's entry. An input is read as two files and a list of calls; each call is made of the C entry and of the plain version, and the
//! answers, every word of both lists and every byte of an output must agree. A difference panics, which libFuzzer reports with the input.
//!
//! The table is checked, and mended into an output of its length and into one that lacks a byte. An input: a byte of flags, then the array and
//! the table, each with its length in two bytes, then the lengths of the thread list and the marker list in two bytes each and a byte to fill
//! them with, then calls. What an input lacks reads as zeros, so every input is one.

mod calls;
mod input;

use input::Input;
use outside::{files, order, packed};

/// The word sums are made right, so that what comes after them is reached.
const REPAIR_ARRAY: u8 = 1;
const REPAIR_TABLE: u8 = 2;
/// The claims are sorted, so that the rules are reached.
const SORT_CLAIMS: u8 = 4;

/// What an output holds before a mending.
const FILL: u8 = 0x5a;

/// # Safety
/// `data` points at `length` bytes.
#[no_mangle]
pub unsafe extern "C" fn LLVMFuzzerTestOneInput(data: *const u8, length: usize) -> i32 {
    // An empty input may come without a pointer.
    let data = if length == 0 { &[] } else { std::slice::from_raw_parts(data, length) };
    compare(Input(data));
    0
}

fn compare(mut input: Input) {
    let flags = input.byte();
    let mut array = input.file();
    let mut table = input.file();
    if flags & REPAIR_ARRAY != 0 {
        files::repair(&mut array);
    }
    if flags & SORT_CLAIMS != 0 {
        sort_claims(&mut table);
    }
    if flags & REPAIR_TABLE != 0 {
        name_array(&array, &mut table);
        files::repair(&mut table);
    }
    assert_eq!(handover::remark(&array), plain::remark(&array).len(), "the remark's length");
    assert_eq!(handover::check(&array, &table), packed::verdict(&plain::check(&array, &table)), "the verdict");
    for length in [table.len(), table.len().saturating_sub(1)] {
        mend(&array, &table, length);
    }
    calls::compare(&array, input);
}

/// Mends into an output that has no room to spare.
fn mend(array: &[u8], table: &[u8], length: usize) {
    let mut output: Box<[u8]> = vec![FILL; length].into();
    let mut other = output.clone();
    let expected = packed::mended(plain::mend(array, table, &mut other));
    assert_eq!(handover::mend(array, table, &mut output), expected, "the answer of mending");
    assert!(output == other, "the output after mending");
}

/// Puts the claims in order, wherever the trailer has them lie. Repeats stay.
fn sort_claims(table: &mut [u8]) {
    let Some(end) = table.len().checked_sub(files::TRAILER) else { return };
    let start = Input(&table[end + 8..]).word() as usize;
    let rank = |claim: &[u8; files::CLAIM]| {
        let mut numbers = Input(claim);
        order::rank(&[(); 4].map(|()| numbers.short()))
    };
    if let Some(claims) = table.get_mut(start..end) {
        claims.as_chunks_mut().0.sort_by_key(rank);
    }
}

/// Copies the array's word sum to the place in the table's trailer that names it.
fn name_array(array: &[u8], table: &mut [u8]) {
    if let (Some(from), Some(to)) = (array.len().checked_sub(8), table.len().checked_sub(12)) {
        table[to..to + 4].copy_from_slice(&array[from..from + 4]);
    }
}
