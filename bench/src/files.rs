//! Records and chains of agents, over the writer of files that the tests have.

use outside::files::{ArrayFile, TableFile};
pub use outside::files::{Balance, Claim, Record, IN, NEW, OUT, PAR, RESOURCE};

pub fn record(kind: u8, left: usize, right: usize, name: usize, args: &[u8]) -> Record {
    let arguments = args.iter().map(|arg| usize::from(*arg)).collect();
    Record { kind, left, right, name, arguments }
}

pub fn stop() -> Record {
    Record::default()
}

/// An agent: kind, channel, arguments.
pub type Agent = (u8, usize, Vec<u8>);

/// Adds agents, each the continuation of the one before, and a stop; gives the first one's number.
pub fn chain(records: &mut Vec<Record>, agents: &[Agent]) -> usize {
    let first = records.len();
    for (kind, channel, args) in agents {
        records.push(record(*kind, records.len() + 1, 0, *channel, args));
    }
    records.push(stop());
    first
}

/// An array file without a remark.
pub fn array_file(records: &[Record], names: usize) -> Vec<u8> {
    ArrayFile { remark: vec![], records: records.to_vec(), names }.bytes()
}

/// A table for the array.
pub fn table_file(array: &[u8], rows: &[[u64; 4]], balances: &[Balance], claims: Vec<Claim>) -> Vec<u8> {
    let bytes = |row: &[u64; 4]| std::array::from_fn(|i| row[i / 8].to_le_bytes()[i % 8]);
    let (rows, balances) = (rows.iter().map(bytes).collect(), balances.to_vec());
    TableFile { rows, balances, claims, array_sum: word_sum(array) }.bytes()
}

/// The word sum that an array file has.
pub fn word_sum(array: &[u8]) -> u32 {
    let at = array.len() - 8;
    u32::from_le_bytes(array[at..at + 4].try_into().expect("four bytes"))
}
