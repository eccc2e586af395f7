//! Designs for mending: those of the tests in which bits travel, with all rows empty, and other designs with other rows.

use super::Files;
use crate::files::word_sum;
use outside::files::{repair, ArrayFile, TableFile, ROW};
use outside::{arrays, travels};

fn files(array: ArrayFile, table: TableFile) -> Files {
    let (nodes, names, balances) = (array.records.len(), array.names, table.balances.len());
    let array = array.bytes();
    let table = TableFile { array_sum: word_sum(&array), ..table }.bytes();
    Files { array, table, nodes, names, balances }
}

/// Each parameter is sent on to the next one.
pub fn sent_on(links: usize) -> Files {
    let travel = travels::sent_on(links);
    files(travel.array, travel.table)
}

/// The same on a channel for each link.
pub fn own_channels(links: usize) -> Files {
    let travel = travels::own_channels(links);
    files(travel.array, travel.table)
}

/// Each parameter is the channel on which the next one is received.
pub fn received_on(links: usize) -> Files {
    let travel = travels::received_on(links);
    files(travel.array, travel.table)
}

/// News that are sent on one after the other.
pub fn waves(news: usize, links: usize) -> Files {
    let travel = travels::waves(news, links);
    files(travel.array, travel.table)
}

/// Half of the names opened, and each of them sent to all others.
pub fn flooded() -> Files {
    let array = arrays::flooded();
    let rows = vec![[0; ROW]; array.names];
    files(array, TableFile { rows, ..TableFile::default() })
}

/// The same files with other rows.
pub fn with_rows(mut files: Files, row: impl Fn(usize) -> [u8; ROW]) -> Files {
    for (name, bytes) in files.table.chunks_exact_mut(ROW).take(files.names).enumerate() {
        bytes.copy_from_slice(&row(name));
    }
    repair(&mut files.table);
    files
}

/// The same files with the table mended.
pub fn mended(files: Files) -> Files {
    let mut table = files.table.clone();
    plain::mend(&files.array, &files.table, &mut table).expect("a table to mend");
    Files { table, ..files }
}

pub fn emptied(files: Files) -> Files {
    with_rows(files, |_| [0; ROW])
}
