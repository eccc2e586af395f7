//! Mending a flow table: refusal 32, and the smallest rows that meet rules 1 and 3.

use crate::array::{read_array, Array};
use crate::bytes::{word_sum, Names};
use crate::rules::{agents, live};
use crate::table::{read_table_for, Table, ROW};
use crate::{refuse, Refusal};

/// Writes the mended table to the start of the output, and gives the number of
/// bits set. A refusal leaves the output as it is.
pub fn mend(array: &[u8], table: &[u8], output: &mut [u8]) -> Result<usize, Refusal> {
    let array = read_array(array)?;
    let mut mended = read_table_for(&array, table)?;
    if output.len() < table.len() {
        return refuse(32);
    }
    let bits = set_bits(&array, &mut mended);
    let output = &mut output[..table.len()];
    output.copy_from_slice(table);
    write_rows(&array, &mended, output);
    write_sum(output);
    Ok(bits)
}

/// Sets the bits that rules 1 and 3 ask for until none is missing. Every choice
/// of rows that contains the given ones and meets both rules has each of them.
fn set_bits(array: &Array, table: &mut Table) -> usize {
    let mut bits = 0;
    loop {
        let more = set_for_rule_1(array, table) + set_for_rule_3(array, table);
        if more == 0 {
            return bits;
        }
        bits += more;
    }
}

/// Row o gets bit o for every new o.
fn set_for_rule_1(array: &Array, table: &mut Table) -> usize {
    let mut bits = 0;
    for o in array.opened().iter() {
        let mut own = Names::default();
        own.add(o);
        bits += table.add_to_row(o, &own);
    }
    bits
}

/// For every pair that is live by now, the matching parameter's row gets each
/// sent name's row.
fn set_for_rule_3(array: &Array, table: &mut Table) -> usize {
    let (receivers, senders) = agents(array);
    let mut bits = 0;
    for &p in &receivers {
        for &q in &senders {
            if live(array, table, p, q) {
                let sent = &array.nodes()[q].arguments;
                let parameters = &array.nodes()[p].arguments;
                for (from, to) in sent.iter().zip(parameters) {
                    bits += table.add_to_row(*to, &table.row(*from));
                }
            }
        }
    }
    bits
}

fn write_rows(array: &Array, table: &Table, file: &mut [u8]) {
    for (name, bytes) in file.chunks_exact_mut(ROW).take(array.names()).enumerate() {
        bytes.copy_from_slice(table.row(name).bytes());
    }
}

/// Puts the sum of all words before it into the trailer.
fn write_sum(file: &mut [u8]) {
    let at = file.len() - 8;
    let sum = word_sum(&file[..at]);
    file[at..at + 4].copy_from_slice(&sum.to_le_bytes());
}
