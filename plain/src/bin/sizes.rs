//! sizes ARRAY TABLE ..: reads each pair of files and writes a line for it: the table's name, then `read`, M, N, K, Q
//! or the refusal.

use std::fmt::Write as _;
use std::io::{self, Write as _};

use plain::{read_array, read_table, Refusal};

/// A file that can't be opened counts as empty.
fn read(path: &str) -> Vec<u8> {
    std::fs::read(path).unwrap_or_default()
}

fn sizes(array: &[u8], table: &[u8]) -> Result<[usize; 4], Refusal> {
    let read = read_array(array)?;
    let table = read_table(array, table)?;
    Ok([read.nodes().len(), read.names(), table.balances().len(), table.claims().len()])
}

fn main() -> io::Result<()> {
    let mut text = String::new();
    let names: Vec<String> = std::env::args().skip(1).collect();
    for pair in names.chunks_exact(2) {
        let _ = match sizes(&read(&pair[0]), &read(&pair[1])) {
            Ok([m, n, k, q]) => writeln!(text, "{} read {m} {n} {k} {q}", pair[1]),
            Err(refusal) => writeln!(text, "{} refused {} {}", pair[1], refusal.number, refusal.place),
        };
    }
    io::stdout().write_all(text.as_bytes())
}
