//! Mends `table.pic` for `array.pis`, both of the current folder, and writes `mended.pic`.

use std::fs;
use std::io::{self, Write};

use plain::array::LONGEST_ARRAY;
use plain::programs::{contents, mend_text};
use plain::table::LONGEST_TABLE;

/// The whole table takes the place of an older one at once.
fn put(table: &[u8]) -> io::Result<()> {
    fs::write("mended.pic.new", table)?;
    fs::rename("mended.pic.new", "mended.pic")
}

fn main() -> io::Result<()> {
    let array = contents("array.pis", LONGEST_ARRAY);
    let table = contents("table.pic", LONGEST_TABLE);
    let (line, mended) = mend_text(&array, &table);
    if let Some(mended) = mended {
        put(&mended)?;
    }
    io::stdout().write_all(line.as_bytes())
}
