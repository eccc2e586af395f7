//! Judges `array.pis` and `table.pic` of the current folder.

use std::io::{self, Write};

use plain::array::LONGEST_ARRAY;
use plain::programs::{contents, judge_text};
use plain::table::LONGEST_TABLE;

fn main() -> io::Result<()> {
    let array = contents("array.pis", LONGEST_ARRAY);
    let table = contents("table.pic", LONGEST_TABLE);
    io::stdout().write_all(judge_text(&array, &table).as_bytes())
}
