//! Walks the array on standard input.

use std::io::{self, Write};

use plain::array::LONGEST_ARRAY;
use plain::programs::{read_up_to, walk_text};

fn main() -> io::Result<()> {
    let array = read_up_to(io::stdin(), LONGEST_ARRAY).unwrap_or_default();
    io::stdout().write_all(walk_text(&array).as_bytes())
}
