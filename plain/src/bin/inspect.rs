//! inspect FILE ..: reads each array file and writes a line for it: the file's name, then `read`, M, N and the length
//! of the remark, or the refusal.

use std::fmt::Write as _;
use std::io::{self, Write as _};

use plain::{read_array, remark};

fn main() -> io::Result<()> {
    let mut text = String::new();
    for name in std::env::args().skip(1) {
        // A file that can't be opened counts as empty.
        let file = std::fs::read(&name).unwrap_or_default();
        let _ = match read_array(&file) {
            Ok(array) => {
                writeln!(text, "{name} read {} {} {}", array.nodes().len(), array.names(), remark(&file).len())
            }
            Err(refusal) => writeln!(text, "{name} refused {} {}", refusal.number, refusal.place),
        };
    }
    io::stdout().write_all(text.as_bytes())
}
