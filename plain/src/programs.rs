//! What the programs `judge`, `walk` and `mend` write.

use std::fs::File;
use std::io::{self, Read};

use crate::array::read_array;
use crate::engine::{start, walk_telling, Ending};
use crate::mend::mend;
use crate::rules::{check, Verdict};
use crate::Refusal;

const ALLOWED: u32 = 100;
const THREADS: usize = 128;
const MARKERS: usize = 1024;
const MOST_NAMES: usize = 62;

fn refused_line(refusal: Refusal) -> String {
    format!("refused {} {}\n", refusal.number, refusal.place)
}

/// The line of `judge`.
pub fn judge_text(array: &[u8], table: &[u8]) -> String {
    match check(array, table) {
        Verdict::Held { nodes, names, balances, claims } => {
            format!("held {nodes} {names} {balances} {claims}\n")
        }
        Verdict::Rule { number, place } => {
            let place: String = place.iter().map(|figure| format!(" {figure}")).collect();
            format!("rule {number}{place}\n")
        }
        Verdict::Refused(refusal) => refused_line(refusal),
    }
}

/// The line of `mend`, and the mended table if there is one.
pub fn mend_text(array: &[u8], table: &[u8]) -> (String, Option<Vec<u8>>) {
    let mut output = vec![0; table.len()];
    match mend(array, table, &mut output) {
        Ok(bits) => (format!("mended {bits}\n"), Some(output)),
        Err(refusal) => (refused_line(refusal), None),
    }
}

/// The lines of `walk`.
pub fn walk_text(file: &[u8]) -> String {
    let names = match read_array(file) {
        Ok(array) => array.names(),
        Err(refusal) => return refused_line(refusal),
    };
    if names > MOST_NAMES {
        return "too many names\n".to_string();
    }
    let choices = [0; 128];
    let mut threads = vec![0; THREADS * (2 + names)];
    let mut markers = vec![0; MARKERS * 4];
    let count = match start(file, &choices, &mut threads) {
        Ok(count) => count,
        Err(refusal) => return refused_line(refusal),
    };
    let mut text = String::new();
    let walked = walk_telling(file, &choices, &mut threads, count, &mut markers, 0, ALLOWED, &mut |made| {
        text += &format!("{} {} {}\n", made.receiver, made.sender, made.marker)
    });
    match walked {
        Ok(walked) => {
            let ending = match walked.ending {
                Ending::Quiet => "quiet",
                Ending::Spent => "spent",
                Ending::Full => "full",
            };
            text += &format!("{ending} {}\n", walked.steps);
            text
        }
        Err(refusal) => refused_line(refusal),
    }
}

/// What a file has. One that can't be opened or read counts as empty.
pub fn contents(path: &str, longest: usize) -> Vec<u8> {
    File::open(path).and_then(|file| read_up_to(file, longest)).unwrap_or_default()
}

/// Reads at most one byte more than the longest file. A longer file is
/// refused for its length, so the rest of it doesn't matter.
pub fn read_up_to(source: impl Read, longest: usize) -> io::Result<Vec<u8>> {
    let mut bytes = Vec::new();
    source.take(longest as u64 + 1).read_to_end(&mut bytes)?;
    Ok(bytes)
}
