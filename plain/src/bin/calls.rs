//! calls FILE ..: follows the script in each file and writes a line for
//! each call of the step engine: the file's name, the call, its answer and
//! a check number for each of the two lists.
//!
//! A script is little-endian. It has the array file, the choice bytes, the
//! words of the thread list and the numbers of the marker list, each behind
//! its count and padded to 4 bytes; the two counts in use; then commands,
//! each a word and its operands:
//!
//! 0 start; 1 step, receiver, sender; 2 walk, allowed; 3 stride, allowed,
//! left; 4 sets both counts; 5 sets a word of the thread list, 6 a number
//! of the marker list, by index and value; 7 writes both lists.
//!
//! A stride answers `made`, receiver's agent, sender's agent, marker, both
//! counts, allowed and left after it; or the ending and the steps made. Its
//! allowance is not kept: each stride names its own.

use std::fmt::Write as _;
use std::io::{self, Write as _};

use plain::{start, step, stride, walk, Allowance, Ending, Refusal, Stride};

const LONGEST_SCRIPT: usize = 400_000;
const LONGEST_ARRAY: usize = 20_000;
const MOST_CHOICES: usize = 1_000;
const MOST_WORDS: usize = 66_560;
const MOST_NUMBERS: usize = 16_500;

/// The script is cut, does not fit, or has an unknown command or an index
/// past its list.
struct Bad;

/// What is left of a script.
struct Reader<'a> {
    left: &'a [u8],
}

impl<'a> Reader<'a> {
    fn bytes(&mut self, count: usize) -> Result<&'a [u8], Bad> {
        if self.left.len() < count {
            return Err(Bad);
        }
        let (taken, left) = self.left.split_at(count);
        self.left = left;
        Ok(taken)
    }

    fn word(&mut self) -> Result<u32, Bad> {
        let bytes = self.bytes(4)?;
        Ok(u32::from_le_bytes(bytes.try_into().map_err(|_| Bad)?))
    }

    /// A position or a count: the largest word stands for the largest one.
    fn position(&mut self) -> Result<usize, Bad> {
        let word = self.word()?;
        Ok(if word == u32::MAX { usize::MAX } else { word as usize })
    }

    /// Things of so many bytes behind their count, padded to 4 bytes.
    fn part(&mut self, size: usize, most: usize) -> Result<&'a [u8], Bad> {
        let count = self.word()? as usize;
        if count > most {
            return Err(Bad);
        }
        let taken = self.bytes((count * size).next_multiple_of(4))?;
        Ok(&taken[..count * size])
    }
}

/// A script at one of its commands.
struct Calls<'a> {
    name: &'a str,
    array: &'a [u8],
    choices: &'a [u8],
    threads: Vec<u32>,
    markers: Vec<u16>,
    thread_count: usize,
    marker_count: usize,
}

fn check_number(list: impl Iterator<Item = u32>) -> u32 {
    list.fold(7, |h, x| ((u64::from(h) * 31 + u64::from(x)) % 4_294_967_296) as u32)
}

fn ending_word(ending: Ending) -> &'static str {
    match ending {
        Ending::Quiet => "quiet",
        Ending::Spent => "spent",
        Ending::Full => "full",
    }
}

fn refused(refusal: Refusal) -> String {
    format!("refused {} {}", refusal.number, refusal.place)
}

impl<'a> Calls<'a> {
    fn read(name: &'a str, reader: &mut Reader<'a>) -> Result<Calls<'a>, Bad> {
        let array = reader.part(1, LONGEST_ARRAY)?;
        let choices = reader.part(1, MOST_CHOICES)?;
        let words = reader.part(4, MOST_WORDS)?;
        let numbers = reader.part(2, MOST_NUMBERS)?;
        Ok(Calls {
            name,
            array,
            choices,
            threads: words.chunks_exact(4).map(|word| u32::from_le_bytes(word.try_into().unwrap())).collect(),
            markers: numbers.chunks_exact(2).map(|number| u16::from_le_bytes(number.try_into().unwrap())).collect(),
            thread_count: reader.position()?,
            marker_count: reader.position()?,
        })
    }

    fn start(&mut self) -> String {
        match start(self.array, self.choices, &mut self.threads) {
            Ok(count) => {
                self.thread_count = count;
                self.marker_count = 0;
                format!("started {count}")
            }
            Err(refusal) => refused(refusal),
        }
    }

    fn step(&mut self, receiver: usize, sender: usize) -> String {
        let answer = step(
            self.array,
            self.choices,
            &mut self.threads,
            self.thread_count,
            &mut self.markers,
            self.marker_count,
            receiver,
            sender,
        );
        match answer {
            Ok(counts) => {
                self.thread_count = counts.threads;
                self.marker_count = counts.markers;
                format!("stepped {} {}", counts.threads, counts.markers)
            }
            Err(refusal) => refused(refusal),
        }
    }

    fn walk(&mut self, allowed: u32) -> String {
        let answer = walk(
            self.array,
            self.choices,
            &mut self.threads,
            self.thread_count,
            &mut self.markers,
            self.marker_count,
            allowed,
        );
        match answer {
            Ok(walked) => {
                self.thread_count = walked.counts.threads;
                self.marker_count = walked.counts.markers;
                let ending = ending_word(walked.ending);
                format!("walked {ending} {} {} {}", walked.steps, walked.counts.threads, walked.counts.markers)
            }
            Err(refusal) => refused(refusal),
        }
    }

    fn stride(&mut self, allowance: Allowance) -> String {
        let answer = stride(
            self.array,
            self.choices,
            &mut self.threads,
            self.thread_count,
            &mut self.markers,
            self.marker_count,
            allowance,
        );
        match answer {
            Ok(Stride::Ended(ending, steps)) => format!("{} {steps}", ending_word(ending)),
            Ok(Stride::Made(made, counts, after)) => {
                self.thread_count = counts.threads;
                self.marker_count = counts.markers;
                format!(
                    "made {} {} {} {} {} {} {}",
                    made.receiver, made.sender, made.marker, counts.threads, counts.markers, after.allowed, after.left
                )
            }
            Err(refusal) => refused(refusal),
        }
    }

    fn call_line(&self, call: &str, answer: &str) -> String {
        let words = check_number(self.threads.iter().copied());
        let numbers = check_number(self.markers.iter().map(|number| u32::from(*number)));
        format!("{} {call} {answer} {words} {numbers}\n", self.name)
    }

    fn lists_line(&self) -> String {
        let mut line = format!("{} lists", self.name);
        for word in &self.threads {
            let _ = write!(line, " {word}");
        }
        line += " |";
        for number in &self.markers {
            let _ = write!(line, " {number}");
        }
        line + "\n"
    }

    /// Follows one command and gives its line, if it has one.
    fn follow(&mut self, reader: &mut Reader) -> Result<String, Bad> {
        match reader.word()? {
            0 => {
                let answer = self.start();
                Ok(self.call_line("start", &answer))
            }
            1 => {
                let (receiver, sender) = (reader.position()?, reader.position()?);
                let answer = self.step(receiver, sender);
                Ok(self.call_line("step", &answer))
            }
            2 => {
                let allowed = reader.word()?;
                let answer = self.walk(allowed);
                Ok(self.call_line("walk", &answer))
            }
            3 => {
                let (allowed, left) = (reader.word()?, reader.word()?);
                let answer = self.stride(Allowance { allowed, left });
                Ok(self.call_line("stride", &answer))
            }
            4 => {
                let (threads, markers) = (reader.position()?, reader.position()?);
                (self.thread_count, self.marker_count) = (threads, markers);
                Ok(String::new())
            }
            5 => {
                let (index, value) = (reader.word()? as usize, reader.word()?);
                *self.threads.get_mut(index).ok_or(Bad)? = value;
                Ok(String::new())
            }
            6 => {
                let (index, value) = (reader.word()? as usize, reader.word()?);
                let value = u16::try_from(value).map_err(|_| Bad)?;
                *self.markers.get_mut(index).ok_or(Bad)? = value;
                Ok(String::new())
            }
            7 => Ok(self.lists_line()),
            _ => Err(Bad),
        }
    }
}

/// The lines of a script; those before a bad place stay.
fn follow_all(name: &str, script: &[u8], text: &mut String) -> Result<(), Bad> {
    if script.len() > LONGEST_SCRIPT || script.len() % 4 != 0 {
        return Err(Bad);
    }
    let mut reader = Reader { left: script };
    let mut calls = Calls::read(name, &mut reader)?;
    while !reader.left.is_empty() {
        *text += &calls.follow(&mut reader)?;
    }
    Ok(())
}

fn main() -> io::Result<()> {
    let mut text = String::new();
    for name in std::env::args().skip(1) {
        let script = std::fs::read(&name).unwrap_or_default();
        if follow_all(&name, &script, &mut text).is_err() {
            let _ = writeln!(text, "{name} bad script");
        }
    }
    io::stdout().write_all(text.as_bytes())
}
