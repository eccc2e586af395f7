//! Where the run is, told also when a call traps or panics, and how a failing case is reported.

use std::ffi::c_int;
use std::sync::atomic::{AtomicU64, Ordering::Relaxed};

static SEED: AtomicU64 = AtomicU64::new(0);
static PART: AtomicU64 = AtomicU64::new(0);
static ROUND: AtomicU64 = AtomicU64::new(0);
static CALL: AtomicU64 = AtomicU64::new(0);

/// The exit status after a trap.
pub const TRAPPED: i32 = 3;
const REPORT: &str = "target/outside-failure.txt";

extern "C" {
    fn signal(number: c_int, handler: extern "C" fn(c_int)) -> usize;
    fn write(file: c_int, from: *const u8, length: usize) -> isize;
    fn _exit(status: c_int) -> !;
}

pub fn begin_round(seed: u64, part: usize, round: u64) {
    SEED.store(seed, Relaxed);
    PART.store(part as u64, Relaxed);
    ROUND.store(round, Relaxed);
    CALL.store(0, Relaxed);
}

pub fn begin_call() {
    CALL.fetch_add(1, Relaxed);
}

/// Seed, part, round and call.
fn place() -> [u64; 4] {
    [&SEED, &PART, &ROUND, &CALL].map(|number| number.load(Relaxed))
}

fn place_line() -> String {
    let [seed, part, round, call] = place();
    format!(
        "seed {seed}, part {part}, round {round}, call {call} (again: OUTSIDE_SEED={seed} OUTSIDE_ONLY={part}:{round})"
    )
}

/// Has traps and panics tell the place.
pub fn install() {
    // SAFETY: the handler only writes to standard error and ends the program.
    for number in [4, 5, 7, 8, 11] {
        unsafe { signal(number, trapped) };
    }
    let old = std::panic::take_hook();
    std::panic::set_hook(Box::new(move |panic| {
        old(panic);
        eprintln!("at {}", place_line());
    }));
}

/// Allocates nothing, as a signal handler must not.
extern "C" fn trapped(_: c_int) {
    let words: [&[u8]; 4] = [b"trapped at seed ", b", part ", b", round ", b", call "];
    for (word, number) in words.into_iter().zip(place()) {
        put(word);
        let (digits, used) = decimal(number);
        put(&digits[digits.len() - used..]);
    }
    put(b"\n");
    // SAFETY: the program ends here.
    unsafe { _exit(TRAPPED) }
}

fn put(text: &[u8]) {
    // SAFETY: pointer and length are those of the slice.
    unsafe { write(2, text.as_ptr(), text.len()) };
}

/// The digits at the end of the array, and how many they are.
fn decimal(mut number: u64) -> ([u8; 20], usize) {
    let mut digits = [b'0'; 20];
    let mut used = 0;
    while used == 0 || number > 0 {
        used += 1;
        digits[20 - used] = b'0' + (number % 10) as u8;
        number /= 10;
    }
    (digits, used)
}

pub fn hex(bytes: impl IntoIterator<Item = u8>) -> String {
    bytes.into_iter().map(|byte| format!("{byte:02x}")).collect()
}

/// Prints the case, writes all of it to a file, and ends the program.
pub fn fail(what: &str, inputs: &[(&str, String)]) -> ! {
    let mut report = format!("{what}\nat {}\n", place_line());
    for (name, value) in inputs {
        report += &format!("{name}: {value}\n");
    }
    let written = std::fs::create_dir_all("target").and_then(|()| std::fs::write(REPORT, &report));
    for line in report.lines() {
        eprintln!("{}", line.get(..4000).unwrap_or(line));
    }
    eprintln!("in full: {REPORT} ({written:?})");
    std::process::exit(1)
}
