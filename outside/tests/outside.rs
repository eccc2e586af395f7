//! Runs all parts, prints the counts, and fails if an answer was never given. A difference ends the run at once.
//! OUTSIDE_CASES multiplies the rounds, OUTSIDE_SEED changes the seed, OUTSIDE_ONLY=part:round runs one round again.

use std::process::{exit, Command};
use std::time::Instant;

use outside::guarded::{Region, Side};
use outside::parts::PARTS;
use outside::run::Run;
use outside::watch;

const SEED: u64 = 20_260_101;
const TRESPASS: &str = "OUTSIDE_TRESPASS";

fn number(name: &str, otherwise: u64) -> u64 {
    match std::env::var(name) {
        Ok(text) => text.parse().unwrap_or_else(|_| panic!("{name} is no number: {text}")),
        Err(_) => otherwise,
    }
}

/// Reads outside a guarded buffer in a process of its own, which must trap.
fn guards_trap() {
    let this = std::env::current_exe().expect("the path of this program");
    for side in ["start", "end"] {
        let status = Command::new(&this).env(TRESPASS, side).stderr(std::process::Stdio::null()).status();
        let code = status.expect("this program runs").code();
        assert_eq!(code, Some(watch::TRAPPED), "a read outside a buffer's {side} did not trap");
    }
}

fn trespass(side: &str) -> ! {
    let side = if side == "start" { Side::Start } else { Side::End };
    Region::new().trespass(side);
    exit(0)
}

/// Runs one round again.
fn again(run: &mut Run, seed: u64, text: &str) {
    let (part, round) = text.split_once(':').expect("part:round");
    let (part, round) = (part.parse().expect("a part"), round.parse().expect("a round"));
    let found: &outside::parts::Part = &PARTS[part];
    run.begin(seed, part, round);
    (found.round)(run);
    println!("{}, round {round}: no difference in {} cases", found.name, run.tally.cases);
}

fn all(run: &mut Run, seed: u64, times: u64) {
    for (i, part) in PARTS.iter().enumerate() {
        let (before, clock) = (run.tally.cases, Instant::now());
        for round in 0..part.rounds * times {
            run.begin(seed, i, round);
            (part.round)(run);
        }
        let cases = run.tally.cases - before;
        println!("part {i:>2} {:<32}{cases:>9} cases {:>7.2} s", part.name, clock.elapsed().as_secs_f64());
    }
}

fn main() {
    watch::install();
    if let Ok(side) = std::env::var(TRESPASS) {
        trespass(&side);
    }
    let (seed, times) = (number("OUTSIDE_SEED", SEED), number("OUTSIDE_CASES", 1));
    let mut run = Run::default();
    if let Ok(text) = std::env::var("OUTSIDE_ONLY") {
        return again(&mut run, seed, &text);
    }
    guards_trap();
    println!("seed {seed}");
    all(&mut run, seed, times);
    let wrong = run.tally.print();
    for line in &wrong {
        eprintln!("wrong: {line}");
    }
    exit(i32::from(!wrong.is_empty()));
}
