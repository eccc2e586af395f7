//! The parts of the run. A part is a number of rounds; a round draws its input and makes some calls on both sides.

mod damaged;
mod demand3;
mod engine;
mod limits;
mod mending;
mod mirror;
mod orders;
mod senders;
mod verdicts;
mod walks;

use plain::Array;

use crate::random::Random;
use crate::run::Run;

pub struct Part {
    pub name: &'static str,
    pub rounds: u64,
    pub round: fn(&mut Run),
}

const fn part(name: &'static str, rounds: u64, round: fn(&mut Run)) -> Part {
    Part { name, rounds, round }
}

pub const PARTS: [Part; 25] = [
    part("verdicts on small arrays", 30_000, verdicts::small),
    part("verdicts on large arrays", 50, verdicts::large),
    part("damaged arrays", 60_000, damaged::arrays),
    part("damaged tables", 40_000, damaged::tables),
    part("every byte and every length", 100, damaged::every_byte),
    part("starts and steps", 30_000, engine::reached),
    part("lists that no start reached", 20_000, engine::unreached),
    part("malformed lists", 50_000, engine::malformed),
    part("walks", 25_000, walks::walks),
    part("limits of threads and markers", 80, limits::limits),
    part("large arrays in the engine", 200, limits::large),
    part("engine beside the calculus", 5_000, mirror::mirror),
    part("demand 3", 12_000, demand3::demand3),
    part("NULL for empty buffers", 200, limits::null),
    part("claims in other orders", 20_000, orders::orders),
    part("256 claims", 600, verdicts::crowded),
    part("many senders", 1_000, senders::senders),
    part("mending on small arrays", 30_000, mending::small),
    part("mending on large arrays", 60, mending::large),
    part("mending, many senders", 1_000, mending::senders),
    part("mending, tangled ways", 2_000, mending::tangled),
    part("mending, bits that travel", 150, mending::travels),
    part("mending, the most bits", 1, mending::most_bits),
    part("mending of damaged files", 40_000, damaged::mending),
    part("mending, every byte and length", 60, damaged::every_byte_mended),
];

/// Reads what a generator of valid arrays made.
pub fn read(file: &[u8]) -> Array {
    plain::read_array(file).expect("the generator gives valid arrays")
}

/// The 128 choice bytes of a call.
pub fn choices(random: &mut Random) -> Vec<u8> {
    match random.below(8) {
        0 => vec![0; 128],
        1 => vec![255; 128],
        _ => random.bytes(128),
    }
}

/// Choice bytes that refusal 22 names, once in so many times.
pub fn some_choices(random: &mut Random, once_in: usize) -> Vec<u8> {
    if random.once_in(once_in) {
        let length = random.pick(&[0, 1, 127, 129, 256]);
        random.bytes(length)
    } else {
        choices(random)
    }
}
