//! The best time of each version on one case.

use crate::loops::Lent;
use crate::versions::{agreed, Case, Version};
use std::hint::black_box;
use std::time::{Duration, Instant};

const WARM_UP: usize = 3;
const LEAST_ROUNDS: usize = 25;
const MOST_ROUNDS: usize = 3000;
const ENOUGH: Duration = Duration::from_millis(1000);

/// What all versions answer, and the best microseconds of each that was timed.
pub struct Measured<const V: usize> {
    pub answer: u64,
    pub best: [f64; V],
}

fn restore(lent: &mut Lent, case: &Case) {
    lent.threads.copy_from_slice(&case.lent.threads);
    lent.markers.copy_from_slice(&case.lent.markers);
    lent.output.copy_from_slice(&case.lent.output);
}

/// Versions take turns, one call each; lists and output are restored before each call, outside its time.
pub fn measure<const V: usize>(case: &Case, versions: &[Version; V]) -> Measured<V> {
    let answer = agreed(case);
    let mut lent = case.lent.clone();
    let mut best = [f64::INFINITY; V];
    let begin = Instant::now();
    for round in 0..WARM_UP + MOST_ROUNDS {
        for (version, best) in versions.iter().zip(&mut best) {
            restore(&mut lent, case);
            let start = Instant::now();
            black_box(version(black_box(case), black_box(&mut lent)));
            let micros = start.elapsed().as_secs_f64() * 1e6;
            if round >= WARM_UP {
                *best = best.min(micros);
            }
        }
        if round >= WARM_UP + LEAST_ROUNDS && begin.elapsed() > ENOUGH {
            break;
        }
    }
    Measured { answer, best }
}
