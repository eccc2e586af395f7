//! The plain version's answers in the numbers of `handover.h`.

use plain::{Counts, Ending, Refusal, Verdict, Walked};

pub fn verdict(verdict: &Verdict) -> u64 {
    match verdict {
        Verdict::Held { .. } => 0,
        Verdict::Rule { number, place } => {
            let figures = place.iter().enumerate().map(|(i, figure)| (*figure as u64) << (8 + 16 * i));
            u64::from(*number) + figures.sum::<u64>()
        }
        Verdict::Refused(refusal) => refused(refusal),
    }
}

pub fn mended(result: Result<usize, Refusal>) -> u64 {
    result.map_or_else(|refusal| refused(&refusal), |bits| (bits as u64) << 8)
}

pub fn started(result: Result<usize, Refusal>) -> u64 {
    result.map_or_else(|refusal| refused(&refusal), |threads| counts(Counts { threads, markers: 0 }))
}

/// A step that is done has made one step.
pub fn stepped(result: Result<Counts, Refusal>) -> u64 {
    result.map_or_else(|refusal| refused(&refusal), |made| counts(made) + (1 << 32))
}

pub fn walked(result: Result<Walked, Refusal>) -> u64 {
    result.map_or_else(|refusal| refused(&refusal), ended)
}

fn ended(walked: Walked) -> u64 {
    let code = match walked.ending {
        Ending::Quiet => 0,
        Ending::Spent => 1,
        Ending::Full => 2,
    };
    code + counts(walked.counts) + (u64::from(walked.steps) << 32)
}

fn counts(counts: Counts) -> u64 {
    ((counts.threads as u64) << 8) + ((counts.markers as u64) << 18)
}

fn refused(refusal: &Refusal) -> u64 {
    100 + u64::from(refusal.number) + ((refusal.place as u64) << 8)
}
