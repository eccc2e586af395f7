//! The versions behind one call. Every answer takes the form of `include/handover.h`.

use crate::loops::Lent;
use crate::tuned::{self, BY_ARITY, BY_CHANNEL, NO_SETS};
use handover::Lists;
use outside::packed;

pub enum Call {
    Read,
    Check,
    Mend,
    Step { receiver: usize, sender: usize },
    Walk { allowed: u32 },
}

/// A call with its input.
pub struct Case {
    pub array: Vec<u8>,
    pub table: Vec<u8>,
    pub choices: Vec<u8>,
    pub lent: Lent,
    pub call: Call,
}

pub type Version = fn(&Case, &mut Lent) -> u64;

pub const VERSIONS: [Version; 3] = [proved, plain, tuned::<NO_SETS>];
/// Tuned has no mending.
pub const BESIDE_PLAIN: [Version; 2] = [proved, plain];
/// Proved and tuned, then tuned with a filter in its check.
pub const FILTERED: [Version; 4] = [proved, tuned::<NO_SETS>, tuned::<BY_ARITY>, tuned::<BY_CHANNEL>];
const EVERY: [Version; 5] = [proved, plain, tuned::<NO_SETS>, tuned::<BY_ARITY>, tuned::<BY_CHANNEL>];

fn lists(lent: &mut Lent) -> Lists<'_> {
    Lists {
        threads: &mut lent.threads,
        thread_count: lent.thread_count,
        markers: &mut lent.markers,
        marker_count: lent.marker_count,
    }
}

fn proved(case: &Case, lent: &mut Lent) -> u64 {
    match case.call {
        Call::Read => handover::remark(&case.array) as u64,
        Call::Check => handover::check(&case.array, &case.table),
        Call::Mend => handover::mend(&case.array, &case.table, &mut lent.output),
        Call::Step { receiver, sender } => handover::step(&case.array, &case.choices, lists(lent), receiver, sender),
        Call::Walk { allowed } => handover::walk(&case.array, &case.choices, lists(lent), allowed),
    }
}

fn tuned<const SETS: usize>(case: &Case, lent: &mut Lent) -> u64 {
    match case.call {
        Call::Read => tuned::remark(&case.array) as u64,
        Call::Check => tuned::check::<SETS>(&case.array, &case.table),
        Call::Mend => unreachable!("tuned has no mending"),
        Call::Step { receiver, sender } => tuned::step(&case.array, &case.choices, lists(lent), receiver, sender),
        Call::Walk { allowed } => tuned::walk(&case.array, &case.choices, lists(lent), allowed),
    }
}

fn plain(case: &Case, lent: &mut Lent) -> u64 {
    match case.call {
        Call::Read => plain::remark(&case.array).len() as u64,
        Call::Check => packed::verdict(&plain::check(&case.array, &case.table)),
        Call::Mend => packed::mended(plain::mend(&case.array, &case.table, &mut lent.output)),
        Call::Step { receiver, sender } => plain_step(case, lists(lent), receiver, sender),
        Call::Walk { allowed } => plain_walk(case, lists(lent), allowed),
    }
}

fn plain_step(case: &Case, l: Lists, receiver: usize, sender: usize) -> u64 {
    let (array, choices) = (&case.array, &case.choices);
    let (threads, markers) = (l.thread_count, l.marker_count);
    packed::stepped(plain::step(array, choices, l.threads, threads, l.markers, markers, receiver, sender))
}

fn plain_walk(case: &Case, l: Lists, allowed: u32) -> u64 {
    let (array, choices) = (&case.array, &case.choices);
    let (threads, markers) = (l.thread_count, l.marker_count);
    packed::walked(plain::walk(array, choices, l.threads, threads, l.markers, markers, allowed))
}

/// The versions that have the call.
fn having(call: &Call) -> &'static [Version] {
    match call {
        Call::Mend => &BESIDE_PLAIN,
        _ => &EVERY,
    }
}

/// The answer that every version gives, each on lists of its own. Panics if answers, words or output bytes differ.
pub fn agreed(case: &Case) -> u64 {
    left(case).0
}

/// The same, with what all versions leave.
pub fn left(case: &Case) -> (u64, Lent) {
    let of = |version: &Version| {
        let mut lent = case.lent.clone();
        (version(case, &mut lent), lent)
    };
    let mut all: Vec<(u64, Lent)> = having(&case.call).iter().map(of).collect();
    let answers: Vec<u64> = all.iter().map(|(answer, _)| *answer).collect();
    assert!(answers.iter().all(|answer| *answer == answers[0]), "answers differ: {answers:x?}");
    assert!(all.iter().all(|(_, lent)| *lent == all[0].1), "words or bytes differ after {:x}", answers[0]);
    all.swap_remove(0)
}
