//! The designs of the engine: an array with its lists, ready for a step or a walk.

use crate::files::{array_file, chain, record, stop, Record, IN, NEW, OUT, PAR, RESOURCE};

pub const MARKERS: usize = 4096;

/// The two lists of a configuration and how much of them is in use, and the output of a mending.
#[derive(Clone, Default, PartialEq)]
pub struct Lent {
    pub threads: Vec<u32>,
    pub thread_count: usize,
    pub markers: Vec<u16>,
    pub marker_count: usize,
    pub output: Vec<u8>,
}

pub struct Loaded {
    pub array: Vec<u8>,
    pub names: usize,
    pub lent: Lent,
}

/// News, then `count` sides under a chain of pars; `build` adds side k.
pub fn side_by_side(news: &[usize], count: usize, build: impl Fn(&mut Vec<Record>, usize) -> usize) -> Vec<Record> {
    let new = |(i, name): (usize, &usize)| record(NEW, i + 1, 0, *name, &[]);
    let mut records: Vec<Record> = news.iter().enumerate().map(new).collect();
    let joints = records.len();
    records.resize(joints + count - 1, stop());
    let sides: Vec<usize> = (0..count).map(|k| build(&mut records, k)).collect();
    for k in 0..count - 1 {
        let rest = if k + 2 < count { joints + k + 1 } else { sides[count - 1] };
        records[joints + k] = record(PAR, sides[k], rest, 0, &[]);
    }
    records
}

/// The resource of a loop: new 1, a sender and a receiver that meet three times on it, then a sender that
/// feeds the resource again.
fn resource(records: &mut Vec<Record>) -> usize {
    let first = records.len();
    records.push(record(RESOURCE, first + 1, 0, 0, &[]));
    records.push(record(NEW, first + 2, 0, 1, &[]));
    records.push(stop());
    let left = chain(records, &[1, 1, 1, 0].map(|channel| (OUT, channel, vec![])));
    let right = chain(records, &[1, 1, 1].map(|channel| (IN, channel, vec![])));
    records[first + 2] = record(PAR, left, right, 0, &[]);
    first
}

/// A walk without end: `idle` receivers that no one sends to, then the resource and `feeds` senders to it. A
/// step in four makes a marker. Names from 2 on are there to make threads wide.
pub fn loops(feeds: usize, idle: usize, names: usize) -> Loaded {
    let build = |records: &mut Vec<Record>, k: usize| match k {
        _ if k < idle => chain(records, &[(IN, 2, vec![])]),
        _ if k == idle => resource(records),
        _ => chain(records, &[(OUT, 0, vec![])]),
    };
    let news: Vec<usize> = (0..names).filter(|name| *name != 1).collect();
    let records = side_by_side(&news, idle + 1 + feeds, build);
    started(array_file(&records, names), names, 0)
}

/// 128 senders and 128 receivers in turn, each with one more behind it; the receivers bind 255 names. The
/// last one behind is a resource, so that `marker_count` markers can be listed. The first `thread_count`
/// threads are kept.
pub fn largest(thread_count: usize, marker_count: usize) -> Loaded {
    let build = |records: &mut Vec<Record>, k: usize| match k {
        _ if k.is_multiple_of(2) => chain(records, &vec![(OUT, 0, vec![0]); 2]),
        255 => chain(records, &[(IN, 0, vec![255]), (RESOURCE, 0, vec![])]),
        _ => chain(records, &[(IN, 0, vec![k as u8]), (IN, 0, vec![k as u8 + 1])]),
    };
    let records = side_by_side(&[0], 256, build);
    let out = records.iter().position(|record| record.kind == OUT).unwrap();
    let mut loaded = started(array_file(&records, 256), 256, marker_count);
    for (i, entry) in loaded.lent.markers.chunks_exact_mut(4).take(marker_count).enumerate() {
        entry.copy_from_slice(&[records.len() as u16 - 2, out as u16, i as u16, 0]);
    }
    loaded.lent.thread_count = thread_count;
    loaded
}

/// The start of an array, in lists for 256 threads and 4,096 markers.
fn started(array: Vec<u8>, names: usize, marker_count: usize) -> Loaded {
    let (mut threads, markers) = (vec![0; 256 * (2 + names)], vec![0; 4 * MARKERS]);
    let answer = handover::start(&array, &[0; 128], &mut threads);
    assert_eq!(handover::code(answer), 0, "the start is refused");
    let thread_count = handover::counts(answer).0;
    Loaded { array, names, lent: Lent { threads, thread_count, markers, marker_count, output: vec![] } }
}
