//! The proved engine beside the calculus without limits: the same steps leave corresponding threads.

use plain::calculus::{self, Configuration, Marker, Opening, Thread};
use plain::Array;

use crate::arrays;
use crate::files::has_bit;
use crate::lists::{Lists, Room};
use crate::parts::engine::some_step;
use crate::parts::{choices, read};
use crate::run::{Call, Run, Setting};
use crate::watch::{fail, hex};

/// The configuration that lists stand for.
fn configuration(array: &Array, lists: &Lists) -> Configuration {
    let mut markers = vec![Marker::empty()];
    for entry in lists.markers.chunks_exact(4).take(lists.marker_count) {
        let [resource, out, first, second] = [0, 1, 2, 3].map(|i| usize::from(entry[i]));
        markers.push(Marker::new(resource, out, markers[first].clone(), markers[second].clone()));
    }
    let name = |(name, word): (usize, &u32)| {
        let opening = word.checked_sub(1)? as usize;
        Some((name, Opening { new: opening >> 16, marker: markers[opening & 0xffff].clone() }))
    };
    let threads = lists.threads.chunks_exact(2 + array.names()).take(lists.thread_count).map(|words| Thread {
        node: words[0] as usize,
        marker: markers[words[1] as usize].clone(),
        names: words[2..].iter().enumerate().filter_map(name).collect(),
    });
    Configuration { threads: threads.collect() }
}

pub fn mirror(run: &mut Run) {
    let file = arrays::busy(&mut run.random).bytes();
    let array = read(&file);
    let mut lists = Lists::noise(&mut run.random, &array, Room { threads: 256, markers: 40 });
    let first = choices(&mut run.random);
    run.call(Setting { array: &file, choices: &first }, &mut lists, Call::Start);
    let mut limitless = calculus::begin(&array, &|node| has_bit(&first, node));
    same(run, &file, &array, &lists, &limitless);
    for _ in 0..10 {
        let call = some_step(&mut run.random, &array, &lists);
        let Call::Step { receiver, sender } = call else {
            continue;
        };
        let choices = choices(&mut run.random);
        let answer = run.call(Setting { array: &file, choices: &choices }, &mut lists, call);
        let result = calculus::attempt(&array, &limitless, receiver, sender, &|node| has_bit(&choices, node));
        match (handover::refusal(answer), result) {
            // Only the engine has these limits.
            (Some(28 | 29), Ok(_)) => return,
            (None, Ok(next)) => limitless = next,
            (Some(number), Err(other)) if number == other => {}
            (number, other) => {
                let what =
                    format!("{call:?} is refused by {number:?} in the engine, {:?} in the calculus", other.err());
                fail(&what, &[("array", hex(file))])
            }
        }
        same(run, &file, &array, &lists, &limitless);
    }
}

fn same(run: &mut Run, file: &[u8], array: &Array, lists: &Lists, limitless: &Configuration) {
    if configuration(array, lists) != *limitless {
        fail("engine and calculus left different threads", &[("array", hex(file.to_vec()))]);
    }
    run.tally.other("configurations alike in engine and calculus", 1);
    let marked = limitless.threads.iter().any(|thread| thread.marker != Marker::empty());
    run.tally.other("of these with a marker", u64::from(marked));
}
