//! Starts and steps.

use plain::Array;

use crate::arrays;
use crate::lists::{Lists, Room, WAYS};
use crate::parts::{choices, read, some_choices};
use crate::random::Random;
use crate::run::{Call, Run, Setting};

/// A step: two times in three of a ready pair, else of any positions, also such that only some of their bits would fit.
pub fn some_step(random: &mut Random, array: &Array, lists: &Lists) -> Call {
    let ready = lists.ready(array);
    if let (Some((receiver, sender)), false) = (random.any(&ready), random.once_in(3)) {
        return Call::Step { receiver, sender };
    }
    let count = lists.thread_count;
    let mut position = || match random.below(12) {
        0 => random.pick(&[count, usize::MAX, 1 << 32, 1 << 63, 256]),
        1 => (1 << 32) + random.below(count + 1),
        _ => random.below(count.max(1)),
    };
    Call::Step { receiver: position(), sender: position() }
}

/// Lists from a start, and steps from there.
pub fn reached(run: &mut Run) {
    let random = &mut run.random;
    let file = if random.once_in(4) { arrays::small(random) } else { arrays::busy(random) }.bytes();
    let array = read(&file);
    let room = Room { threads: random.pick(&[0, 1, 2, 3, 4, 6, 10, 40]), markers: random.pick(&[0, 1, 2, 5, 60]) };
    let mut lists = Lists::noise(random, &array, room);
    let first = some_choices(random, 40);
    let steps = random.below(12);
    let answer = run.call(Setting { array: &file, choices: &first }, &mut lists, Call::Start);
    if handover::refusal(answer).is_some() {
        return;
    }
    for _ in 0..steps {
        if lists.ready(&array).is_empty() && run.random.once_in(3) {
            return;
        }
        let call = some_step(&mut run.random, &array, &lists);
        let choices = some_choices(&mut run.random, 40);
        run.call(Setting { array: &file, choices: &choices }, &mut lists, call);
    }
}

/// Well-formed lists with little room, at random.
pub fn unreached(run: &mut Run) {
    let random = &mut run.random;
    let file = arrays::busy(random).bytes();
    let array = read(&file);
    let (threads, markers, spare) = (random.between(0, 6), random.below(5), random.below(4));
    let mut lists = Lists::formed(random, &array, threads, markers, spare);
    for _ in 0..3 {
        let call = some_step(&mut run.random, &array, &lists);
        let choices = choices(&mut run.random);
        run.call(Setting { array: &file, choices: &choices }, &mut lists, call);
    }
}

/// Well-formed lists with one or two faults, for a step or a walk.
pub fn malformed(run: &mut Run) {
    let random = &mut run.random;
    let file = arrays::busy(random).bytes();
    let array = read(&file);
    let (threads, markers, spare) = (random.between(0, 5), random.below(5), random.below(3));
    let mut lists = Lists::formed(random, &array, threads, markers, spare);
    let walk = Call::Walk { allowed: random.below(4) as u32 };
    let call = if random.once_in(2) { some_step(random, &array, &lists) } else { walk };
    // The second fault changes words only, as the first one may have changed the counts.
    let second = random.between(4, WAYS - 1);
    if random.once_in(4) {
        lists.damage(random, &array, second);
    }
    let first = random.below(WAYS);
    lists.damage(random, &array, first);
    let choices = some_choices(random, 12);
    run.call(Setting { array: &file, choices: &choices }, &mut lists, call);
}
