//! The limits of 256 threads and 4,096 markers, arrays up to their limits, and no buffers at all.

use crate::files::{ArrayFile, Record, NEW, OUT, PAR, RESOURCE, STOP};
use crate::guarded::null_answers;
use crate::lists::{Lists, Room};
use crate::parts::engine::some_step;
use crate::parts::{choices, read, some_choices};
use crate::run::{Call, Run, Setting};
use crate::watch::{fail, hex};
use crate::{arrays, packed};

pub fn limits(run: &mut Run) {
    match run.random.below(4) {
        0 | 1 => many_threads(run),
        2 => many_markers(run),
        _ => long_walk(run),
    }
}

/// Starts of about 256 threads, in lists with room for a few more or less.
fn many_threads(run: &mut Run) {
    let random = &mut run.random;
    let threads = random.pick(&[254, 255, 256, 256, 257, 330]);
    let file = arrays::wide(random, threads).bytes();
    let room = Room { threads: random.pick(&[threads - 1, threads, threads + 1, 400]), markers: 3 };
    engine_calls(run, &file, room, 10);
}

/// 4,096 entries, all that fit, in a list with room for some more.
fn many_markers(run: &mut Run) {
    let random = &mut run.random;
    let file = arrays::busy(random).bytes();
    let array = read(&file);
    let markers = random.pick(&[4095, 4096]);
    let mut lists = Lists::formed(random, &array, 6, markers, 3);
    for _ in 0..3 {
        let call = some_step(&mut run.random, &array, &lists);
        let choices = choices(&mut run.random);
        run.call(Setting { array: &file, choices: &choices }, &mut lists, call);
    }
}

/// Array B, whose every step makes a marker, until no more fit.
fn long_walk(run: &mut Run) {
    let node = |kind, left, right| Record { kind, left, right, ..Record::default() };
    let records = vec![
        node(NEW, 1, 0),
        node(PAR, 2, 4),
        node(OUT, 3, 0),
        node(STOP, 0, 0),
        node(RESOURCE, 5, 0),
        node(OUT, 6, 0),
        node(STOP, 0, 0),
    ];
    let file = ArrayFile { remark: Vec::new(), records, names: 1 }.bytes();
    let markers = run.random.pick(&[300, 1000, 4096, 4100]);
    let mut lists = Lists::noise(&mut run.random, &read(&file), Room { threads: 3, markers });
    let setting = Setting { array: &file, choices: &[0; 128] };
    run.call(setting, &mut lists, Call::Start);
    for allowed in [markers as u32 / 2, u32::MAX, u32::MAX] {
        run.call(setting, &mut lists, Call::Walk { allowed });
    }
}

/// Large arrays, of which the first calls are made.
pub fn large(run: &mut Run) {
    let file = arrays::large(&mut run.random).bytes();
    let room = Room { threads: run.random.pick(&[20, 100, 256]), markers: 40 };
    engine_calls(run, &file, room, 3);
}

/// A start, some steps and a walk.
fn engine_calls(run: &mut Run, file: &[u8], room: Room, steps: usize) {
    let array = read(file);
    let mut lists = Lists::noise(&mut run.random, &array, room);
    let choices = choices(&mut run.random);
    let setting = Setting { array: file, choices: &choices };
    run.call(setting, &mut lists, Call::Start);
    for _ in 0..steps {
        let call = some_step(&mut run.random, &array, &lists);
        run.call(setting, &mut lists, call);
    }
    run.call(setting, &mut lists, Call::Walk { allowed: 5 });
    run.remark(file);
}

/// Every entry with NULL where a buffer is empty.
pub fn null(run: &mut Run) {
    let random = &mut run.random;
    let file = if random.once_in(4) { Vec::new() } else { arrays::small(random).bytes() };
    let second = some_choices(random, 2);
    let (count, position) = (random.below(2), random.below(2));
    let (t, m) = (&mut [][..], &mut [][..]);
    let expected = [
        packed::verdict(&plain::check(&file, &second)),
        packed::started(plain::start(&file, &second, t)),
        packed::stepped(plain::step(&file, &second, t, count, m, count, position, position)),
        packed::walked(plain::walk(&file, &second, t, count, m, count, position as u32)),
        packed::mended(plain::mend(&file, &second, &mut [])),
        plain::remark(&file).len() as u64,
    ];
    let answers = null_answers(&file, &second, count, position);
    if answers != expected {
        let inputs = [("array", hex(file)), ("second", hex(second)), ("count", count.to_string())];
        fail(&format!("with NULL: {answers:x?}, plain {expected:x?}"), &inputs);
    }
    for (entry, answer) in answers.into_iter().take(5).enumerate() {
        run.tally.add(entry, answer);
    }
    run.tally.other("calls with NULL", 6);
}
