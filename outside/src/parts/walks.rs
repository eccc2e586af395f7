//! Walks, from starts and from lists that no start reached.

use crate::arrays;
use crate::lists::{Lists, Room};
use crate::parts::{choices, read, some_choices};
use crate::run::{Call, Run, Setting};

pub fn walks(run: &mut Run) {
    let random = &mut run.random;
    let file = arrays::busy(random).bytes();
    let array = read(&file);
    let first = choices(random);
    let mut lists = if random.once_in(3) {
        let (threads, markers, spare) = (random.between(0, 8), random.below(5), random.between(0, 30));
        Lists::formed(random, &array, threads, markers, spare)
    } else {
        let room = Room { threads: random.pick(&[2, 4, 8, 30, 256]), markers: random.pick(&[0, 1, 3, 20, 100]) };
        let mut lists = Lists::noise(random, &array, room);
        run.call(Setting { array: &file, choices: &first }, &mut lists, Call::Start);
        lists
    };
    for _ in 0..2 {
        let allowed = run.random.pick(&[0, 1, 2, 3, 8, 30, 60]);
        let choices = some_choices(&mut run.random, 40);
        run.call(Setting { array: &file, choices: &choices }, &mut lists, Call::Walk { allowed });
    }
}
