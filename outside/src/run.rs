//! One call on both sides. The proved side gets its buffers between inaccessible pages.

use handover::Lists as Lent;
use plain::engine;

use crate::files::TableFile;
use crate::guarded::{Region, Side};
use crate::lists::Lists;
use crate::random::Random;
use crate::tally::{Tally, CHECK, MEND, START, STEP, WALK};
use crate::watch::{begin_call, begin_round, fail, hex};
use crate::{order, packed, sets};

pub struct Run {
    pub random: Random,
    pub tally: Tally,
    regions: [Region; 4],
}

/// What the calls of the engine take besides their lists.
#[derive(Clone, Copy)]
pub struct Setting<'a> {
    pub array: &'a [u8],
    pub choices: &'a [u8],
}

#[derive(Clone, Copy, Debug)]
pub enum Call {
    Start,
    Step { receiver: usize, sender: usize },
    Walk { allowed: u32 },
}

impl Call {
    fn entry(self) -> usize {
        match self {
            Call::Start => START,
            Call::Step { .. } => STEP,
            Call::Walk { .. } => WALK,
        }
    }

    /// The plain version's answer, which changes the lists.
    pub fn plain(self, setting: Setting, lists: &mut Lists) -> u64 {
        let Setting { array, choices } = setting;
        let Lists { threads, thread_count, markers, marker_count } = lists;
        let (t, m) = (*thread_count, *marker_count);
        match self {
            Call::Start => packed::started(engine::start(array, choices, threads)),
            Call::Step { receiver, sender } => {
                packed::stepped(engine::step(array, choices, threads, t, markers, m, receiver, sender))
            }
            Call::Walk { allowed } => packed::walked(engine::walk(array, choices, threads, t, markers, m, allowed)),
        }
    }

    /// The proved version's answer, which changes the lists.
    pub fn proved(self, setting: Setting, lent: Lent) -> u64 {
        let Setting { array, choices } = setting;
        match self {
            Call::Start => handover::start(array, choices, lent.threads),
            Call::Step { receiver, sender } => handover::step(array, choices, lent, receiver, sender),
            Call::Walk { allowed } => handover::walk(array, choices, lent, allowed),
        }
    }
}

impl Default for Run {
    fn default() -> Run {
        let regions = std::array::from_fn(|_| Region::new());
        Run { random: Random::of(0, 0, 0), tally: Tally::default(), regions }
    }
}

impl Run {
    pub fn begin(&mut self, seed: u64, part: usize, round: u64) {
        begin_round(seed, part, round);
        self.random = Random::of(seed, part as u64, round);
    }

    fn sides(&mut self) -> [Side; 4] {
        std::array::from_fn(|_| self.random.pick(&[Side::Start, Side::End]))
    }

    pub fn check(&mut self, array: &[u8], table: &[u8]) -> u64 {
        begin_call();
        let expected = packed::verdict(&plain::check(array, table));
        let sides = self.sides();
        let [first, second, ..] = &mut self.regions;
        let (lent_array, lent_table) = (first.place(array, sides[0]), second.place(table, sides[1]));
        let answer = handover::check(lent_array, lent_table);
        if answer != expected || lent_array != array || lent_table != table {
            let what = format!("check gives {answer:#x}, plain {expected:#x}, or a file was changed");
            fail(&what, &[("array", hex(array.to_vec())), ("table", hex(table.to_vec()))]);
        }
        self.tally.add(CHECK, answer);
        self.count_claims(answer, table);
        answer
    }

    /// A table with one of these answers has its parts where its trailer says.
    fn count_claims(&mut self, answer: u64, table: &[u8]) {
        let code = handover::code(answer);
        if [0, 5, 121, 130, 131].contains(&code) {
            let table = TableFile::read(table);
            let place = handover::figures(answer)[0] as usize;
            sets::count(&mut self.tally, code, place, &table);
            order::count(&mut self.tally, code, place, &table.claims);
        }
    }

    /// Mends a table. The answer and every byte of the output are compared; the output is then what the call left.
    pub fn mend(&mut self, array: &[u8], table: &[u8], output: &mut Vec<u8>) -> u64 {
        begin_call();
        let mut after = output.clone();
        let expected = packed::mended(plain::mend(array, table, &mut after));
        let sides = self.sides();
        let [first, second, third, _] = &mut self.regions;
        let (lent_array, lent_table) = (first.place(array, sides[0]), second.place(table, sides[1]));
        let lent_output = third.place(output, sides[2]);
        let answer = handover::mend(lent_array, lent_table, lent_output);
        let same_bytes = *lent_output == *after;
        if answer != expected || !same_bytes || lent_array != array || lent_table != table {
            let what = format!("mend gives {answer:#x}, plain {expected:#x}; same bytes: {same_bytes}");
            let files = [("array", hex(array.to_vec())), ("table", hex(table.to_vec()))];
            let outputs = [("output", hex(output.clone())), ("left", hex(lent_output.to_vec()))];
            fail(&what, &[files, outputs].concat());
        }
        self.tally.add(MEND, answer);
        *output = after;
        answer
    }

    pub fn remark(&mut self, array: &[u8]) {
        begin_call();
        let expected = plain::remark(array).len();
        let sides = self.sides();
        let answer = handover::remark(self.regions[0].place(array, sides[0]));
        if answer != expected {
            fail(&format!("remark gives {answer}, plain {expected}"), &[("array", hex(array.to_vec()))]);
        }
        self.tally.cases += 1;
        self.tally.remarks[usize::from(answer > 0)] += 1;
    }

    /// A call of the engine. Answer and every word of both lists are compared; the lists are then what the call left.
    pub fn call(&mut self, setting: Setting, lists: &mut Lists, call: Call) -> u64 {
        begin_call();
        let mut after = lists.clone();
        let expected = call.plain(setting, &mut after);
        let sides = self.sides();
        let [first, second, third, fourth] = &mut self.regions;
        let array = &*first.place(setting.array, sides[0]);
        let choices = &*second.place(setting.choices, sides[1]);
        let threads = third.place(&lists.threads, sides[2]);
        let markers = fourth.place(&lists.markers, sides[3]);
        let lent = Lent {
            threads: &mut *threads,
            thread_count: lists.thread_count,
            markers: &mut *markers,
            marker_count: lists.marker_count,
        };
        let answer = call.proved(Setting { array, choices }, lent);
        let same_words = *threads == *after.threads && *markers == *after.markers;
        if answer != expected || !same_words || array != setting.array || choices != setting.choices {
            differ(
                &format!("{call:?} gives {answer:#x}, plain {expected:#x}; same words: {same_words}"),
                setting,
                lists,
            );
        }
        self.tally.add(call.entry(), answer);
        if handover::refusal(answer).is_none() {
            (after.thread_count, after.marker_count, _) = handover::counts(answer);
        }
        *lists = after;
        answer
    }
}

/// Reports a call of the engine with the lists as they were before it.
fn differ(what: &str, setting: Setting, lists: &Lists) -> ! {
    let inputs = [
        ("array", hex(setting.array.to_vec())),
        ("choices", hex(setting.choices.to_vec())),
        ("threads", hex(lists.threads.iter().flat_map(|word| word.to_le_bytes()))),
        ("markers", hex(lists.markers.iter().flat_map(|number| number.to_le_bytes()))),
        ("counts", format!("{} {}", lists.thread_count, lists.marker_count)),
    ];
    fail(what, &inputs)
}
