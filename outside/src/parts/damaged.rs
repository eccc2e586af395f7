//! Files with faults, for every entry.

use crate::lists::{Lists, Room};
use crate::parts::{read, some_choices};
use crate::run::{Call, Run, Setting};
use crate::watch::{fail, hex};
use crate::{arrays, damage, files, tables};

const ARRAY_FAULTS: [u8; 12] = [1, 2, 3, 4, 5, 6, 7, 8, 9, 10, 11, 12];
const TABLE_FAULTS: [u8; 11] = [13, 14, 15, 16, 17, 18, 19, 20, 21, 30, 31];

/// One or two faults in an array file.
pub fn arrays(run: &mut Run) {
    let file = some_array(run);
    let faults = two(run, &ARRAY_FAULTS);
    let damaged = damage::array(&mut run.random, &file, &faults);
    let array = read(&file.bytes());
    if run.random.once_in(4) {
        let table = tables::accepted(&mut run.random, &array).bytes();
        run.check(&damaged, &table);
    } else {
        engine_call(run, &damaged, &array);
    }
    run.remark(&damaged);
}

/// The array comes before choice bytes, lists and positions, which are wrong now and then.
fn engine_call(run: &mut Run, file: &[u8], array: &plain::Array) {
    let random = &mut run.random;
    let choices = some_choices(random, 4);
    let mut lists = Lists::noise(random, array, Room { threads: 2, markers: 2 });
    lists.thread_count = random.below(4);
    let (receiver, sender) = (random.below(3), random.below(3));
    let calls = [Call::Start, Call::Step { receiver, sender }, Call::Walk { allowed: 3 }];
    let call = random.pick(&calls);
    run.call(Setting { array: file, choices: &choices }, &mut lists, call);
}

/// One or two faults in a table file, now and then one in the array file too.
pub fn tables(run: &mut Run) {
    let file = some_array(run);
    let bytes = file.bytes();
    let table = tables::accepted(&mut run.random, &read(&bytes));
    let faults = two(run, &TABLE_FAULTS);
    let damaged = damage::table(&mut run.random, &table, &faults);
    run.check(&bytes, &damaged);
    if run.random.once_in(16) {
        let faults = two(run, &ARRAY_FAULTS);
        let array = damage::array(&mut run.random, &file, &faults);
        run.check(&array, &damaged);
    }
}

/// One or two faults in an array file or in a table file, now and then in both; outputs of any length.
pub fn mending(run: &mut Run) {
    let file = some_array(run);
    let (mut array, table) = (file.bytes(), tables::accepted(&mut run.random, &read(&file.bytes())));
    let mut bytes = table.bytes();
    let which = run.random.below(8);
    if which < 4 {
        let faults = two(run, &ARRAY_FAULTS);
        array = damage::array(&mut run.random, &file, &faults);
    }
    if which >= 3 {
        let faults = two(run, &TABLE_FAULTS);
        bytes = damage::table(&mut run.random, &table, &faults);
    }
    let lengths = [bytes.len(), bytes.len() + 5, bytes.len().saturating_sub(1), 0];
    let length = run.random.pick(&lengths);
    mend(run, &array, &bytes, length);
}

/// Mends into an output of noise. What `check` refuses is refused alike, before 32, and the noise stays.
fn mend(run: &mut Run, array: &[u8], table: &[u8], length: usize) {
    let noise = run.random.bytes(length);
    let mut output = noise.clone();
    let answer = run.mend(array, table, &mut output);
    let checked = handover::check(array, table);
    let (refused, short) = (handover::refusal(checked).is_some(), length < table.len());
    let right = match (refused, short) {
        (true, _) => answer == checked && output == noise,
        (false, true) => answer == 132 && output == noise,
        (false, false) => handover::code(answer) == 0,
    };
    if !right {
        let files = [("array", hex(array.to_vec())), ("table", hex(table.to_vec()))];
        fail(&format!("check gives {checked:#x}, mend {answer:#x} into {length} bytes"), &files);
    }
    run.tally.other("mending, a refusal before 32", u64::from(refused && short));
}

/// Large ones now and then, as places above 255 lie only there.
fn some_array(run: &mut Run) -> files::ArrayFile {
    if run.random.once_in(500) {
        arrays::large(&mut run.random)
    } else {
        arrays::small(&mut run.random)
    }
}

fn two(run: &mut Run, faults: &[u8]) -> Vec<u8> {
    let count = run.random.between(1, 2);
    (0..count).map(|_| run.random.pick(faults)).collect()
}

/// Two small files that belong together.
fn small_files(run: &mut Run) -> (Vec<u8>, Vec<u8>) {
    loop {
        let array = arrays::small(&mut run.random).bytes();
        let table = tables::accepted(&mut run.random, &read(&array)).bytes();
        if array.len() <= 300 && table.len() <= 600 {
            return (array, table);
        }
    }
}

/// Every byte of two small files changed, with the old and with the new word sum, and every length below the file's.
pub fn every_byte(run: &mut Run) {
    let (array, table) = small_files(run);
    for at in 0..array.len() {
        let mut changed = array.clone();
        changed[at] ^= run.random.between(1, 255) as u8;
        run.check(&changed, &table);
        run.remark(&changed);
        files::repair(&mut changed);
        run.check(&changed, &table);
        run.check(&array[..at], &table);
    }
    for at in 0..table.len() {
        let mut changed = table.clone();
        changed[at] ^= run.random.between(1, 255) as u8;
        run.check(&array, &changed);
        files::repair(&mut changed);
        run.check(&array, &changed);
        run.check(&array, &table[..at]);
    }
}

/// The same for mending, and every length of the output up to the table's and one more.
pub fn every_byte_mended(run: &mut Run) {
    let (array, table) = small_files(run);
    for at in 0..array.len() {
        let mut changed = array.clone();
        changed[at] ^= run.random.between(1, 255) as u8;
        mend(run, &changed, &table, table.len());
        files::repair(&mut changed);
        mend(run, &changed, &table, table.len());
        mend(run, &array[..at], &table, table.len());
    }
    for at in 0..table.len() {
        let mut changed = table.clone();
        changed[at] ^= run.random.between(1, 255) as u8;
        mend(run, &array, &changed, table.len());
        files::repair(&mut changed);
        mend(run, &array, &changed, table.len());
        mend(run, &array, &table[..at], table.len());
    }
    for length in 0..=table.len() + 1 {
        mend(run, &array, &table, length);
    }
}
