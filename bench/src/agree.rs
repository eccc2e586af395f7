//! The versions, tuned with each filter too, on many broken and odd inputs: whatever one refuses, all must, with the
//! same number, place and words.

use crate::designs::{self, Files};
use crate::loops::{self, Lent, Loaded};
use crate::versions::{agreed, Call, Case};
use outside::files::repair;
use outside::random::Random;
use outside::{arrays, damage, parts, tables};
use std::collections::BTreeSet;

/// Small numbers are as likely as all others together.
fn number(random: &mut Random) -> usize {
    let limit = random.pick(&[3, 10, 300, 70_000]);
    random.below(limit)
}

/// Changes a byte; mostly the word sum is then made right again. The first bytes, where tables with many claims have
/// their weights, are taken more often.
fn change(random: &mut Random, file: &mut Vec<u8>) {
    let end = random.pick(&[file.len(), 100]).min(file.len());
    let at = random.below(end);
    file[at] = number(random) as u8;
    if random.once_in(20) {
        file.truncate(at);
    } else if !random.once_in(20) {
        repair(file);
    }
}

fn small_files() -> Vec<Files> {
    vec![
        designs::pairs(9, 3),
        designs::pairs(20, 17),
        designs::broken(16, 9),
        designs::arguments(30, 24, 2),
        designs::sparse(40, 6, 24),
        designs::pairs(12, 0),
        designs::sets(9, |_| 257),
        designs::sets(12, |c| [0, 1, 257, 1, 256][c % 5]),
        designs::sets(16, |c| 400 - c as u16),
        designs::defeat(20, 3),
        designs::defeat3(30, 24, 2),
        designs::defeat_sparse(40, 6, 2),
        designs::within(20, 3),
        designs::within_spread(60, 9),
        designs::within_sparse(40, 6, 2),
        designs::within_rows(30, 24, 2),
        designs::ended(20, 4),
        designs::fleet(2),
        designs::fleet_mixed(3),
    ]
}

/// Which numbers are among the codes.
fn met(codes: &BTreeSet<u64>, wanted: impl Iterator<Item = u64>) {
    let missing: Vec<u64> = wanted.filter(|code| !codes.contains(code)).collect();
    assert!(missing.is_empty(), "never answered: {missing:?}");
}

/// A check of files with up to two changes.
fn changed(random: &mut Random, files: &Files) -> Case {
    let (array, table) = (files.array.clone(), files.table.clone());
    let mut case = Case { array, table, choices: vec![], lent: Lent::default(), call: Call::Check };
    for _ in 0..random.below(3) {
        if random.below(2) == 0 {
            change(random, &mut case.array);
            rename(&mut case);
        } else {
            change(random, &mut case.table);
        }
        if case.array.len() < 8 || case.table.len() < 28 {
            break;
        }
    }
    case
}

#[test]
fn checks_agree() {
    let mut random = Random::of(1, 0, 0);
    let mut codes = BTreeSet::new();
    let small = small_files();
    for round in 0..200_000 {
        let mut case = changed(&mut random, &small[round % small.len()]);
        codes.insert(agreed(&case) & 0xff);
        case.call = Call::Read;
        agreed(&case);
    }
    met(&codes, (0..=5).chain(101..=121).chain([130, 131]));
}

/// Outputs of the table's length, and one byte longer and shorter.
#[test]
fn mendings_agree() {
    let mut random = Random::of(4, 0, 0);
    let mut codes = BTreeSet::new();
    let mut small: Vec<Files> = small_files().into_iter().map(designs::emptied).collect();
    small.extend(small_files());
    small.extend([designs::sent_on(9), designs::own_channels(9), designs::received_on(9), designs::waves(3, 5)]);
    for round in 0..40_000 {
        let mut case = changed(&mut random, &small[round % small.len()]);
        case.lent.output = vec![number(&mut random) as u8; (case.table.len() + random.below(3)).saturating_sub(1)];
        case.call = Call::Mend;
        let answer = agreed(&case);
        codes.insert(if answer > 0 && answer & 0xff == 0 { 1 } else { answer & 0xff });
    }
    met(&codes, (0..=1).chain(101..=121).chain(130..=132));
}

/// Claims with faults of 21, 30 and 31, alone and together.
#[test]
fn claims_agree() {
    let mut codes = BTreeSet::new();
    for round in 0..20_000 {
        let mut random = Random::of(3, 0, round);
        let array = arrays::busy(&mut random).bytes();
        let table = tables::accepted(&mut random, &parts::read(&array));
        let faults = random.pick(&[&[][..], &[30], &[31], &[30, 31], &[21, 31], &[21, 30, 31]]);
        let table = damage::table(&mut random, &table, faults);
        let case = Case { array, table, choices: vec![], lent: Lent::default(), call: Call::Check };
        codes.insert(agreed(&case) & 0xff);
    }
    met(&codes, [0, 121, 130, 131].into_iter());
}

/// Lets the table name the array's word sum.
fn rename(case: &mut Case) {
    if case.array.len() >= 8 && case.table.len() >= 12 {
        let (from, to) = (case.array.len() - 8, case.table.len() - 12);
        case.table[to..to + 4].copy_from_slice(&case.array[from..from + 4]);
        repair(&mut case.table);
    }
}

fn small_loops() -> Vec<Loaded> {
    vec![
        loops::loops(2, 1, 3),
        loops::loops(3, 0, 80),
        loops::loops(130, 5, 4),
        loops::largest(30, 6),
        loops::largest(256, 4096),
    ]
}

/// Lists as long as the threads and markers in use, and sometimes a few more.
fn cut(random: &mut Random, loaded: &mut Loaded) {
    let lent = &mut loaded.lent;
    if random.below(3) > 0 {
        lent.threads.truncate((lent.thread_count + random.below(3)) * (2 + loaded.names));
    }
    if random.below(3) > 0 {
        lent.markers.truncate(4 * (lent.marker_count + random.below(3)));
    }
}

fn change_lists(random: &mut Random, loaded: &mut Loaded) {
    let last = loaded.array.len() / 16 - 3;
    let lent = &mut loaded.lent;
    match random.below(12) {
        0 => lent.thread_count = number(random),
        1 => lent.marker_count = number(random),
        2 if lent.marker_count > 0 => {
            let at = random.below(4 * lent.marker_count);
            lent.markers[at] = number(random) as u16;
        }
        3 | 4 if lent.thread_count > 0 => {
            let used = lent.threads.len().min(3 * lent.thread_count);
            let at = random.below(used);
            lent.threads[at] = [0, number(random) as u32, lent.threads[random.below(used)]][random.below(3)];
        }
        // In `largest` the last agent has the free names of every other, but no arguments.
        5 => lent.threads[random.below(2) * (2 + loaded.names)] = last as u32,
        _ => {}
    }
}

#[test]
fn engines_agree() {
    let mut random = Random::of(2, 0, 0);
    let mut codes = BTreeSet::new();
    for round in 0..8_000 {
        let mut loaded = small_loops().swap_remove(round % 5);
        cut(&mut random, &mut loaded);
        change_lists(&mut random, &mut loaded);
        let walks = random.below(2) == 0;
        let (receiver, sender) = (number(&mut random) % 1000, random.below(4));
        let allowed = random.below(60) as u32;
        let call = if walks { Call::Walk { allowed } } else { Call::Step { receiver, sender } };
        let choices = vec![number(&mut random) as u8; 128 - usize::from(random.below(40) == 0)];
        let case = Case { array: loaded.array, table: vec![], choices, lent: loaded.lent, call };
        let code = agreed(&case) & 0xff;
        codes.insert(if walks && code < 100 { code + 50 } else { code });
    }
    met(&codes, [0, 50, 51, 52].into_iter().chain(122..=129));
}
