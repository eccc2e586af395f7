//! Mending: tables of all sorts with their rows changed, outputs of several lengths, and designs in which bits travel.

use plain::Array;

use crate::files::{self, TableFile};
use crate::mended::{self, Case, Smallest};
use crate::parts::read;
use crate::run::Run;
use crate::travels::{self, Travel};
use crate::watch::{fail, hex};
use crate::{arrays, balanced, changes, many_senders, tables, tangled, thinned};

pub fn small(run: &mut Run) {
    let file = if run.random.once_in(2) { arrays::small(&mut run.random) } else { arrays::busy(&mut run.random) };
    any_table(run, &file.bytes());
}

/// Arrays of any size up to the limits; every other table is as long as it can be.
pub fn large(run: &mut Run) {
    let file = arrays::large(&mut run.random).bytes();
    if run.random.once_in(2) {
        return any_table(run, &file);
    }
    let array = read(&file);
    let table = tables::full(&mut run.random, &array);
    run.tally.other("mending, longest tables", u64::from(table.bytes().len() == 59_516));
    changed(run, &file, &array, table);
}

fn any_table(run: &mut Run, file: &[u8]) {
    let array = read(file);
    let draft = run.random.pick(&[tables::accepted, tables::nearly, tables::broken]);
    let table = draft(&mut run.random, &array);
    changed(run, file, &array, table);
}

/// Many senders, and pairs that are ended by a balance alone.
pub fn senders(run: &mut Run) {
    let file = many_senders::array(&mut run.random).bytes();
    let array = read(&file);
    let mut table = balanced::draft(&mut run.random, &array);
    if run.random.once_in(2) {
        changes::change(&mut run.random, &array, &mut table);
    }
    changed(run, &file, &array, table);
}

/// Bits that take many ways, from rows that are empty or were mended.
pub fn tangled(run: &mut Run) {
    let file = tangled::array(&mut run.random).bytes();
    let array = read(&file);
    let mut table = tangled::table(&mut run.random, &array);
    if run.random.once_in(2) {
        table.rows = Smallest::of(&array, &table).rows;
    }
    let rounds = changed(run, &file, &array, table).map_or(0, |smallest| smallest.rounds);
    run.tally.other("mending, tangled, more rounds than ten", u64::from(rounds > 10));
}

fn changed(run: &mut Run, file: &[u8], array: &Array, mut table: TableFile) -> Option<Smallest> {
    let sort = thinned::change(&mut run.random, array, &mut table.rows);
    run.tally.other(sort, 1);
    see(run, file, array, &table)
}

/// Designs in which bits travel, with names in any order. What mending sets is known.
pub fn travels(run: &mut Run) {
    let part = run.random.pick(&[1, 2, 5, 8, 16, 40, 127]);
    let Travel { array: mut file, mut table, bits, rounds } = travels::any(&mut run.random, part);
    if run.random.once_in(2) {
        arrays::mix_names(&mut run.random, &mut file.records, file.names);
    }
    let bytes = file.bytes();
    let array = read(&bytes);
    table.array_sum = array.sum();
    let smallest = see(run, &bytes, &array, &table).expect("the designs are read");
    let set = mended::bits_set(&table.rows, &smallest.rows).len();
    if (set, smallest.rounds) != (bits, rounds) {
        let what = format!("{set} bits in {} rounds, but {bits} in {rounds} are due", smallest.rounds);
        report(&what, &bytes, &table.bytes());
    }
}

/// All rows empty where each new is sent to every parameter.
pub fn most_bits(run: &mut Run) {
    let file = arrays::flooded().bytes();
    let array = read(&file);
    let table =
        TableFile { rows: vec![[0; files::ROW]; array.names()], array_sum: array.sum(), ..TableFile::default() };
    see(run, &file, &array, &table);
}

/// Mends a table on both sides, into outputs of several lengths, and sees that it is what is promised. Gives the rows
/// that are due, none if the table is refused.
fn see(run: &mut Run, file: &[u8], array: &Array, table: &TableFile) -> Option<Smallest> {
    let given = table.bytes();
    let before = run.check(file, &given);
    let (answer, mended) = written(run, file, &given);
    if handover::refusal(before).is_some() {
        if answer != before {
            report(&format!("check gives {before:#x}, mend {answer:#x}"), file, &given);
        }
        return None;
    }
    let smallest = Smallest::of(array, table);
    if let Some(what) = mended::fault(array.names(), &given, &mended, handover::bits(answer), &smallest) {
        report(what, file, &given);
    }
    too_short(run, file, &given, answer == 0);
    let after = run.check(file, &mended);
    if ![0, 2, 4, 5].contains(&handover::code(after)) {
        report(&format!("check gives {after:#x} after mending"), file, &given);
    }
    same_again(run, file, &mended, &mended, 0);
    one_less(run, file, table, &mended, after);
    Case { array, given: table, smallest: &smallest, before, after }.count(&mut run.tally);
    Some(smallest)
}

fn report(what: &str, file: &[u8], table: &[u8]) -> ! {
    fail(what, &[("array", hex(file.to_vec())), ("table", hex(table.to_vec()))])
}

/// The answer for an output that is as long as the table or longer, and the output's first bytes.
fn written(run: &mut Run, file: &[u8], table: &[u8]) -> (u64, Vec<u8>) {
    let more = if run.random.once_in(2) { 0 } else { run.random.between(1, 40) };
    let mut output = run.random.bytes(table.len() + more);
    let past = output[table.len()..].to_vec();
    let answer = run.mend(file, table, &mut output);
    if output[table.len()..] != past {
        report("a byte past the table changed", file, table);
    }
    let what = if more == 0 { "mending, output just as long" } else { "mending, output longer" };
    run.tally.other(what, 1);
    output.truncate(table.len());
    (answer, output)
}

/// An output that lacks a byte, or more.
fn too_short(run: &mut Run, file: &[u8], table: &[u8], complete: bool) {
    let any = run.random.below(table.len());
    let length = run.random.pick(&[table.len() - 1, table.len() - 1, any, 0]);
    let noise = run.random.bytes(length);
    let mut output = noise.clone();
    let answer = run.mend(file, table, &mut output);
    if answer != 132 || output != noise {
        report(&format!("mend gives {answer:#x} for an output of {length} bytes"), file, table);
    }
    let said = [
        ("32 by one byte", length == table.len() - 1),
        ("32 without output", length == 0),
        ("32 where no bit is missing", complete),
        ("32 where bits are missing", !complete),
    ];
    said.into_iter().for_each(|(what, is)| run.tally.other(what, is.into()));
}

/// Mending sets so many bits and gives the table that is due.
fn same_again(run: &mut Run, file: &[u8], table: &[u8], due: &[u8], bits: usize) {
    let mut output = run.random.bytes(table.len());
    let answer = run.mend(file, table, &mut output);
    if handover::refusal(answer).is_some() || handover::bits(answer) != bits || output != due {
        report(&format!("mend gives {answer:#x}, or another table than is due"), file, table);
    }
}

/// Without a bit that was set, the mended table breaks rule 1 or 3, unless rule 2 is named first, and is mended by it.
fn one_less(run: &mut Run, file: &[u8], given: &TableFile, mended: &[u8], after: u64) {
    let table = TableFile::read(mended);
    let Some(bit) = run.random.any(&mended::bits_set(&given.rows, &table.rows)) else { return };
    let less = mended::without(mended, bit);
    let code = handover::code(run.check(file, &less));
    match code {
        1 => run.tally.other("mending, one bit less breaks rule 1", 1),
        3 => run.tally.other("mending, one bit less breaks rule 3", 1),
        2 if handover::code(after) == 2 => {}
        _ => report("a bit was set that rules 1 and 3 do not ask for", file, &given.bytes()),
    }
    same_again(run, file, &less, mended, 1);
}
