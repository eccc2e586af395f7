//! Faults in files. The word sum is made right again where a later refusal is meant. What a fault comes to is for the
//! two sides to say.

use crate::claims::NUMBERS;
use crate::files::{repair, ArrayFile, Record, TableFile, CLAIM, IN, NEW, OUT, RECORD, ROW, STOP};
use crate::random::Random;
use crate::{disorder, sets};

/// Writes a 16-bit number that takes any value.
fn put(file: &mut [u8], at: usize, value: usize) {
    file[at..at + 2].copy_from_slice(&(value as u16).to_le_bytes());
}

/// The array file with the faults named, numbers 1 to 12. Each fault of a record is made at up to three nodes.
pub fn array(random: &mut Random, array: &ArrayFile, faults: &[u8]) -> Vec<u8> {
    let array = beyond_array(random, array, faults);
    let mut file = array.bytes();
    for number in 6..=12 {
        if faults.contains(&number) {
            for _ in 0..random.between(1, 3) {
                record_fault(random, &array, &mut file, number);
            }
        }
    }
    finish(random, &mut file, faults, (5, 17_424), array_trailer);
    file
}

/// An array beyond a limit in which all else is right, now and then, where refusal 3 or 4 is wanted.
fn beyond_array(random: &mut Random, array: &ArrayFile, faults: &[u8]) -> ArrayFile {
    let mut array = array.clone();
    if faults.contains(&4) && random.once_in(4) {
        array.remark = vec![0; 1024 + 4 * random.between(1, 3)];
    }
    if faults.contains(&3) && random.once_in(8) {
        array.records.resize(1025, Record::default());
    }
    array
}

/// Faults 3 and 4.
fn array_trailer(random: &mut Random, file: &mut Vec<u8>, faults: &[u8]) {
    let trailer = file.len() - 16;
    if faults.contains(&3) {
        match random.below(4) {
            0 => put(file, trailer + 4, 0),
            1 => put(file, trailer + 4, random.between(1025, 65_535)),
            2 => put(file, trailer + 6, random.between(257, 65_535)),
            _ => {}
        }
    }
    if faults.contains(&4) {
        match random.below(5) {
            0 => put(file, trailer, random.pick(&[4, 12, 16, 1024, 1028, 65_520])),
            1 => file[trailer + 2 + random.below(2)] = random.byte(),
            2 => put(file, trailer + 4, random.between(1, 1024)),
            3 => drop(file.splice(trailer..trailer, [0; 4])),
            _ => {}
        }
    }
}

/// What stands at a file's end. `sum` is the refusal of a wrong word sum; the letters and the length are refused by
/// 3 and 4 numbers less.
fn finish(
    random: &mut Random,
    file: &mut Vec<u8>,
    faults: &[u8],
    (sum, longest): (u8, usize),
    change_trailer: fn(&mut Random, &mut Vec<u8>, &[u8]),
) {
    repair(file);
    if faults.contains(&sum) {
        let at = random.below(file.len() - 4);
        file[at] ^= 1 << random.below(8);
    }
    change_trailer(random, file, faults);
    if random.once_in(2) && !faults.contains(&sum) {
        repair(file);
    }
    ends(random, file, faults, sum - 4, longest);
}

/// Faults 1 and 2 of an array or 13 and 14 of a table: the length and the letters.
fn ends(random: &mut Random, file: &mut Vec<u8>, faults: &[u8], first: u8, longest: usize) {
    if faults.contains(&(first + 1)) {
        let at = file.len() - 1 - random.below(4);
        file[at] ^= 1 << random.below(8);
    }
    if faults.contains(&first) {
        match random.below(4) {
            0 => file.truncate(random.below(file.len())),
            1 => drop(file.drain(..random.below(file.len()))),
            2 => file.extend(vec![0; random.between(1, 7)]),
            _ => {
                let more = (longest + 4 * random.between(0, 2)).saturating_sub(file.len());
                file.splice(0..0, vec![0; more]);
            }
        }
    }
}

/// One fault of refusals 6 to 12 at a random node, if one has room for it.
fn record_fault(random: &mut Random, array: &ArrayFile, file: &mut [u8], number: u8) {
    let nodes = match number {
        8 | 9 => array.nodes(|record| record.kind != STOP),
        10 => array.nodes(|record| record.is_agent() || record.kind == NEW),
        11 => array.nodes(|record| record.kind == NEW || record.kind >= IN && !record.arguments.is_empty()),
        12 => array.nodes(|record| record.is_agent()),
        _ => array.nodes(|_| true),
    };
    let Some(i) = random.any(&nodes) else { return };
    let at = array.remark.len() + RECORD * i;
    let count = array.records.len();
    let child = at + if array.records[i].has_right() { random.pick(&[2, 4]) } else { 2 };
    match number {
        6 if random.once_in(3) => file[at] = random.between(7, 255) as u8,
        6 if array.records[i].is_agent() => file[at + 1] = random.between(9, 255) as u8,
        6 => file[at + 1] = random.between(1, 255) as u8,
        7 => unused_fault(random, array, file, i),
        8 if random.once_in(2) => put(file, child, random.below(i + 1)),
        8 => put(file, child, random.pick(&[count, count + 1, 65_535])),
        9 if i + 1 < count => put(file, child, random.between(i + 1, count - 1)),
        11 if random.once_in(4) => put(file, array.remark.len() + RECORD * count + 6, array.names + 1),
        _ => name_fault(random, array, file, i, number),
    }
}

/// A bit in a field that the node's kind does not use.
fn unused_fault(random: &mut Random, array: &ArrayFile, file: &mut [u8], i: usize) {
    let record = &array.records[i];
    let uses_name = record.is_agent() || record.kind == NEW;
    let used = |byte: usize| match byte {
        2 | 3 => record.kind != STOP,
        4 | 5 => record.has_right(),
        6 => uses_name,
        7 => false,
        _ => byte < 8 + record.arguments.len(),
    };
    let unused: Vec<usize> = (2..RECORD).filter(|byte| !used(*byte)).collect();
    let at = array.remark.len() + RECORD * i + random.pick(&unused);
    file[at] |= 1 << random.below(8);
}

/// Another name in one of the node's fields: not below N for 10, in a binder for 11, in a use for 12.
fn name_fault(random: &mut Random, array: &ArrayFile, file: &mut [u8], i: usize, number: u8) {
    let record = &array.records[i];
    let arguments = 8..8 + record.arguments.len();
    let fields: Vec<usize> = match (number, record.kind) {
        (11, NEW) => vec![6],
        (11, _) => arguments.collect(),
        (12, kind) if kind != OUT => vec![6],
        _ => std::iter::once(6).chain(arguments).collect(),
    };
    let Some(field) = random.any(&fields) else { return };
    let at = array.remark.len() + RECORD * i + field;
    let name = match number {
        10 if array.names < 256 => random.between(array.names, 255),
        _ if array.names > 0 => random.below(array.names),
        _ => 0,
    };
    file[at] = name as u8;
}

/// The table file with the faults named, numbers 13 to 21, 30 and 31. Each fault of a part is made up to three times.
pub fn table(random: &mut Random, table: &TableFile, faults: &[u8]) -> Vec<u8> {
    let mut table = beyond_table(random, table, faults);
    if faults.contains(&31) {
        for _ in 0..random.between(1, 3) {
            disorder::fault(random, &mut table);
        }
    }
    let mut file = table.bytes();
    for number in [19, 20, 21, 30] {
        if faults.contains(&number) {
            for _ in 0..random.between(1, 3) {
                part_fault(random, &table, &mut file, number);
            }
        }
    }
    if faults.contains(&18) {
        let sum = file.len() - 12;
        file[sum + random.below(4)] ^= 1 << random.below(8);
    }
    finish(random, &mut file, faults, (17, 59_516), table_trailer);
    file
}

/// A table beyond a limit in which all else is right, now and then, where refusal 15 is wanted.
fn beyond_table(random: &mut Random, table: &TableFile, faults: &[u8]) -> TableFile {
    let mut table = table.clone();
    if faults.contains(&15) && random.once_in(4) {
        if let (Some(balance), true) = (table.balances.first().cloned(), random.once_in(2)) {
            table.balances.resize(25, balance);
        } else if let Some(claim) = table.claims.first().copied() {
            // Each of a set of its own, in order.
            table.claims = (1..=257).map(|set| [claim[0], claim[1], claim[2], set]).collect();
        }
    }
    table
}

/// Faults 15 and 16.
fn table_trailer(random: &mut Random, file: &mut Vec<u8>, faults: &[u8]) {
    let trailer = file.len() - 28;
    if faults.contains(&15) && !random.once_in(3) {
        let (at, low) = random.pick(&[(12, 25), (14, 257)]);
        put(file, trailer + at, random.pick(&[low, low + 1, 65_535]));
    }
    if faults.contains(&16) {
        match random.below(4) {
            0 => put(file, trailer + 2 * random.below(6), random.pick(&[0, 1, 4, 32, 65_535])),
            1 => put(file, trailer + 12, random.below(25)),
            2 => put(file, trailer + 14, random.below(257)),
            _ => drop(file.splice(trailer..trailer, [0; 4])),
        }
    }
}

/// One fault of refusals 19 to 21 or 30, if the table has the part. Bits are set at random places, also where they may
/// be.
fn part_fault(random: &mut Random, table: &TableFile, file: &mut [u8], number: u8) {
    let balances = ROW * table.rows.len();
    let nodes = table.balances.first().map_or(0, |balance| balance.weights.len());
    let length = 4 + (2 * nodes).next_multiple_of(4);
    let claims = balances + length * table.balances.len();
    match number {
        19 if balances > 0 => {
            let at = ROW * random.below(table.rows.len());
            file[at + random.pick(&[0, 0, 1, 31, last_byte(table)])] |= 1 << random.below(8);
        }
        20 if nodes > 0 => {
            let at = balances + length * random.below(table.balances.len());
            file[at + 4 + random.below(length - 4)] |= 1 << random.below(8);
        }
        21 if !table.claims.is_empty() => {
            let c = random.below(table.claims.len());
            claim_fault(random, table, &mut file[claims + CLAIM * c..]);
        }
        30 if table.claims.len() > 1 => set_fault(random, table, &mut file[claims..]),
        _ => {}
    }
}

/// Another agent or balance in the claim that the bytes begin with.
fn claim_fault(random: &mut Random, table: &TableFile, claim: &mut [u8]) {
    let nodes = table.balances.first().map_or(0, |balance| balance.weights.len());
    match random.below(3) {
        0 => put(claim, 0, random.below(nodes)),
        1 => put(claim, 0, random.pick(&[nodes, nodes + 1, 65_535])),
        _ => put(claim, 4, random.pick(&[table.balances.len(), 24, 65_535])),
    }
}

/// Another most or balance in a later claim of a set. Now and then a claim from there on has a fault of 21, which goes
/// first.
fn set_fault(random: &mut Random, table: &TableFile, claims: &mut [u8]) {
    let count = table.claims.len();
    let later: Vec<usize> = (1..count).filter(|c| !sets::is_first(&table.claims, *c)).collect();
    let c = random.any(&later).unwrap_or_else(|| join(random, count, claims));
    let claim = &mut claims[CLAIM * c..];
    let balances = table.balances.len();
    if balances > 1 && random.once_in(2) {
        let other = usize::from(table.claims[c][2]) + random.between(1, balances - 1);
        put(claim, 4, other % balances);
    } else {
        claim[2 + random.below(2)] ^= 1 << random.below(8);
    }
    if random.once_in(4) {
        let d = random.between(c, count - 1);
        claim_fault(random, table, &mut claims[CLAIM * d..]);
    }
}

/// Makes a set of two claims; gives the later one.
fn join(random: &mut Random, count: usize, claims: &mut [u8]) -> usize {
    let c = random.between(1, count - 1);
    let (d, set) = (random.below(c), random.pick(&NUMBERS));
    for claim in [c, d] {
        put(claims, CLAIM * claim + 6, set.into());
    }
    c
}

/// The byte of a row that has the last name's bit.
fn last_byte(table: &TableFile) -> usize {
    (table.rows.len() - 1) / 8
}
