//! The same claims in any order and with repeats: refused as they lie, judged by the rules once they are in order.

use plain::Array;

use crate::claims::MOST_CLAIMS;
use crate::files::{Claim, TableFile, AGENT, BALANCE};
use crate::parts::read;
use crate::random::Random;
use crate::run::Run;
use crate::watch::{fail, hex};
use crate::{arrays, order, sets, tables};

/// What is said in order of claims that 31 refuses.
const IN_ORDER: [&str; 6] = [
    "31, and held in order",
    "31, and rule 1 in order",
    "31, and rule 2 in order",
    "31, and rule 3 in order",
    "31, and rule 4 in order",
    "31, and rule 5 in order",
];

pub fn orders(run: &mut Run) {
    let file = arrays::busy(&mut run.random).bytes();
    let array = read(&file);
    let draft = run.random.pick(&[tables::accepted, tables::nearly, tables::broken]);
    let mut table = draft(&mut run.random, &array);
    mix(&mut run.random, &mut table.claims);
    if run.random.once_in(8) {
        spoil(&mut run.random, &array, &mut table);
    }
    let mixed = see(run, &file, &array, &table);
    order::put(&mut table.claims);
    let ordered = see(run, &file, &array, &table);
    if handover::refusal(mixed) == Some(31) {
        run.tally.other(IN_ORDER[usize::from(handover::code(ordered))], 1);
    }
}

/// Repeats some claims, and puts all in any order.
fn mix(random: &mut Random, claims: &mut Vec<Claim>) {
    let room = MOST_CLAIMS - claims.len();
    for _ in 0..random.below(4).min(room) {
        claims.extend(random.any(claims));
    }
    random.shuffle(claims);
}

/// Another agent or balance in a claim, which 21 may refuse.
fn spoil(random: &mut Random, array: &Array, table: &mut TableFile) {
    let c = random.below(table.claims.len().max(1));
    let Some(claim) = table.claims.get_mut(c) else { return };
    if random.once_in(2) {
        claim[AGENT] = random.between(0, array.nodes().len()) as u16;
    } else {
        claim[BALANCE] = table.balances.len() as u16;
    }
}

/// The answer of both sides, which must be the one that is due.
fn see(run: &mut Run, file: &[u8], array: &Array, table: &TableFile) -> u64 {
    let due = refused(array, table).unwrap_or_else(|| ruled(run, file, table));
    let bytes = table.bytes();
    let answer = run.check(file, &bytes);
    if answer != due {
        let inputs = [("array", hex(file.to_vec())), ("table", hex(bytes))];
        fail(&format!("check gives {answer:#x}, but {due:#x} is due"), &inputs);
    }
    answer
}

/// 21, 30 and 31, each over all claims before the next.
fn refused(array: &Array, table: &TableFile) -> Option<u64> {
    let (claims, agents) = (&table.claims, tables::agents(array));
    let fits = |claim: &Claim| {
        agents.contains(&usize::from(claim[AGENT])) && usize::from(claim[BALANCE]) < table.balances.len()
    };
    let at = |number: u64, place: Option<usize>| place.map(|place| 100 + number + ((place as u64) << 8));
    None.or_else(|| at(21, claims.iter().position(|claim| !fits(claim))))
        .or_else(|| at(30, (0..claims.len()).find(|c| sets::clashes(claims, *c))))
        .or_else(|| at(31, order::misplaced(claims).next()))
}

/// Rules 1 to 4, which look at no claim; then the set of the first claim that fails alone, by its own first claim.
fn ruled(run: &mut Run, file: &[u8], table: &TableFile) -> u64 {
    let bare = TableFile { claims: Vec::new(), ..table.clone() };
    let answer = run.check(file, &bare.bytes());
    let failing = (0..table.claims.len()).find(|c| !sets::holds_alone(table, *c));
    match failing {
        Some(c) if answer == 0 => 5 + ((sets::members(&table.claims, c)[0] as u64) << 8),
        _ => answer,
    }
}
