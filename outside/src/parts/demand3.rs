//! Demand 3: under an accepted table every configuration met is safe, and a table that a reached configuration breaks
//! is not accepted.

use plain::calculus::{self, Configuration};
use plain::Array;

use crate::claims::MOST_CLAIMS;
use crate::files::{flip_bit, has_bit, Claim, TableFile, MOST, SET};
use crate::parts::{choices, read};
use crate::random::Random;
use crate::run::Run;
use crate::watch::{fail, hex};
use crate::{arrays, order, sets, tables};

const MOST_ATTEMPTS: usize = 24;
const MOST_THREADS: usize = 40;
const WAYS: [&str; 5] = [
    "broken by a row: not accepted",
    "broken by a bound: not accepted",
    "broken by a claim: not accepted",
    "broken by a set's most: not accepted",
    "broken by a set's sum alone: not accepted",
];

pub fn demand3(run: &mut Run) {
    let file = arrays::busy(&mut run.random).bytes();
    let array = read(&file);
    let draft = run.random.pick(&[tables::accepted, tables::accepted, tables::nearly, tables::broken]);
    let table = draft(&mut run.random, &array);
    let bytes = table.bytes();
    if run.check(&file, &bytes) != 0 {
        return;
    }
    let weighs = table.balances.iter().any(|balance| balance.weights.iter().any(|weight| *weight > 0));
    run.tally.other("accepted tables tried", 1);
    run.tally.other("of these with a weight", u64::from(weighs));
    run.tally.other("of these with a set of two agents", u64::from(sets::has_wide(&table.claims)));
    let last = try_attempts(run, &file, &array, &table);
    for (way, name) in WAYS.into_iter().enumerate() {
        if let Some(broken) = break_by(&mut run.random, &table, &last, way) {
            see_broken(run, &file, &array, &broken.bytes(), &last, name);
        }
    }
}

/// Random attempts from a start. Every configuration met must be safe; gives the last one.
fn try_attempts(run: &mut Run, file: &[u8], array: &Array, draft: &TableFile) -> Configuration {
    let table = plain::read_table(file, &draft.bytes()).expect("an accepted table is read");
    let first = choices(&mut run.random);
    let mut met = calculus::begin(array, &|node| has_bit(&first, node));
    for _ in 0..run.random.below(MOST_ATTEMPTS) {
        see_safe(run, file, array, &table, draft, &met);
        let (receiver, sender) = positions(&mut run.random, array, &met);
        let choices = choices(&mut run.random);
        match calculus::attempt(array, &met, receiver, sender, &|node| has_bit(&choices, node)) {
            Ok(next) => {
                met = next;
                run.tally.other("steps of demand 3", 1);
            }
            Err(_) => run.tally.other("attempts of demand 3 refused", 1),
        }
        if met.threads.len() > MOST_THREADS {
            break;
        }
    }
    see_safe(run, file, array, &table, draft, &met);
    met
}

fn see_safe(run: &mut Run, file: &[u8], array: &Array, table: &plain::Table, draft: &TableFile, met: &Configuration) {
    if !calculus::safe(array, table, met) {
        let inputs = [("array", hex(file.to_vec())), ("table", hex(draft.bytes())), ("reached", format!("{met:?}"))];
        fail("an accepted table, and a reached configuration that is not safe", &inputs);
    }
    run.tally.other("configurations of demand 3", 1);
    run.tally.other("of these with a set filled by two agents", u64::from(is_filled(&draft.claims, met)));
}

/// How many threads are of the agent.
fn count(met: &Configuration, agent: usize) -> usize {
    met.threads.iter().filter(|thread| thread.node == agent).count()
}

/// Whether some set has as many threads as it may, and not all of one agent.
fn is_filled(claims: &[Claim], met: &Configuration) -> bool {
    let is_filled = |c: usize| {
        let counts: Vec<usize> = sets::agents(claims, c).into_iter().map(|agent| count(met, agent)).collect();
        let sum: usize = counts.iter().sum();
        sum == usize::from(claims[c][MOST]) && counts.iter().filter(|count| **count > 0).count() > 1
    };
    (0..claims.len()).any(|c| claims[c][SET] != 0 && sets::is_first(claims, c) && is_filled(c))
}

/// Positions of a ready pair mostly, else any, also far out of range.
fn positions(random: &mut Random, array: &Array, met: &Configuration) -> (usize, usize) {
    let mut ready = Vec::new();
    for (i, p) in met.threads.iter().enumerate() {
        for (j, q) in met.threads.iter().enumerate() {
            let (receiver, sender) = (&array.nodes()[p.node], &array.nodes()[q.node]);
            let kinds = receiver.is_receiver() && sender.is_sender() && receiver.arity() == sender.arity();
            if kinds && p.names.get(&receiver.name) == q.names.get(&sender.name) {
                ready.push((i, j));
            }
        }
    }
    match random.any(&ready) {
        Some(pair) if !random.once_in(8) => pair,
        _ => {
            let mut position = || random.pick(&[0, 1, 2, 3, met.threads.len(), usize::MAX]);
            (position(), position())
        }
    }
}

/// The table with one figure changed so that the configuration breaks it; none if it has no such figure.
fn break_by(random: &mut Random, table: &TableFile, met: &Configuration, way: usize) -> Option<TableFile> {
    let mut broken = table.clone();
    let thread = met.threads.get(random.below(met.threads.len().max(1)))?;
    let at = random.below(table.balances.len().max(1));
    match way {
        0 => {
            let names: Vec<usize> = thread.names.keys().copied().collect();
            let name = random.any(&names)?;
            flip_bit(&mut broken.rows[name], thread.names[&name].new);
        }
        1 => {
            let balance = broken.balances.get_mut(at)?;
            let weight: u32 = met.threads.iter().map(|thread| u32::from(balance.weights[thread.node])).sum();
            balance.bound = weight.checked_sub(1)?;
        }
        _ if table.balances.is_empty() => return None,
        2 => {
            let most = count(met, thread.node) - 1;
            add_claims(&mut broken.claims, &[thread.node], [most, at, 0])?;
        }
        3 => lower_set(random, &mut broken.claims, met)?,
        _ => {
            let other = met.threads.iter().find(|other| other.node != thread.node)?.node;
            add_set(&mut broken.claims, met, [thread.node, other], at)?;
        }
    }
    Some(broken)
}

/// Adds a set of two agents, each of which has no more threads than it allows.
fn add_set(claims: &mut Vec<Claim>, met: &Configuration, agents: [usize; 2], balance: usize) -> Option<()> {
    let most = agents.map(|agent| count(met, agent)).iter().sum::<usize>() - 1;
    let unused = (1..).find(|set| claims.iter().all(|claim| usize::from(claim[SET]) != *set))?;
    add_claims(claims, &agents, [most, balance, unused])
}

/// Adds a claim for each agent, with most, balance and set, if there is room. Order is kept.
fn add_claims(claims: &mut Vec<Claim>, agents: &[usize], rest: [usize; 3]) -> Option<()> {
    if claims.len() + agents.len() > MOST_CLAIMS {
        return None;
    }
    for agent in agents {
        let [most, balance, set] = rest.map(|number| number as u16);
        claims.push([*agent as u16, most, balance, set]);
    }
    order::put(claims);
    Some(())
}

/// Takes a set's most below the threads that its agents have.
fn lower_set(random: &mut Random, claims: &mut [Claim], met: &Configuration) -> Option<()> {
    let in_sets: Vec<usize> = (0..claims.len()).filter(|c| claims[*c][SET] != 0).collect();
    let c = random.any(&in_sets)?;
    let sum: usize = sets::agents(claims, c).into_iter().map(|agent| count(met, agent)).sum();
    let most = sum.checked_sub(1)?;
    for d in sets::members(claims, c) {
        claims[d][MOST] = most as u16;
    }
    Some(())
}

fn see_broken(run: &mut Run, file: &[u8], array: &Array, bytes: &[u8], met: &Configuration, way: &'static str) {
    let table = plain::read_table(file, bytes).expect("a broken table is read");
    let answer = run.check(file, bytes);
    if calculus::safe(array, &table, met) || !(1..=5).contains(&handover::code(answer)) {
        let inputs = [("array", hex(file.to_vec())), ("table", hex(bytes.to_vec())), ("reached", format!("{met:?}"))];
        fail(&format!("broken on purpose, but safe, or answered {answer:#x}"), &inputs);
    }
    run.tally.other(way, 1);
}
