//! The designs of the checker: array and table. Unless a part says otherwise, each has weight 1 for every agent in K
//! balances of bound 2 and 256 claims where K isn't 0 (fewer where agents are too few for one set). All are held, but
//! for `broken` and those for mending; so no version may leave a live pair out, alone or in a set.

mod defeats;
mod fleet;
mod travels;

pub use defeats::{
    defeat, defeat3, defeat_sparse, ended, flooded_spread, within, within_rows, within_sparse, within_spread,
};
pub use fleet::{fleet, fleet_mixed};
pub use travels::{emptied, flooded, mended, own_channels, received_on, sent_on, waves, with_rows};

use crate::files::{array_file, chain, record, table_file, Agent, Balance, Claim, Record, IN, NEW, OUT, PAR};
use outside::order;

pub struct Files {
    pub array: Vec<u8>,
    pub table: Vec<u8>,
    pub nodes: usize,
    pub names: usize,
    pub balances: usize,
}

/// News for the first names, then two chains side by side.
fn two_chains(news: usize, receivers: &[Agent], senders: &[Agent]) -> Vec<Record> {
    let mut records: Vec<Record> = (0..news).map(|name| record(NEW, name + 1, 0, name, &[])).collect();
    records.push(record(PAR, news + 1, news + 2 + receivers.len(), 0, &[]));
    chain(&mut records, receivers);
    chain(&mut records, senders);
    records
}

fn ones(records: &[Record], bound: u32) -> Balance {
    let weights = records.iter().map(|record| u16::from(record.is_agent())).collect();
    Balance { bound, weights }
}

/// The set of each claim.
type Sets = fn(usize) -> u16;

const ALONE: Sets = |_| 0;

fn files(records: &[Record], rows: &[[u64; 4]], balances: &[Balance], set: Sets) -> Files {
    let array = array_file(records, rows.len());
    let table = table_file(&array, rows, balances, claims(records, balances.len(), set));
    Files { array, table, nodes: records.len(), names: rows.len(), balances: balances.len() }
}

/// 256 claims over the agents in turn. An agent that comes again has a lower most where it stands alone; in a set it
/// stands once, so that a set has no more claims than there are agents.
fn claims(records: &[Record], balances: usize, set: Sets) -> Vec<Claim> {
    let agents: Vec<usize> = (0..records.len()).filter(|i| records[*i].is_agent()).collect();
    let count = if balances == 0 { 0 } else { 256 };
    let claim = |c: usize| {
        let set = set(c);
        let again = if set == 0 { c / agents.len() } else { 0 };
        [agents[c % agents.len()] as u16, u16::MAX - again as u16, (c % balances) as u16, set]
    };
    let mut claims: Vec<Claim> = (0..count).map(claim).collect();
    order::put(&mut claims);
    claims
}

fn held(records: &[Record], rows: &[[u64; 4]], balances: usize) -> Files {
    let balances: Vec<Balance> = (0..balances).map(|_| ones(records, 2)).collect();
    files(records, rows, &balances, ALONE)
}

/// A row with one mark.
fn row(name: usize) -> [u64; 4] {
    let mut row = [0; 4];
    row[name / 64] = 1 << (name % 64);
    row
}

/// Half receivers, half senders, arity 0, on one channel.
fn one_channel(nodes: usize) -> Vec<Record> {
    let count = (nodes - 4) / 2;
    let receivers = vec![(IN, 0, vec![]); count];
    let senders = vec![(OUT, 0, vec![]); nodes - 4 - count];
    two_chains(1, &receivers, &senders)
}

/// Every pair is live.
pub fn pairs(nodes: usize, balances: usize) -> Files {
    held(&one_channel(nodes), &[row(0)], balances)
}

/// `pairs` with one balance and with claims in sets.
pub fn sets(nodes: usize, set: Sets) -> Files {
    let records = one_channel(nodes);
    files(&records, &[row(0)], &[ones(&records, 2)], set)
}

/// Agents without arguments on the channels in turn.
fn over_channels(kind: u8, count: usize, channels: usize) -> Vec<Agent> {
    (0..count).map(|i| (kind, i % channels, vec![])).collect()
}

/// Rows of channels that nothing else holds.
fn own_rows(channels: usize) -> Vec<[u64; 4]> {
    (0..channels).map(row).collect()
}

/// `pairs`, but each pair on one of `channels` channels with rows of their own: few pairs are live.
pub fn sparse(nodes: usize, channels: usize, balances: usize) -> Files {
    let room = nodes - 3 - channels;
    let receivers = over_channels(IN, room / 2, channels);
    let senders = over_channels(OUT, room - room / 2, channels);
    held(&two_chains(channels, &receivers, &senders), &own_rows(channels), balances)
}

/// 8 news, then receivers of arity 8 as the names allow, senders of arity 8 that send every parameter in turn, and
/// `last`.
fn of_eight(nodes: usize, names: usize, last: &[Agent]) -> Vec<Record> {
    let count = receivers_of_eight(names);
    let mut records: Vec<Record> = (0..8).map(|name| record(NEW, name + 1, 0, name, &[])).collect();
    let params = |i: usize| (8 * i + 8..8 * i + 16).map(|v| v as u8).collect();
    let sent = |i: usize| (0..8).map(|k| (8 + (8 * i + 5 * k) % (8 * count)) as u8).collect();
    let mut agents: Vec<Agent> = (0..count).map(|i| (IN, 0, params(i))).collect();
    agents.extend((0..nodes - 9 - count - last.len()).map(|i| (OUT, 0, sent(i))));
    agents.extend_from_slice(last);
    chain(&mut records, &agents);
    records
}

fn receivers_of_eight(names: usize) -> usize {
    names / 8 - 1
}

/// All rows are full and every pair is live.
pub fn arguments(nodes: usize, names: usize, balances: usize) -> Files {
    held(&of_eight(nodes, names, &[]), &vec![[255, 0, 0, 0]; names], balances)
}

/// `pairs` with a second channel that no one sends on. Only the last live pair breaks rule 4, in the last
/// balance: there the weights of the receivers fall by one each, and what follows the last sender weighs one
/// more than it.
pub fn broken(nodes: usize, balances: usize) -> Files {
    let count = (nodes - 7) / 2;
    let mut receivers = vec![(IN, 0, vec![]); count];
    let mut senders = vec![(OUT, 0, vec![]); nodes - 7 - count];
    receivers.push((IN, 1, vec![]));
    senders.push((IN, 1, vec![]));
    let records = two_chains(2, &receivers, &senders);
    let mut balances: Vec<Balance> = (0..balances).map(|_| ones(&records, 2)).collect();
    if let Some(last) = balances.last_mut() {
        last.bound = count as u32 + 2;
        (0..count).for_each(|i| last.weights[3 + i] = (count - i) as u16);
        last.weights[records.len() - 2] = 2;
    }
    files(&records, &[row(0), row(1)], &balances, ALONE)
}
