//! Designs in which every receiver, but one that a stop follows, has senders that would break a rule with it if the
//! pair were live: what a set of senders needs or sends together decides nothing. In `defeat`, `defeat3` and
//! `defeat_sparse`, which are those of the trial, all bounds are 2 and such a sender is above the bound alone; in
//! `defeat_sparse` only the first channel has some. In the others all bounds are 3 and it is within the bound alone. All
//! are held but `flooded_spread`, of which this is said of the mended table.

use super::{files, of_eight, ones, over_channels, own_rows, receivers_of_eight, two_chains, Files, ALONE};
use crate::files::{Agent, Balance, Record, IN, OUT};
use std::iter::repeat_n;

/// What an agent weighs in even balances and in odd ones.
type Weights = [u16; 2];

type Weighed = (Agent, Weights);

const RECEIVER: Weights = [2, 2];
const SENDER: Weights = [1, 1];
/// Heavy senders in turn. Each is within the bound alone and above it with any receiver, so that it is in no live pair.
/// Where one follows another, the first needs one more than a receiver gives, in even balances or in odd ones.
const HEAVY: [Weights; 2] = [[2, 3], [3, 2]];

/// The weights are those of the agents in order.
fn weighed(records: &[Record], rows: &[[u64; 4]], weights: &[Weights], balances: usize) -> Files {
    let balance = |k: usize| {
        let mut weights = weights.iter().map(|weight| weight[k % 2]);
        let weigh = |record: &Record| if record.is_agent() { weights.next().expect("a weight") } else { 0 };
        Balance { bound: 3, weights: records.iter().map(weigh).collect() }
    };
    let balances: Vec<Balance> = (0..balances).map(balance).collect();
    files(records, rows, &balances, ALONE)
}

/// Two chains over channels with rows of their own.
fn weighed_chains(channels: usize, receivers: Vec<Weighed>, senders: Vec<Weighed>, balances: usize) -> Files {
    let (receivers, mut weights): (Vec<Agent>, Vec<Weights>) = receivers.into_iter().unzip();
    let (senders, of_senders): (Vec<Agent>, Vec<Weights>) = senders.into_iter().unzip();
    weights.extend(of_senders);
    weighed(&two_chains(channels, &receivers, &senders), &own_rows(channels), &weights, balances)
}

fn all_weigh(weights: Weights, agents: Vec<Agent>) -> Vec<Weighed> {
    agents.into_iter().map(|agent| (agent, weights)).collect()
}

/// Heavy senders on the channels, behind a receiver on `idle` that no one sends to: so none follows a live sender.
fn heavy(idle: usize, channels: impl IntoIterator<Item = usize>) -> Vec<Weighed> {
    let mut agents = vec![((IN, idle, vec![]), SENDER)];
    agents.extend(channels.into_iter().enumerate().map(|(i, channel)| ((OUT, channel, vec![]), HEAVY[i % 2])));
    agents
}

/// Weight 1 for every agent but the last ones, bound 2.
fn last_weigh(records: &[Record], rows: &[[u64; 4]], last: &[u16], balances: usize) -> Files {
    let mut balance = ones(records, 2);
    let agents = records.len() - 1;
    balance.weights[agents - last.len()..agents].copy_from_slice(last);
    files(records, rows, &vec![balance; balances], ALONE)
}

/// Two chains with two senders on the first channel at the end, behind a receiver on the last one, which no one sends
/// to. What the first of the two needs is more than any receiver gives.
fn above_bounds(channels: usize, receivers: usize, senders: usize, balances: usize) -> Files {
    let used = channels - 1;
    let mut after = over_channels(OUT, senders, used);
    after.extend([(IN, used, vec![]), (OUT, 0, vec![]), (OUT, 0, vec![])]);
    let records = two_chains(channels, &over_channels(IN, receivers, used), &after);
    last_weigh(&records, &own_rows(channels), &[3, 5], balances)
}

/// `pairs` with such senders.
pub fn defeat(nodes: usize, balances: usize) -> Files {
    let receivers = (nodes - 8) / 2;
    above_bounds(2, receivers, nodes - 8 - receivers, balances)
}

/// `sparse` with such senders.
pub fn defeat_sparse(nodes: usize, channels: usize, balances: usize) -> Files {
    let room = nodes - 6 - channels;
    above_bounds(channels, room / 2, room - room / 2, balances)
}

/// `arguments`, but the last sender weighs 3 and sends a channel that no parameter holds.
pub fn defeat3(nodes: usize, names: usize, balances: usize) -> Files {
    last_weigh(&with_a_strange_name(nodes, names), &all_but_one(names), &[3], balances)
}

/// `pairs` with two heavy senders at the end.
pub fn within(nodes: usize, balances: usize) -> Files {
    heavy_after(nodes / 2 - 5, nodes, balances)
}

/// `pairs` with two heavy senders after every eighth sender.
pub fn within_spread(nodes: usize, balances: usize) -> Files {
    heavy_after(8, nodes, balances)
}

fn heavy_after(every: usize, nodes: usize, balances: usize) -> Files {
    let count = (nodes - 5) / 2;
    let receivers = all_weigh(RECEIVER, over_channels(IN, count, 1));
    let mut part = all_weigh(SENDER, over_channels(OUT, every, 1));
    part.extend(heavy(1, [0, 0]));
    let senders = part.into_iter().cycle().take(nodes - 5 - count).collect();
    weighed_chains(2, receivers, senders, balances)
}

/// `sparse` with a heavy sender on every channel at the end; the last channel is the idle one.
pub fn within_sparse(nodes: usize, channels: usize, balances: usize) -> Files {
    let idle = channels - 1;
    let heavy = heavy(idle, (0..idle).chain([0]));
    let room = nodes - 3 - channels - heavy.len();
    let receivers = all_weigh(RECEIVER, over_channels(IN, room / 2, idle));
    let mut senders = all_weigh(SENDER, over_channels(OUT, room - room / 2, idle));
    senders.extend(heavy);
    weighed_chains(channels, receivers, senders, balances)
}

/// `arguments`, with a last sender of channel 7.
fn with_a_strange_name(nodes: usize, names: usize) -> Vec<Record> {
    of_eight(nodes, names, &[(IN, 0, vec![]), (OUT, 0, vec![7; 8])])
}

/// The parameters hold all channels but channel 7.
fn all_but_one(names: usize) -> Vec<[u64; 4]> {
    (0..names).map(|v| [if v < 8 { 255 } else { 127 }, 0, 0, 0]).collect()
}

/// `arguments`, but the last sender is heavy and sends a channel that no parameter holds.
pub fn within_rows(nodes: usize, names: usize, balances: usize) -> Files {
    let records = with_a_strange_name(nodes, names);
    let receivers = receivers_of_eight(names);
    let mut weights = vec![SENDER; nodes - 9];
    weights[..receivers].fill(RECEIVER);
    weights[nodes - 10] = HEAVY[0];
    weighed(&records, &all_but_one(names), &weights, balances)
}

/// `flooded` by agents of that arity, all rows empty, with a heavy sender after every seventh that sends a channel which
/// no parameter gets.
pub fn flooded_spread(arity: usize, balances: usize) -> Files {
    let (channel, idle, news) = (0, 1, 128);
    let sent = |i: usize| (0..arity).map(|k| (2 + (i + k) % (news - 2)) as u8).collect();
    let params = |i: usize| (0..arity).map(|k| (news + arity * i + k) as u8).collect();
    let receivers: Vec<Agent> = (0..news / arity).map(|i| (IN, channel, params(i))).collect();
    let mut senders = vec![];
    for i in 0..news {
        senders.push(((OUT, channel, sent(i)), SENDER));
        if i % 7 == 6 {
            senders.push(((IN, idle, vec![]), SENDER));
            senders.push(((OUT, channel, vec![channel as u8; arity]), HEAVY[i / 7 % 2]));
        }
    }
    let (senders, of_senders): (Vec<Agent>, Vec<Weights>) = senders.into_iter().unzip();
    let weights = [vec![RECEIVER; receivers.len()], of_senders].concat();
    weighed(&two_chains(news, &receivers, &senders), &[[0; 4]; 256], &weights, balances)
}

/// `pairs`, but weights 1 and 2 take turns. Every second pair weighs 4 in half of the balances, and just these pairs
/// would break rule 4 in the other half.
pub fn ended(nodes: usize, balances: usize) -> Files {
    let count = (nodes - 5) / 2;
    weighed_chains(2, in_turn(IN, count, 0), in_turn(OUT, nodes - 5 - count, 1), balances)
}

/// A chain of which an idle receiver is the end.
fn in_turn(kind: u8, count: usize, turn: usize) -> Vec<Weighed> {
    let agents = repeat_n((kind, 0, vec![]), count - 1).chain([(IN, 1, vec![])]);
    agents.enumerate().map(|(i, agent)| (agent, [[1, 2], [2, 1]][(turn + i) % 2])).collect()
}

#[cfg(test)]
mod tests {
    use super::super::mended;
    use super::*;
    use outside::files::TableFile;
    use plain::rules::{live, loads};
    use plain::Kind;

    /// A receiver and a sender of its arity on channels that share a bit.
    struct Pair {
        p: usize,
        channel: usize,
        live: bool,
        /// It would break a rule if it were live.
        breaks: bool,
    }

    /// By receiver, then by sender; without receivers that a stop follows.
    fn pairs(files: &Files) -> Vec<Pair> {
        let array = plain::read_array(&files.array).unwrap();
        let table = plain::read_table(&files.array, &files.table).unwrap();
        let loads: Vec<Vec<u64>> = table.balances().iter().map(|balance| loads(&array, balance)).collect();
        let nodes = array.nodes();
        let asked = |p: &usize| nodes[*p].kind == Kind::In && nodes[nodes[*p].left].kind != Kind::Stop;
        let mut pairs = vec![];
        for p in (0..nodes.len()).filter(asked) {
            for q in (0..nodes.len()).filter(|q| nodes[*q].kind == Kind::Out) {
                let (to, from) = (&nodes[p], &nodes[q]);
                if to.arity() != from.arity() || !table.row(to.name).shares(&table.row(from.name)) {
                    continue;
                }
                let outside = |(v, w): (&usize, &usize)| !table.row(*v).within(&table.row(*w));
                let third = from.arguments.iter().zip(&to.arguments).any(outside);
                let fourth = loads.iter().any(|loads| loads[to.left] + loads[from.left] > loads[p] + loads[q]);
                let live = live(&array, &table, p, q);
                pairs.push(Pair { p, channel: to.name, live, breaks: third || fourth });
            }
        }
        pairs
    }

    /// Of any `near` senders that a receiver may meet, one would break a rule.
    fn defeats(pairs: Vec<Pair>, near: usize) {
        for of_one in pairs.chunk_by(|one, other| one.p == other.p) {
            assert!(of_one.windows(near.min(of_one.len())).all(|some| some.iter().any(|pair| pair.breaks)));
        }
        assert!(pairs.iter().any(|pair| pair.live) && pairs.iter().all(|pair| !pair.live || !pair.breaks));
    }

    /// And each is within the bound alone.
    fn defeats_within(files: &Files, near: usize) {
        defeats(pairs(files), near);
        let table = TableFile::read(&files.table);
        assert!(table.balances.iter().all(|balance| balance.weights.iter().all(|w| u32::from(*w) <= balance.bound)));
    }

    #[test]
    fn sets_of_senders_decide_nothing() {
        defeats(pairs(&defeat(1024, 24)), usize::MAX);
        defeats(pairs(&defeat3(1024, 256, 24)), usize::MAX);
        let mut sparse = pairs(&defeat_sparse(1024, 128, 24));
        sparse.retain(|pair| pair.channel == 0);
        defeats(sparse, usize::MAX);
        defeats_within(&within(1024, 24), usize::MAX);
        defeats_within(&within_spread(1024, 24), 10);
        defeats_within(&within_sparse(1024, 128, 24), usize::MAX);
        defeats_within(&within_rows(1024, 256, 24), usize::MAX);
        defeats_within(&ended(1024, 24), 2);
        for arity in [1, 2, 8] {
            defeats_within(&mended(flooded_spread(arity, 24)), 8);
        }
    }

    #[test]
    fn ended_pairs_alone_would_break() {
        let pairs = pairs(&ended(1024, 24));
        assert!(pairs.iter().all(|pair| pair.live != pair.breaks));
        let live = pairs.iter().filter(|pair| pair.live).count();
        assert!(live.abs_diff(pairs.len() - live) <= 1024);
    }
}
