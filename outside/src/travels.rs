//! Designs in which mending sets bit after bit, with all rows empty. Each is one line of agents, first the receivers,
//! then the senders. Where a scope allows it, the receiver that the bits come to last stands first.

use crate::files::{ArrayFile, Balance, Record, TableFile, IN, NEW, OUT, ROW, STOP};
use crate::random::Random;

pub struct Travel {
    pub array: ArrayFile,
    pub table: TableFile,
    /// How many bits mending sets, and in how many rounds after those of rule 1.
    pub bits: usize,
    pub rounds: usize,
}

/// A channel and the name that is received or sent; in each balance what it weighs.
#[derive(Clone, Copy)]
struct Agent {
    kind: u8,
    channel: usize,
    argument: usize,
    weights: [usize; 2],
}

impl Agent {
    fn receive(channel: usize, parameter: usize) -> Agent {
        Agent { kind: IN, channel, argument: parameter, weights: [0; 2] }
    }

    fn send(channel: usize, sent: usize) -> Agent {
        Agent { kind: OUT, channel, argument: sent, weights: [0; 2] }
    }

    fn weighs(self, weights: [usize; 2]) -> Agent {
        Agent { weights, ..self }
    }

    /// Within bounds of `most` only a receiver and a sender of one number are live.
    fn numbered(self, number: usize, most: usize) -> Agent {
        let (low, high) = (number, most - number);
        self.weighs(if self.kind == IN { [low, high] } else { [high, low] })
    }

    fn record(&self, left: usize) -> Record {
        Record { kind: self.kind, left, name: self.channel, arguments: vec![self.argument], ..Record::default() }
    }
}

/// News for the first names, then the agents one after the other. The other names are parameters.
fn travel(news: usize, agents: &[Agent], bounds: &[usize], bits: usize, rounds: usize) -> Travel {
    let new = |name: usize| Record { kind: NEW, left: name + 1, name, ..Record::default() };
    let mut records: Vec<Record> = (0..news).map(new).collect();
    records.extend(agents.iter().enumerate().map(|(i, agent)| agent.record(news + i + 1)));
    records.push(Record { kind: STOP, ..Record::default() });
    let parameters = agents.iter().filter(|agent| agent.kind == IN).count();
    let balance = |(k, bound): (usize, &usize)| {
        let mut weights = vec![0; records.len()];
        agents.iter().enumerate().for_each(|(i, agent)| weights[news + i] = agent.weights[k] as u16);
        Balance { bound: *bound as u32, weights }
    };
    let balances = bounds.iter().enumerate().map(balance).collect();
    let array = ArrayFile { remark: Vec::new(), records, names: news + parameters };
    let table = TableFile { rows: vec![[0; ROW]; array.names], balances, claims: Vec::new(), array_sum: 0 };
    Travel { array, table, bits, rounds }
}

/// One channel. Each parameter is sent on to the next one; balances end all other pairs.
pub fn sent_on(links: usize) -> Travel {
    let receivers = (1..=links).rev().map(|i| Agent::receive(0, i).numbered(i, links));
    let senders = (1..=links).rev().map(|i| Agent::send(0, i - 1).numbered(i, links));
    travel(1, &receivers.chain(senders).collect::<Vec<Agent>>(), &[links, links], 1 + links, links)
}

/// The same with a channel for each link, and no balance.
pub fn own_channels(links: usize) -> Travel {
    let sent = |i: usize| if i == 0 { 0 } else { links + i - 1 };
    let receivers = (0..links).rev().map(|i| Agent::receive(i, links + i));
    let senders = (0..links).rev().map(|i| Agent::send(i, sent(i)));
    travel(links, &receivers.chain(senders).collect::<Vec<Agent>>(), &[], 2 * links, links)
}

/// Each parameter is the channel on which the next one is received. The first of them gets its bit from the last
/// receiver's parameter, so that the way begins where all receivers were looked at once.
pub fn received_on(links: usize) -> Travel {
    let last = links + 1;
    let mut agents = vec![Agent::receive(0, 1).weighs([0, 1])];
    agents.extend((1..links).map(|i| Agent::receive(i, i + 1).weighs([1, 0])));
    agents.push(Agent::receive(0, last).weighs([1, 0]));
    agents.push(Agent::send(0, last).weighs([1, 0]));
    agents.push(Agent::send(0, 0).weighs([0, 1]));
    travel(1, &agents, &[1, 1], 2 + links, 1 + links)
}

/// Each bit makes the pair live that sends the next one: a parameter is the channel on which the next new is sent.
fn waking_agents(links: usize) -> Vec<Agent> {
    let channel = |i: usize| if i == 0 { 0 } else { links + i };
    let receivers = (0..links).rev().map(|i| Agent::receive(i, links + 1 + i));
    let senders = (0..links).rev().map(|i| Agent::send(channel(i), i + 1));
    receivers.chain(senders).collect()
}

pub fn waking(links: usize) -> Travel {
    travel(links + 1, &waking_agents(links), &[], 2 * links + 1, links)
}

/// The same with a balance in which just the agents of one link weigh, 1 each. With bound 1 that pair is never live and
/// the way ends before it.
pub fn halted(links: usize, at: usize, bound: usize) -> Travel {
    let mut agents = waking_agents(links);
    for i in [links - 1 - at, 2 * links - 1 - at] {
        agents[i].weights = [1, 0];
    }
    let made = if bound < 2 { at } else { links };
    travel(links + 1, &agents, &[bound], links + 1 + made, made)
}

/// `sent_on`, which news go through one after the other: where one has come to the last parameter, a pair is live that
/// sends the next one to the first.
pub fn waves(news: usize, links: usize) -> Travel {
    let (channel, most) = (news, links + news - 1);
    let parameter = |i: usize| news + i;
    let carrier = |j: usize| news + links + j;
    let mut agents = Vec::new();
    agents.extend((1..news).rev().map(|j| Agent::receive(j - 1, carrier(j)).numbered(links + j, most)));
    agents.extend((1..=links).rev().map(|i| Agent::receive(channel, parameter(i)).numbered(i, most)));
    agents.extend((1..news).rev().map(|j| Agent::send(parameter(links), j).numbered(links + j, most)));
    agents.extend((2..=links).rev().map(|i| Agent::send(channel, parameter(i - 1)).numbered(i, most)));
    agents.extend((1..news).rev().map(|j| Agent::send(channel, carrier(j)).numbered(1, most)));
    agents.push(Agent::send(channel, 0).numbered(1, most));
    let rounds = news * links + news - 1;
    travel(news + 1, &agents, &[most, most], news + 1 + rounds, rounds)
}

/// One of the designs, as long as names allow or a part of it.
pub fn any(random: &mut Random, part: usize) -> Travel {
    let (one, two) = (254 / part, 127 / part);
    let at = random.below(two);
    match random.below(7) {
        0 => sent_on(one + 1),
        1 => own_channels(two + 1),
        2 => received_on(one),
        3 => waking(two),
        4 => halted(two, at, 1),
        5 => halted(two, at, 2),
        _ => waves(random.between(1, 12), random.between(1, 30)),
    }
}
