//! Arrays of 60 to 420 nodes with many senders on one channel and few on the others, of several arities. Names that are
//! sent often and names that are sent once lie side by side.

use crate::arrays::mix_names;
use crate::files::{ArrayFile, Record, CHOICE, IN, NEW, OUT, PAR, RESOURCE, STOP};
use crate::random::Random;

/// What an array is to look like.
struct Plan {
    size: usize,
    names: usize,
    /// The arity that each channel is made for. The first one has many senders.
    arities: Vec<usize>,
    /// News that are no channels.
    data: usize,
    /// Trees of more nodes are mostly split by a par.
    line: usize,
    /// Of 64 such trees so many are.
    split: usize,
    /// All comes after one agent.
    covered: bool,
    /// Of 16 agents so many send.
    sending: usize,
}

impl Plan {
    /// The name that one sender sends, opened after channels and data.
    fn lone(&self) -> usize {
        self.arities.len() + self.data
    }
}

struct Builder<'a> {
    random: &'a mut Random,
    plan: Plan,
    records: Vec<Record>,
    names: usize,
    /// How many rare names were sent.
    rare: usize,
}

pub fn array(random: &mut Random) -> ArrayFile {
    let plan = match random.below(10) {
        0 => one_channel(random),
        1 => many_channels(random),
        2 => far_apart(random),
        3 | 4 => wide(random),
        _ => mixed(random),
    };
    let mut builder = Builder { random, plan, records: Vec::new(), names: 0, rare: 0 };
    builder.root();
    let lone = builder.plan.lone();
    let Builder { random, records, names, .. } = builder;
    let mut records = renumbered(random, &records);
    single_out(random, &mut records, lone);
    mix_names(random, &mut records, names);
    ArrayFile { remark: Vec::new(), records, names }
}

fn mixed(random: &mut Random) -> Plan {
    let channels = random.between(1, 7);
    let most = random.below(9);
    let often = random.between(1, 3);
    let arity = |_| if random.below(4) < often { most } else { random.between(0, most) };
    let arities: Vec<usize> = (0..channels).map(arity).collect();
    Plan {
        size: random.between(60, 300),
        names: random.between(40, 64),
        arities,
        data: random.between(1, 16),
        line: random.between(3, 14),
        split: 48,
        covered: false,
        sending: random.between(7, 14),
    }
}

/// So many senders on a channel that a byte does not count them.
fn one_channel(random: &mut Random) -> Plan {
    let arity = random.pick(&[0, 1, 1, 2, 3]);
    let data = random.between(2, 40);
    Plan { size: 420, names: 64, arities: vec![arity], data, line: 420, sending: 16, ..mixed(random) }
}

/// More channels than there are sets.
fn many_channels(random: &mut Random) -> Plan {
    let channels = random.between(33, 40);
    let most = random.below(3);
    let arities = (0..channels).map(|_| random.between(0, most)).collect();
    Plan { size: random.between(220, 300), arities, data: random.between(1, 6), names: 64, ..mixed(random) }
}

/// Names up to the limit, most of which are not used.
fn far_apart(random: &mut Random) -> Plan {
    let data = random.between(100, 180);
    Plan { size: data + random.between(60, 220), names: random.between(200, 256), data, ..mixed(random) }
}

/// Continuations with many threads.
fn wide(random: &mut Random) -> Plan {
    let covered = random.once_in(2);
    Plan { size: random.between(200, 300), data: random.between(1, 4), line: 2, split: 64, covered, ..mixed(random) }
}

impl Builder<'_> {
    /// All channels and data are opened first. No agent sends the last name here.
    fn root(&mut self) {
        let news = self.plan.lone() + 1;
        for i in 0..news {
            self.records.push(Record { kind: NEW, left: i + 1, name: i, ..Record::default() });
        }
        self.names = news;
        let mut scope: Vec<usize> = (0..self.plan.lone()).collect();
        self.tree(self.plan.size - news, &mut scope);
    }

    /// Makes a tree of so many nodes, and gives its number.
    fn tree(&mut self, size: usize, scope: &mut Vec<usize>) -> usize {
        let (number, reach) = (self.records.len(), scope.len());
        self.records.push(Record::default());
        let mut record = self.record(size, scope);
        match record.kind {
            STOP => {}
            PAR | CHOICE => {
                let first = self.first_part(size);
                record.left = self.tree(first, scope);
                record.right = self.tree(size - 1 - first, scope);
            }
            _ => record.left = self.tree(size - 1, scope),
        }
        scope.truncate(reach);
        self.records[number] = record;
        number
    }

    /// The record of a tree of so many nodes, still without children. What it binds is then in reach.
    fn record(&mut self, size: usize, scope: &mut Vec<usize>) -> Record {
        let kind = self.kind(size);
        let mut record = Record { kind, ..Record::default() };
        if kind == NEW {
            record.name = self.fresh();
            scope.push(record.name);
        } else if record.is_agent() {
            record = self.agent(scope);
            if record.kind != OUT {
                scope.extend(&record.arguments);
            }
        }
        record
    }

    fn kind(&mut self, size: usize) -> u8 {
        let first = self.records.len() == self.plan.lone() + 2;
        let split = if size > self.plan.line { self.plan.split } else { 4 };
        match self.random.below(64) {
            _ if size < 2 => STOP,
            _ if first && self.plan.covered => OUT,
            n if size > 2 && n < split => PAR,
            48..52 if size > 2 => CHOICE,
            52 if self.names < self.plan.names => NEW,
            _ => OUT,
        }
    }

    /// How many nodes come first: a line, or any number.
    fn first_part(&mut self, size: usize) -> usize {
        let most = size - 2;
        let line = self.plan.line.min(most);
        if self.random.once_in(4) {
            self.random.between(1, most)
        } else {
            self.random.between(line.div_ceil(2).max(2).min(line), line)
        }
    }

    /// An agent. One that has no names left for its parameters sends.
    fn agent(&mut self, scope: &[usize]) -> Record {
        let sends = self.random.below(16) < self.plan.sending && !self.random.once_in(40);
        let (name, mut arity) = self.channel(sends, scope);
        if self.random.once_in(12) {
            arity = self.random.pick(&[arity.saturating_sub(1), (arity + 1).min(8)]);
        }
        if sends || arity > self.plan.names - self.names.min(self.plan.names) {
            let arguments = (0..arity).map(|_| self.sent(scope)).collect();
            return Record { kind: OUT, name, arguments, ..Record::default() };
        }
        let kind = self.random.pick(&[IN, IN, IN, RESOURCE]);
        let arguments = (0..arity).map(|_| self.fresh()).collect();
        Record { kind, name, arguments, ..Record::default() }
    }

    /// A channel with the arity that it is made for; now and then any name in reach.
    fn channel(&mut self, sends: bool, scope: &[usize]) -> (usize, usize) {
        let channel = self.random.below(self.plan.arities.len());
        let channel = if self.random.once_in(if sends { 2 } else { 4 }) { 0 } else { channel };
        let name = if self.random.once_in(12) { self.random.pick(scope) } else { channel };
        (name, self.plan.arities[channel])
    }

    /// A name to send, mostly no channel. The first ones are taken more often, and now and then one that is rare.
    fn sent(&mut self, scope: &[usize]) -> usize {
        if self.random.once_in(8) {
            self.rare += 1;
            return self.plan.lone() - 1 - self.rare % self.plan.data;
        }
        let names = if self.random.once_in(8) { scope } else { &scope[self.plan.arities.len()..] };
        let near = 1 + self.random.below(names.len());
        names[self.random.below(near)]
    }

    fn fresh(&mut self) -> usize {
        self.names += 1;
        self.names - 1
    }
}

/// Has one sender on the first channel send a name that no other one sends: where a group of eight or of 256 ends, or
/// any.
fn single_out(random: &mut Random, records: &mut [Record], lone: usize) {
    let sends = |record: &Record| record.kind == OUT && record.name == 0;
    let senders: Vec<usize> = (0..records.len()).filter(|i| sends(&records[*i])).collect();
    let rank = match senders.len() {
        0 => return,
        257.. => random.between(255, 256),
        9.. if random.once_in(2) => random.between(7, 8),
        count => random.below(count),
    };
    let arguments = &mut records[senders[rank]].arguments;
    if !arguments.is_empty() {
        let at = random.below(arguments.len());
        arguments[at] = lone;
    }
}

/// The same tree with its nodes in another order, parents before their children.
fn renumbered(random: &mut Random, records: &[Record]) -> Vec<Record> {
    let way = random.below(3);
    let (mut waiting, mut order) = (vec![0], Vec::new());
    while !waiting.is_empty() {
        let next = [waiting.len() - 1, 0, random.below(waiting.len())][way];
        let old = waiting.remove(next);
        order.push(old);
        let Record { left, right, .. } = records[old];
        waiting.extend([right, left].into_iter().filter(|child| *child > 0));
    }
    let mut numbers = vec![0; records.len()];
    for (new, old) in order.iter().enumerate() {
        numbers[*old] = new;
    }
    let moved = |old: &usize| {
        let record = records[*old].clone();
        Record { left: numbers[record.left], right: numbers[record.right], ..record }
    };
    order.iter().map(moved).collect()
}

#[cfg(test)]
mod tests {
    use super::*;

    #[test]
    fn arrays_are_valid() {
        for round in 0..1000 {
            let file = array(&mut Random::of(4, 0, round));
            assert!((60..=420).contains(&file.records.len()) && file.names <= 256);
            plain::read_array(&file.bytes()).expect("a valid array");
        }
    }
}
