//! An array and a table as rules 3 and 4 see them, by the words of the scope paper.

use plain::{Array, Kind, Node};

use crate::files::{TableFile, ROW};
use crate::tables::{self, Pair};

pub struct View<'a> {
    pub array: &'a Array,
    pub table: &'a TableFile,
    /// By balance, then node.
    pub loads: Vec<Vec<u64>>,
    pub receivers: Vec<usize>,
    pub senders: Vec<usize>,
    /// By node, how many senders on a sender's channel come before it.
    ranks: Vec<usize>,
}

impl<'a> View<'a> {
    pub fn of(array: &'a Array, table: &'a TableFile) -> View<'a> {
        let loads = table.balances.iter().map(|balance| tables::loads(array, &balance.weights)).collect();
        let nodes = |holds: fn(&Node) -> bool| {
            let numbers = 0..array.nodes().len();
            numbers.filter(|i| holds(&array.nodes()[*i])).collect()
        };
        let (receivers, senders) = (nodes(Node::is_receiver), nodes(Node::is_sender));
        let ranks = ranks(array);
        View { array, table, loads, receivers, senders, ranks }
    }

    /// How many senders on a sender's channel come before it.
    pub fn rank(&self, q: usize) -> usize {
        self.ranks[q]
    }

    pub fn node(&self, number: usize) -> &Node {
        &self.array.nodes()[number]
    }

    /// The row of a node's channel.
    pub fn channel(&self, number: usize) -> [u8; ROW] {
        self.table.rows[self.node(number).name]
    }

    pub fn balances(&self) -> std::ops::Range<usize> {
        0..self.table.balances.len()
    }

    pub fn weight(&self, k: usize, number: usize) -> u64 {
        self.table.balances[k].weights[number].into()
    }

    pub fn bound(&self, k: usize) -> u64 {
        self.table.balances[k].bound.into()
    }

    pub fn pairs(&self) -> impl Iterator<Item = Pair> + '_ {
        self.receivers.iter().flat_map(|p| self.senders.iter().map(move |q| (*p, *q)))
    }

    pub fn agree(&self, (p, q): Pair) -> bool {
        self.node(p).arity() == self.node(q).arity()
    }

    /// How many bits the channel rows share.
    pub fn shared(&self, (p, q): Pair) -> u32 {
        shared(&self.channel(p), &self.channel(q))
    }

    /// What the weights of both are together.
    pub fn sum(&self, k: usize, (p, q): Pair) -> u64 {
        self.weight(k, p) + self.weight(k, q)
    }

    /// The balances that end the pair's life.
    pub fn ending(&self, pair: Pair) -> impl Iterator<Item = usize> + '_ {
        self.balances().filter(move |k| self.sum(*k, pair) > self.bound(*k))
    }

    pub fn fits(&self, pair: Pair) -> bool {
        self.ending(pair).next().is_none()
    }

    pub fn live(&self, pair: Pair) -> bool {
        self.agree(pair) && self.shared(pair) > 0 && self.fits(pair)
    }

    pub fn live_pairs(&self) -> Vec<Pair> {
        self.pairs().filter(|pair| self.live(*pair)).collect()
    }

    /// What goes less what comes in a balance, if the pair meets.
    pub fn slack(&self, k: usize, (p, q): Pair) -> i64 {
        let comes = self.loads[k][self.node(p).left] + self.loads[k][self.node(q).left];
        self.weight(k, q) as i64 + self.gain(k, p) - comes as i64
    }

    /// What goes with a receiver.
    pub fn gain(&self, k: usize, p: usize) -> i64 {
        if self.node(p).kind == Kind::In {
            self.weight(k, p) as i64
        } else {
            0
        }
    }

    /// The last figures at which the rule, 3 or 4, fails for the pair if it is live.
    pub fn failing(&self, rule: usize, pair: Pair) -> Vec<usize> {
        if rule == 3 {
            let (sent, held) = (&self.node(pair.1).arguments, &self.node(pair.0).arguments);
            let arguments = sent.iter().zip(held).enumerate();
            let fails =
                |(_, (from, to)): &(usize, (&usize, &usize))| !within(&self.table.rows[**from], &self.table.rows[**to]);
            arguments.filter(fails).map(|(i, _)| i + 1).collect()
        } else {
            self.balances().filter(|k| self.slack(*k, pair) < 0).collect()
        }
    }

    pub fn fails(&self, rule: usize, pair: Pair) -> bool {
        !self.failing(rule, pair).is_empty()
    }
}

fn ranks(array: &Array) -> Vec<usize> {
    let mut seen = vec![0; array.names().max(1)];
    let rank = |node: &Node| {
        seen[node.name] += usize::from(node.is_sender());
        seen[node.name].saturating_sub(1)
    };
    array.nodes().iter().map(rank).collect()
}

fn shared(one: &[u8; ROW], other: &[u8; ROW]) -> u32 {
    one.iter().zip(other).map(|(a, b)| (a & b).count_ones()).sum()
}

pub fn within(one: &[u8; ROW], other: &[u8; ROW]) -> bool {
    one.iter().zip(other).all(|(a, b)| a & !b == 0)
}
