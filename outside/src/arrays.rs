//! Random valid arrays. Children are numbered in several orders and names are mixed, so that places are no accident of
//! either.

use crate::files::{ArrayFile, Record, CHOICE, IN, NEW, OUT, PAR, RESOURCE, STOP};
use crate::random::Random;

const MOST_NAMES: usize = 256;

/// What an array is to look like.
pub struct Style {
    pub size: usize,
    pub names: usize,
    /// News that come first, so that channels are there to meet on.
    pub prefix: usize,
    /// Levels of par that come next, so that there are threads to meet.
    pub spread: usize,
    /// How often each kind is taken.
    pub kinds: [usize; 7],
    pub arity: usize,
    /// All agents have the same arity.
    pub equal: bool,
    pub remark: usize,
}

#[derive(Clone, Copy)]
enum Order {
    Depth,
    Breadth,
    Mixed,
}

/// A node still to be made: the field that names it, its tree's size, levels of par to come, and the names in reach.
struct Spot {
    parent: Option<(usize, bool)>,
    size: usize,
    spread: usize,
    scope: Vec<usize>,
}

struct Grower<'a> {
    random: &'a mut Random,
    style: Style,
    order: Order,
    records: Vec<Record>,
    names: usize,
    waiting: Vec<Spot>,
}

/// Up to 24 nodes on few names.
pub fn small(random: &mut Random) -> ArrayFile {
    let kinds =
        random.pick(&[[0, 1, 3, 1, 4, 3, 3], [0, 1, 4, 0, 5, 3, 2], [0, 2, 2, 2, 2, 2, 2], [0, 1, 2, 3, 3, 3, 0]]);
    let style = Style {
        size: random.between(1, 24),
        names: random.between(0, 12),
        prefix: random.below(4),
        spread: random.below(2),
        kinds,
        arity: random.pick(&[0, 0, 1, 1, 2, 3, 8]),
        equal: !random.once_in(3),
        remark: if random.once_in(4) { random.between(0, 8) } else { 0 },
    };
    grow(random, style)
}

/// Small, with channels and several threads from the start, so that steps are made.
pub fn busy(random: &mut Random) -> ArrayFile {
    let style = Style {
        size: random.between(10, 40),
        names: random.between(2, 24),
        prefix: random.between(1, 2),
        spread: random.between(1, 3),
        kinds: random.pick(&[
            [0, 1, 2, 1, 6, 3, 2],
            [0, 0, 2, 0, 5, 4, 1],
            [0, 1, 3, 2, 6, 1, 4],
            [0, 0, 0, 1, 6, 0, 5],
        ]),
        arity: random.pick(&[0, 0, 0, 1, 1, 2]),
        equal: !random.once_in(5),
        remark: 0,
    };
    grow(random, style)
}

/// Any size up to the limits.
pub fn large(random: &mut Random) -> ArrayFile {
    let full = random.once_in(2);
    let style = Style {
        size: if full { 1024 } else { random.between(100, 1024) },
        names: if full { MOST_NAMES } else { random.between(0, MOST_NAMES) },
        prefix: random.pick(&[0, 1, 5, 100, 256]),
        spread: random.below(7),
        kinds: random.pick(&[[0, 1, 3, 1, 4, 3, 3], [0, 0, 1, 1, 8, 4, 4], [0, 1, 8, 4, 1, 1, 1]]),
        arity: random.below(9),
        equal: random.once_in(2),
        remark: if full { 256 } else { random.between(0, 256) },
    };
    grow(random, style)
}

/// Starts with as many threads as asked for, at most 330, on one channel without arguments. Some agents go on as two.
pub fn wide(random: &mut Random, threads: usize) -> ArrayFile {
    let mut records = vec![node(NEW, 1, 0)];
    for i in 1..threads {
        records.push(node(PAR, threads + i - 1, if i + 1 < threads { i + 1 } else { 2 * threads - 1 }));
    }
    let first = records.len() + threads;
    let mut tails = Vec::new();
    for i in 0..threads {
        records.push(node(random.pick(&[OUT, OUT, IN, RESOURCE]), first + tails.len(), 0));
        let at = first + tails.len();
        if i < 8 {
            tails.extend([node(PAR, at + 1, at + 2), node(OUT, at + 3, 0), node(OUT, at + 4, 0), node(STOP, 0, 0)]);
        }
        tails.push(node(STOP, 0, 0));
    }
    records.append(&mut tails);
    ArrayFile { remark: Vec::new(), records, names: 1 }
}

/// One thread at a time: agents one after the other, on one channel without arguments.
pub fn line(random: &mut Random, agents: usize) -> ArrayFile {
    let mut records = vec![node(NEW, 1, 0)];
    for i in 1..=agents {
        records.push(node(random.pick(&[OUT, IN, RESOURCE]), i + 1, 0));
    }
    records.push(node(STOP, 0, 0));
    ArrayFile { remark: Vec::new(), records, names: 1 }
}

/// 128 news, of which each is sent to all of 128 parameters on the first one.
pub fn flooded() -> ArrayFile {
    let half = MOST_NAMES / 2;
    let agent = |kind, arguments: Vec<usize>| Record { kind, arguments, ..Record::default() };
    let mut records: Vec<Record> = (0..half).map(|name| Record { name, ..node(NEW, 0, 0) }).collect();
    records.extend((0..half / 8).map(|i| agent(IN, (0..8).map(|k| half + 8 * i + k).collect())));
    records.extend((0..half).map(|i| agent(OUT, (0..8).map(|k| (i + k) % half).collect())));
    records.iter_mut().enumerate().for_each(|(i, record)| record.left = i + 1);
    records.push(node(STOP, 0, 0));
    ArrayFile { remark: Vec::new(), records, names: MOST_NAMES }
}

fn node(kind: u8, left: usize, right: usize) -> Record {
    Record { kind, left, right, ..Record::default() }
}

fn grow(random: &mut Random, style: Style) -> ArrayFile {
    let order = random.pick(&[Order::Depth, Order::Breadth, Order::Mixed]);
    let remark = random.bytes(4 * style.remark);
    let root = Spot { parent: None, size: style.size, spread: style.spread, scope: Vec::new() };
    let mut grower = Grower { random, style, order, records: Vec::new(), names: 0, waiting: vec![root] };
    while let Some(spot) = grower.take() {
        grower.place(spot);
    }
    let (mut records, names) = (grower.records, grower.names);
    mix_names(random, &mut records, names);
    ArrayFile { remark, records, names }
}

/// Gives every name another number.
pub fn mix_names(random: &mut Random, records: &mut [Record], names: usize) {
    let mut mixed: Vec<usize> = (0..names).collect();
    random.shuffle(&mut mixed);
    for record in records {
        if record.is_agent() || record.kind == NEW {
            record.name = mixed[record.name];
        }
        for name in &mut record.arguments {
            *name = mixed[*name];
        }
    }
}

impl Grower<'_> {
    fn take(&mut self) -> Option<Spot> {
        if self.waiting.is_empty() {
            return None;
        }
        let i = match self.order {
            Order::Depth => self.waiting.len() - 1,
            Order::Breadth => 0,
            Order::Mixed => self.random.below(self.waiting.len()),
        };
        Some(self.waiting.remove(i))
    }

    /// Makes the node of a spot and leaves its children waiting.
    fn place(&mut self, spot: Spot) {
        let number = self.records.len();
        match spot.parent {
            Some((parent, true)) => self.records[parent].right = number,
            Some((parent, false)) => self.records[parent].left = number,
            None => {}
        }
        let kind = self.kind(&spot);
        let mut record = node(kind, 0, 0);
        let mut scope = spot.scope;
        match kind {
            NEW => {
                record.name = self.fresh();
                scope.push(record.name);
            }
            OUT | IN | RESOURCE => self.agent(&mut record, &mut scope),
            _ => {}
        }
        self.records.push(record);
        if kind == PAR || kind == CHOICE {
            let left = if spot.spread > 0 { spot.size / 2 } else { 1 + self.random.below(spot.size - 2) };
            let spread = spot.spread.saturating_sub(1);
            let side = |right, size, scope| Spot { parent: Some((number, right)), size, spread, scope };
            self.waiting.push(side(true, spot.size - 1 - left, scope.clone()));
            self.waiting.push(side(false, left, scope));
        } else if kind != STOP {
            let (size, spread) = (spot.size - 1, spot.spread);
            self.waiting.push(Spot { parent: Some((number, false)), size, spread, scope });
        }
    }

    /// A kind that the spot has room for.
    fn kind(&mut self, spot: &Spot) -> u8 {
        let mut kinds = self.style.kinds;
        kinds[0] = 0;
        if self.names == self.style.names {
            kinds[1] = 0;
        }
        if spot.scope.is_empty() {
            kinds[4..].fill(0);
        }
        if spot.size < 3 {
            kinds[2..4].fill(0);
        }
        if self.records.len() < self.style.prefix && self.names < self.style.names {
            kinds = [0, 1, 0, 0, 0, 0, 0];
        } else if spot.spread > 0 && spot.size >= 3 {
            kinds = [0, 0, 1, 0, 0, 0, 0];
        }
        let total: usize = kinds.iter().sum();
        if spot.size < 2 || total == 0 {
            return STOP;
        }
        let mut left = self.random.below(total);
        let kind = kinds.iter().position(|often| {
            let taken = left < *often;
            left = left.saturating_sub(*often);
            taken
        });
        kind.map_or(STOP, |kind| kind as u8)
    }

    /// Channel and arguments of an agent. The first names in reach are taken more often, so that agents meet.
    fn agent(&mut self, record: &mut Record, scope: &mut Vec<usize>) {
        let near = if self.random.once_in(4) { scope.len() } else { scope.len().min(2) };
        record.name = scope[self.random.below(near)];
        let arity = if self.style.equal { self.style.arity } else { self.random.between(0, self.style.arity) };
        if record.kind == OUT {
            record.arguments = (0..arity).map(|_| self.random.pick(scope)).collect();
        } else {
            let arity = arity.min(self.style.names - self.names);
            record.arguments = (0..arity).map(|_| self.fresh()).collect();
            scope.extend(&record.arguments);
        }
    }

    fn fresh(&mut self) -> usize {
        self.names += 1;
        self.names - 1
    }
}

#[cfg(test)]
mod tests {
    use super::*;

    /// How many of 400 arrays the plain reader takes and the condition holds of.
    fn count(make: fn(&mut Random) -> ArrayFile, holds: fn(&plain::Array) -> bool) -> usize {
        let made = (0..400).map(|round| make(&mut Random::of(1, 0, round)).bytes());
        made.filter(|file| plain::read_array(file).is_ok_and(|array| holds(&array))).count()
    }

    #[test]
    fn arrays_are_valid() {
        for make in
            [small, busy, large, |random: &mut Random| wide(random, 257), |random: &mut Random| line(random, 300)]
        {
            assert_eq!(count(make, |_| true), 400);
        }
    }

    #[test]
    fn arrays_reach_the_limits() {
        assert!(count(small, |array| array.nodes().len() == 1) > 0);
        assert!(count(small, |array| array.names() == 0) > 0);
        assert!(count(large, |array| array.nodes().len() == 1024 && array.names() == 256) > 40);
        assert!(count(large, |array| array.nodes().iter().any(|node| node.arity() == 8)) > 40);
    }

    #[test]
    fn busy_arrays_make_steps() {
        let steps = |array: &plain::Array| {
            let first = plain::calculus::begin(array, &|_| false);
            let all = 0..first.threads.len();
            let attempt = |p, q| plain::calculus::attempt(array, &first, p, q, &|_| false).is_ok();
            all.clone().any(|p| all.clone().any(|q| attempt(p, q)))
        };
        assert!(count(busy, steps) > 100);
    }
}
