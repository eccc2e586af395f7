//! One change of a table, so that a rule breaks at some pair, or just does not: a weight, a bound or a row's bit.

use plain::{Array, Kind};

use crate::files::{flip_bit, has_bit, TableFile};
use crate::random::Random;
use crate::tables::{front, Pair};
use crate::view::View;

/// What is put in place of what.
enum Change {
    Weights { balance: usize, nodes: Vec<usize>, weight: u64 },
    Bound { balance: usize, bound: u64 },
    Bit { name: usize, bit: usize },
}

pub fn change(random: &mut Random, array: &Array, table: &mut TableFile) {
    let view = View::of(array, table);
    let pairs = view.live_pairs();
    let sort = random.below(16);
    let found = (0..12).find_map(|_| one(random, &view, &pairs, sort));
    match found {
        Some(Change::Weights { balance, nodes, weight }) => {
            nodes.into_iter().for_each(|node| table.balances[balance].weights[node] = weight as u16);
            if !random.once_in(4) {
                make_room(array, table, balance);
            }
        }
        Some(Change::Bound { balance, bound }) => table.balances[balance].bound = bound.min(u32::MAX.into()) as u32,
        Some(Change::Bit { name, bit }) => flip_bit(&mut table.rows[name], bit),
        None => {}
    }
}

/// Raises a bound to the load of the root, so that rule 2 is met.
fn make_room(array: &Array, table: &mut TableFile, balance: usize) {
    let load = View::of(array, table).loads[balance][0] as u32;
    let bound = &mut table.balances[balance].bound;
    *bound = load.max(*bound);
}

/// A change of a sort, if what was drawn for it is there.
fn one(random: &mut Random, view: &View, pairs: &[Pair], sort: usize) -> Option<Change> {
    match sort {
        0..3 => lighter(random, view, pairs),
        3..6 => burden(random, view, pairs),
        6 => end(random, view),
        7 => flood(random, view),
        8 | 9 => revive_by_bound(random, view),
        10 => some_bound(random, view),
        11 => revive_by_row(random, view),
        12 | 13 => hide(random, view, pairs),
        14 => send_more(random, view, pairs),
        _ => some_bit(random, view),
    }
}

fn some_balance(random: &mut Random, view: &View) -> Option<usize> {
    random.any(&view.balances().collect::<Vec<usize>>())
}

/// The least that a node's live pairs have to spare in a balance, mostly and one more.
fn too_much(random: &mut Random, view: &View, pairs: &[Pair], balance: usize, x: usize) -> Option<u64> {
    let own = pairs.iter().filter(|(p, q)| *p == x || *q == x);
    let least = own.map(|pair| view.slack(balance, *pair)).min()?;
    u64::try_from(least).ok().map(|least| least + u64::from(!random.once_in(5)))
}

/// A live pair. Senders where a group of eight or of 256 on one channel ends are taken more often.
fn some_pair(random: &mut Random, view: &View, pairs: &[Pair]) -> Option<Pair> {
    let edges = random.pick(&[&[][..], &[], &[7, 8], &[255, 256]]);
    let edge: Vec<Pair> = pairs.iter().copied().filter(|pair| edges.contains(&view.rank(pair.1))).collect();
    random.any(if edge.is_empty() { pairs } else { &edge })
}

/// A node of a live pair.
fn partner(random: &mut Random, view: &View, pairs: &[Pair]) -> Option<usize> {
    let (p, q) = some_pair(random, view, pairs)?;
    Some(random.pick(&[p, q]))
}

/// An agent that goes has less weight.
fn lighter(random: &mut Random, view: &View, pairs: &[Pair]) -> Option<Change> {
    let balance = some_balance(random, view)?;
    let node = partner(random, view, pairs).filter(|x| view.node(*x).kind != Kind::Resource)?;
    let less = too_much(random, view, pairs, balance, node)?;
    let weight = view.weight(balance, node).checked_sub(less)?;
    Some(Change::Weights { balance, nodes: vec![node], weight })
}

/// An agent that a continuation comes with has more weight.
fn burden(random: &mut Random, view: &View, pairs: &[Pair]) -> Option<Change> {
    let balance = some_balance(random, view)?;
    let x = partner(random, view, pairs)?;
    let node = random.any(&front(view.array, view.node(x).left))?;
    let more = too_much(random, view, pairs, balance, x)?;
    let weight = view.weight(balance, node) + more;
    (weight <= 65_535).then_some(Change::Weights { balance, nodes: vec![node], weight })
}

/// A weight at an end.
fn end(random: &mut Random, view: &View) -> Option<Change> {
    let balance = some_balance(random, view)?;
    let node = some_agent(random, view)?;
    Some(Change::Weights { balance, nodes: vec![node], weight: random.pick(&[0, 65_535]) })
}

fn some_agent(random: &mut Random, view: &View) -> Option<usize> {
    random.any(&[&view.receivers[..], &view.senders].concat())
}

/// All agents that a continuation comes with have the greatest weight.
fn flood(random: &mut Random, view: &View) -> Option<Change> {
    let balance = some_balance(random, view)?;
    let after = |x: usize| front(view.array, view.node(x).left);
    let longest = || [&view.receivers[..], &view.senders].concat().into_iter().max_by_key(|x| after(*x).len());
    let x = if random.once_in(2) { longest() } else { some_agent(random, view) };
    let nodes = after(x?);
    Some(Change::Weights { balance, nodes, weight: 65_535 })
}

/// A pair that would break a rule is ended by one balance: it just lives, or just does not.
fn revive_by_bound(random: &mut Random, view: &View) -> Option<Change> {
    let rule = random.between(3, 4);
    let breaks = |pair: &Pair| {
        let meets = view.agree(*pair) && view.shared(*pair) > 0 && view.ending(*pair).count() == 1;
        meets && view.fails(rule, *pair)
    };
    let ended: Vec<Pair> = view.pairs().filter(breaks).collect();
    let pair = random.any(&ended)?;
    let balance = view.ending(pair).next()?;
    let bound = view.sum(balance, pair) - u64::from(random.once_in(2));
    Some(Change::Bound { balance, bound })
}

fn some_bound(random: &mut Random, view: &View) -> Option<Change> {
    let balance = some_balance(random, view)?;
    let bound = view.bound(balance);
    let load = view.loads[balance][0];
    let bound = random.pick(&[0, bound + 1, bound.saturating_sub(1).max(load), bound.saturating_sub(1), load, 1 << 32]);
    Some(Change::Bound { balance, bound })
}

/// Two channels that share no bit share one.
fn revive_by_row(random: &mut Random, view: &View) -> Option<Change> {
    let rule = random.between(3, 4);
    let apart = |pair: &Pair| view.agree(*pair) && view.shared(*pair) == 0 && view.fits(*pair);
    let breaks = |pair: &Pair| apart(pair) && view.fails(rule, *pair);
    let (p, q) = random.any(&view.pairs().filter(breaks).collect::<Vec<Pair>>())?;
    let (to, from) = random.pick(&[(p, q), (q, p)]);
    let bit = random.any(&bits(view, view.node(from).name))?;
    Some(Change::Bit { name: view.node(to).name, bit })
}

/// The bits of a name's row.
fn bits(view: &View, name: usize) -> Vec<usize> {
    view.array.opened().iter().filter(|o| has_bit(&view.table.rows[name], *o)).collect()
}

/// A sent name and its parameter.
fn sent(random: &mut Random, view: &View, pairs: &[Pair]) -> Option<(usize, usize)> {
    let (p, q) = some_pair(random, view, pairs)?;
    let arguments = view.node(q).arguments.iter().copied().zip(view.node(p).arguments.iter().copied());
    random.any(&arguments.collect::<Vec<(usize, usize)>>())
}

/// A parameter's row lacks a bit that is sent.
fn hide(random: &mut Random, view: &View, pairs: &[Pair]) -> Option<Change> {
    let (from, to) = sent(random, view, pairs)?;
    let bit = random.any(&bits(view, from)).filter(|bit| has_bit(&view.table.rows[to], *bit))?;
    Some(Change::Bit { name: to, bit })
}

/// A sent name's row has a bit that its parameter's lacks.
fn send_more(random: &mut Random, view: &View, pairs: &[Pair]) -> Option<Change> {
    let (from, to) = sent(random, view, pairs)?;
    let lacks = |name: usize, o: usize| !has_bit(&view.table.rows[name], o);
    let lacking: Vec<usize> = view.array.opened().iter().filter(|o| lacks(from, *o) && lacks(to, *o)).collect();
    let bit = random.any(&lacking)?;
    Some(Change::Bit { name: from, bit })
}

/// Any row loses a bit that is not its own.
fn some_bit(random: &mut Random, view: &View) -> Option<Change> {
    let name = random.below(view.table.rows.len());
    let bit = random.any(&bits(view, name)).filter(|bit| *bit != name)?;
    Some(Change::Bit { name, bit })
}
