//! Tables for a valid array: drafts that should be held, drafts one figure away from them, and random ones.

use plain::{Array, Kind, Node};

use crate::claims::{self, MOST_CLAIMS};
use crate::files::{flip_bit, has_bit, Balance, TableFile, ROW};
use crate::random::Random;

const MOST_BALANCES: usize = 24;

pub type Rows = Vec<[u8; ROW]>;
pub type Pair = (usize, usize);

/// Rows closed under rules 1 and 3, balances whose weights were raised until rule 4 holds, and claims that follow.
pub fn accepted(random: &mut Random, array: &Array) -> TableFile {
    let count = if random.once_in(40) { MOST_BALANCES } else { random.below(4) };
    let wanted = if random.once_in(40) { MOST_CLAIMS } else { random.below(12) };
    draft(random, array, count, wanted)
}

/// An accepted draft with as many balances and claims as there may be.
pub fn full(random: &mut Random, array: &Array) -> TableFile {
    draft(random, array, MOST_BALANCES, MOST_CLAIMS)
}

fn draft(random: &mut Random, array: &Array, count: usize, wanted: usize) -> TableFile {
    let loose = saturated(array, &[]);
    let pairs = live(array, &loose, &[]);
    let balances: Vec<Balance> = (0..count).map(|_| balance(random, array, &pairs)).collect();
    let rows = if random.once_in(2) { saturated(array, &balances) } else { loose };
    let claims = claims::following(random, &balances, wanted);
    TableFile { rows, balances, claims, array_sum: array.sum() }
}

/// For an array with one thread at a time: balances under which no pair is live, and as many claims as there may be.
pub fn crowded(random: &mut Random, array: &Array) -> TableFile {
    let count = random.between(1, 3);
    let balances: Vec<Balance> = (0..count).map(|_| heavy(random, array)).collect();
    let claims = claims::following(random, &balances, MOST_CLAIMS);
    TableFile { rows: saturated(array, &balances), balances, claims, array_sum: array.sum() }
}

/// Every agent weighs more than half of the bound.
fn heavy(random: &mut Random, array: &Array) -> Balance {
    let bound = random.pick(&[1, 2, 3, 65_535]);
    let mut weights = vec![0; array.nodes().len()];
    for agent in agents(array) {
        weights[agent] = random.between(bound / 2 + 1, bound) as u16;
    }
    Balance { bound: bound as u32, weights }
}

/// An accepted draft with one figure changed, or a few of its claims.
pub fn nearly(random: &mut Random, array: &Array) -> TableFile {
    let mut table = accepted(random, array);
    let opened: Vec<usize> = array.opened().iter().collect();
    match random.below(5) {
        0 if !opened.is_empty() => {
            let row = random.below(table.rows.len());
            flip_bit(&mut table.rows[row], random.pick(&opened));
        }
        1 | 2 if !table.balances.is_empty() => {
            let at = random.below(table.balances.len());
            nudge(random, array, &mut table.balances[at]);
        }
        _ if !table.claims.is_empty() => {
            for _ in 0..random.between(1, 4) {
                claims::nudge(random, array, &table.balances, &mut table.claims);
            }
        }
        _ => {}
    }
    table
}

/// A weight or the bound, one up or down.
fn nudge(random: &mut Random, array: &Array, balance: &mut Balance) {
    let up = random.once_in(2);
    match random.any(&agents(array)) {
        Some(agent) if random.once_in(2) => {
            let weight = &mut balance.weights[agent];
            *weight = if up { weight.saturating_add(1) } else { weight.saturating_sub(1) };
        }
        _ => balance.bound = if up { balance.bound.wrapping_add(1) } else { balance.bound.saturating_sub(1) },
    }
}

/// Rows, weights, bounds and claims at random, within what the reader takes.
pub fn broken(random: &mut Random, array: &Array) -> TableFile {
    let opened: Vec<usize> = array.opened().iter().collect();
    let rare = random.between(1, 4);
    let mut rows = if random.once_in(2) { saturated(array, &[]) } else { vec![[0; ROW]; array.names()] };
    for (name, row) in rows.iter_mut().enumerate() {
        for &o in &opened {
            let wanted = o == name && !random.once_in(16) || random.once_in(1 + rare);
            if wanted && !has_bit(row, o) {
                flip_bit(row, o);
            }
        }
    }
    let count = random.below(4);
    let greatest = random.pick(&[1, 2, 5, 65_535]);
    let mut balances = Vec::new();
    for _ in 0..count {
        let mut weights = vec![0u16; array.nodes().len()];
        for agent in agents(array) {
            if !random.once_in(rare) {
                weights[agent] = random.between(0, greatest) as u16;
            }
        }
        let load = load(array, &weights) as usize;
        let bound = random.pick(&[load, load + 1, load + greatest, load.saturating_sub(1), 4_294_967_295]) as u32;
        balances.push(Balance { bound, weights });
    }
    let wanted = random.below(12);
    let mut claims = claims::following(random, &balances, wanted);
    if random.once_in(4) {
        claims::mix_sets(random, &mut claims);
    }
    TableFile { rows, balances, claims, array_sum: array.sum() }
}

/// One balance that holds for the pairs, or one without weights where none was found.
fn balance(random: &mut Random, array: &Array, pairs: &[Pair]) -> Balance {
    let agents = agents(array);
    let mut weights = vec![0u16; array.nodes().len()];
    for _ in 0..random.below(4) {
        if let Some(agent) = random.any(&agents) {
            weights[agent] = random.between(1, 3) as u16;
        }
    }
    let mut weights = raised(random, array, pairs, weights);
    let greatest = weights.iter().copied().max().unwrap_or(0).max(1);
    let scale = if random.once_in(8) { 65_535 / greatest } else { 1 };
    for weight in &mut weights {
        *weight *= scale;
    }
    let load = load(array, &weights);
    let bound = match random.below(8) {
        0 => load + random.below(5) as u64,
        1 => u64::from(u32::MAX),
        // One below a multiple of the greatest weight, where a claim just follows.
        2 => (u64::from(greatest * scale) * random.between(1, 65_536) as u64 - 1).max(load),
        _ => load,
    };
    Balance { bound: bound as u32, weights }
}

/// Weights raised until both continuations of every pair weigh no more than what goes; all 0 if they grow too large.
fn raised(random: &mut Random, array: &Array, pairs: &[Pair], mut weights: Vec<u16>) -> Vec<u16> {
    for _ in 0..40 {
        let loads = loads(array, &weights);
        let mut settled = true;
        for &(p, q) in pairs {
            let stays = array.nodes()[p].kind == Kind::Resource;
            let goes = u64::from(weights[q]) + if stays { 0 } else { u64::from(weights[p]) };
            let comes = loads[array.nodes()[p].left] + loads[array.nodes()[q].left];
            if comes > goes {
                let raise = if stays || random.once_in(2) { q } else { p };
                weights[raise] = (u64::from(weights[raise]) + comes - goes).min(60_000) as u16;
                settled = false;
            }
        }
        if settled {
            return weights;
        }
    }
    vec![0; weights.len()]
}

/// The least rows that meet rules 1 and 3 under the balances.
fn saturated(array: &Array, balances: &[Balance]) -> Rows {
    closed(array, own_rows(array), balances)
}

/// The least rows that meet rule 1.
pub fn own_rows(array: &Array) -> Rows {
    let mut rows = vec![[0; ROW]; array.names()];
    for o in array.opened().iter() {
        flip_bit(&mut rows[o], o);
    }
    rows
}

/// The least rows that contain the given ones and meet rule 3 under the balances.
pub fn closed(array: &Array, mut rows: Rows, balances: &[Balance]) -> Rows {
    loop {
        let mut settled = true;
        for (p, q) in live(array, &rows, balances) {
            let (receiver, sender) = (&array.nodes()[p], &array.nodes()[q]);
            for (to, from) in receiver.arguments.iter().zip(&sender.arguments) {
                let sent = rows[*from];
                for (held, sent) in rows[*to].iter_mut().zip(sent) {
                    settled &= sent & !*held == 0;
                    *held |= sent;
                }
            }
        }
        if settled {
            return rows;
        }
    }
}

/// The live pairs.
pub fn live(array: &Array, rows: &Rows, balances: &[Balance]) -> Vec<Pair> {
    let nodes = array.nodes();
    let mut pairs = Vec::new();
    for p in agents(array).into_iter().filter(|p| nodes[*p].is_receiver()) {
        for q in agents(array).into_iter().filter(|q| nodes[*q].is_sender()) {
            let shared = rows[nodes[p].name].iter().zip(rows[nodes[q].name]).any(|(a, b)| a & b != 0);
            let fits = |balance: &Balance| {
                u64::from(balance.weights[p]) + u64::from(balance.weights[q]) <= u64::from(balance.bound)
            };
            if shared && nodes[p].arity() == nodes[q].arity() && balances.iter().all(fits) {
                pairs.push((p, q));
            }
        }
    }
    pairs
}

/// The load of the root.
fn load(array: &Array, weights: &[u16]) -> u64 {
    loads(array, weights)[0]
}

/// The load of every node.
pub fn loads(array: &Array, weights: &[u16]) -> Vec<u64> {
    let mut loads = vec![0; weights.len()];
    for (i, node) in array.nodes().iter().enumerate().rev() {
        loads[i] = if node.is_agent() { u64::from(weights[i]) } else { passed_on(node, &loads) };
    }
    loads
}

/// The load of a node that is no agent, from those of its children.
pub fn passed_on(node: &Node, loads: &[u64]) -> u64 {
    match node.kind {
        Kind::New => loads[node.left],
        Kind::Par => loads[node.left] + loads[node.right],
        Kind::Choice => loads[node.left].max(loads[node.right]),
        _ => 0,
    }
}

/// The agents that a node's load is made of.
pub fn front(array: &Array, number: usize) -> Vec<usize> {
    let node = &array.nodes()[number];
    if node.is_agent() {
        return vec![number];
    }
    node.children().flat_map(|child| front(array, child)).collect()
}

pub fn agents(array: &Array) -> Vec<usize> {
    (0..array.nodes().len()).filter(|i| array.nodes()[*i].is_agent()).collect()
}

#[cfg(test)]
mod tests {
    use super::*;
    use crate::arrays;

    /// How many of 400 drafts for busy arrays are held.
    fn held(make: fn(&mut Random, &Array) -> TableFile) -> usize {
        let holds = |round: &u64| {
            let mut random = Random::of(2, 0, *round);
            let file = arrays::busy(&mut random).bytes();
            let array = plain::read_array(&file).expect("a valid array");
            let table = make(&mut random, &array).bytes();
            matches!(plain::check(&file, &table), plain::Verdict::Held { .. })
        };
        (0..400).filter(holds).count()
    }

    #[test]
    fn shares_of_held_tables() {
        assert!(held(accepted) > 360);
        assert!((100..360).contains(&held(nearly)));
        assert!((20..300).contains(&held(broken)));
    }

    #[test]
    fn crowded_tables_are_held() {
        for round in 0..100 {
            let mut random = Random::of(2, 1, round);
            let file = arrays::line(&mut random, 300).bytes();
            let array = plain::read_array(&file).expect("a valid array");
            let table = crowded(&mut random, &array);
            let held = matches!(plain::check(&file, &table.bytes()), plain::Verdict::Held { claims: 256, .. });
            assert!(held, "round {round}, {} claims", table.claims.len());
        }
    }
}
