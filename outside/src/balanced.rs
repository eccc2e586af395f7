//! Tables with weights in many balances for arrays of any size, nearly all of them held: most live pairs have nothing to
//! spare, and pairs that would break a rule are ended by a balance, a row or an arity.

use plain::{Array, Kind};

use crate::claims;
use crate::files::{flip_bit, has_bit, Balance, TableFile};
use crate::random::Random;
use crate::tables::{closed, front, live, loads, own_rows, passed_on, Pair, Rows};

const MOST_WEIGHT: i64 = 65_535;

pub fn draft(random: &mut Random, array: &Array) -> TableFile {
    let any = random.between(0, 24);
    let count = random.pick(&[0, 1, 2, 3, 24, any]);
    let lines = lines(array);
    let mut balances: Vec<Balance> = Vec::new();
    for _ in 0..random.below(4).min(count) {
        balances.extend(random.any(&lines).map(|top| line(random, array, top)));
    }
    let start = start_rows(random, array);
    let mut rows = closed(array, start.clone(), &balances);
    let pairs = live(array, &rows, &balances);
    let teams = teams(array, &pairs);
    while balances.len() < count {
        let heavy = if random.once_in(6) { heavy(random, array, &pairs) } else { None };
        balances.push(heavy.unwrap_or_else(|| even(random, array, &pairs, &teams)));
    }
    random.shuffle(&mut balances);
    if !random.once_in(3) {
        rows = closed(array, start, &balances);
    }
    let wanted = random.below(4);
    let claims = claims::following(random, &balances, wanted);
    TableFile { rows, balances, claims, array_sum: array.sum() }
}

/// Each new's own bit, and some more.
fn start_rows(random: &mut Random, array: &Array) -> Rows {
    let mut rows = own_rows(array);
    let opened: Vec<usize> = array.opened().iter().collect();
    for _ in 0..random.pick(&[0, 0, 1, 4]) {
        let (name, o) = (random.below(rows.len()), random.pick(&opened));
        if !has_bit(&rows[name], o) {
            flip_bit(&mut rows[name], o);
        }
    }
    rows
}

/// Whether each node lies below a resource.
fn copied(array: &Array) -> Vec<bool> {
    let mut copied = vec![false; array.nodes().len()];
    for (i, node) in array.nodes().iter().enumerate() {
        for child in node.children() {
            copied[child] = copied[i] || node.kind == Kind::Resource;
        }
    }
    copied
}

/// The nodes that become one thread at a time, with two agents or more, and are never copied.
fn lines(array: &Array) -> Vec<usize> {
    let (nodes, copied) = (array.nodes(), copied(array));
    let mut agents = vec![Some(0); nodes.len()];
    for (i, node) in nodes.iter().enumerate().rev() {
        let below: Option<usize> = node.children().map(|child| agents[child]).sum();
        agents[i] = below.filter(|_| node.kind != Kind::Par).map(|below| below + usize::from(node.is_agent()));
    }
    (0..nodes.len()).filter(|i| agents[*i].is_some_and(|n| n > 1) && !copied[*i]).collect()
}

/// Weights for the agents of one line and those above it, of which two together are mostly too heavy.
fn line(random: &mut Random, array: &Array, top: usize) -> Balance {
    let most = random.pick(&[1, 1, 2, 9, 500, 32_768, 65_535]);
    let least = random.pick(&[most, most, most / 2 + 1]);
    let copied = copied(array);
    let mut inside = vec![false; copied.len()];
    inside[top] = true;
    for (i, node) in array.nodes().iter().enumerate() {
        node.children().for_each(|child| inside[child] |= inside[i]);
    }
    let (mut weights, mut loads) = (vec![0; copied.len()], vec![0; copied.len()]);
    for (i, node) in array.nodes().iter().enumerate().rev().filter(|(i, _)| !copied[*i]) {
        let own = if node.is_agent() && inside[i] { random.between(least, most) } else { 0 };
        loads[i] = node.children().map(|child| loads[child]).fold(own, usize::max);
        weights[i] = if node.is_agent() { loads[i] as u16 } else { 0 };
    }
    let any = random.between(most, 2 * most - 1);
    Balance { bound: random.pick(&[most, 2 * most - 1, 2 * most - 1, any]) as u32, weights }
}

/// A receiver that goes on as two agents of the greatest weight, where all that it meets pay for that.
fn heavy(random: &mut Random, array: &Array, pairs: &[Pair]) -> Option<Balance> {
    let nodes = array.nodes();
    let fullest = loads(array, &vec![u16::MAX; nodes.len()]);
    let twofold = |p: &usize| nodes[*p].kind == Kind::In && fullest[nodes[*p].left] > u16::MAX.into();
    let mut receivers: Vec<usize> = pairs.iter().map(|(p, _)| *p).filter(twofold).collect();
    receivers.dedup();
    random.shuffle(&mut receivers);
    let weights = receivers.into_iter().find_map(|p| paid(random, array, pairs, p))?;
    let bound = random.pick(&[131_069, 131_070, 131_071, 131_071]).max(loads(array, &weights)[0]);
    Some(Balance { bound: bound as u32, weights })
}

/// The greatest weight for two agents that a receiver goes on as, for itself and for all that it meets, if that holds.
fn paid(random: &mut Random, array: &Array, pairs: &[Pair], p: usize) -> Option<Vec<u16>> {
    let nodes = array.nodes();
    let mut weights = vec![0; nodes.len()];
    let mut after = front(array, nodes[p].left);
    random.shuffle(&mut after);
    after.into_iter().take(2).for_each(|x| weights[x] = u16::MAX);
    pairs.iter().filter(|pair| pair.0 == p).for_each(|(_, q)| weights[*q] = u16::MAX);
    let mut loads = vec![0; nodes.len()];
    for (i, node) in nodes.iter().enumerate().rev() {
        loads[i] = if node.is_agent() { loads[node.left] } else { passed_on(node, &loads) };
        if i == p {
            loads[i] = u16::MAX.into();
        }
        if node.is_agent() {
            weights[i] = weights[i].max(u16::try_from(loads[i]).ok()?);
            loads[i] = weights[i].into();
        }
    }
    pairs.iter().all(|pair| slack(array, &weights, &loads, *pair) >= 0).then_some(weights)
}

/// What goes less what comes if a pair meets.
fn slack(array: &Array, weights: &[u16], loads: &[u64], (p, q): Pair) -> i64 {
    let (receiver, sender) = (&array.nodes()[p], &array.nodes()[q]);
    let goes = i64::from(weights[q]) + if receiver.kind == Kind::In { i64::from(weights[p]) } else { 0 };
    goes - loads[receiver.left] as i64 - loads[sender.left] as i64
}

/// Agents that meet directly or through others have the same number; the number of an agent that meets none is its own.
fn teams(array: &Array, pairs: &[Pair]) -> Vec<usize> {
    let mut teams: Vec<usize> = (0..array.nodes().len()).collect();
    loop {
        let mut settled = true;
        for (p, q) in pairs {
            let least = teams[*p].min(teams[*q]);
            settled &= teams[*p] == teams[*q];
            (teams[*p], teams[*q]) = (least, least);
        }
        if settled {
            return teams;
        }
    }
}

/// How weights are drawn: what a team's senders have to spare, and in how many agents more is added, at most how much.
struct Draw {
    spare: Vec<i64>,
    more_in: usize,
    most: usize,
    /// What is copied has no weight.
    light: bool,
}

/// A balance that holds for the pairs.
fn even(random: &mut Random, array: &Array, pairs: &[Pair], teams: &[usize]) -> Balance {
    let mut weights = (0..4).find_map(|_| {
        let draw = draw(random, teams);
        weigh(random, array, teams, &draw)
    });
    if weights.is_none() {
        let draw = Draw { spare: vec![0; teams.len()], more_in: 8, most: 2, light: true };
        weights = weigh(random, array, teams, &draw);
    }
    let mut weights = weights.unwrap_or_else(|| vec![0; teams.len()]);
    lessen(random, array, pairs, &mut weights);
    let bound = bound(random, array, &weights);
    Balance { bound, weights }
}

fn draw(random: &mut Random, teams: &[usize]) -> Draw {
    let most = random.pick(&[1, 1, 3, 3, 100, 5_000, 65_535]);
    let often = random.pick(&[1, 2, 8]);
    let mut spare = || if random.once_in(often) { random.between(0, 2 * most) as i64 - most as i64 } else { 0 };
    let spare = teams.iter().map(|_| spare()).collect();
    Draw { spare, more_in: random.pick(&[2, 6, 30, 1000]), most, light: random.once_in(3) }
}

/// Weights under which a team's senders have at least so much to spare and its receivers need no more; none where a
/// weight would be too large or a resource would need more.
fn weigh(random: &mut Random, array: &Array, teams: &[usize], draw: &Draw) -> Option<Vec<u16>> {
    let copied = copied(array);
    let mut spare = draw.spare.clone();
    for (i, node) in array.nodes().iter().enumerate() {
        if node.kind == Kind::Resource {
            spare[teams[i]] = spare[teams[i]].abs();
        }
        if draw.light && copied[i] {
            spare[teams[i]] = 0;
        }
    }
    let (mut weights, mut loads) = (vec![0u16; teams.len()], vec![0; teams.len()]);
    for (i, node) in array.nodes().iter().enumerate().rev() {
        if !node.is_agent() {
            loads[i] = passed_on(node, &loads);
            continue;
        }
        let (below, spare) = (loads[node.left] as i64, spare[teams[i]]);
        let least = match node.kind {
            Kind::Out => below + spare,
            Kind::In => below - spare,
            _ if below > spare => return None,
            _ => 0,
        };
        let more = if random.once_in(draw.more_in) { random.between(1, draw.most) as i64 } else { 0 };
        let weight = if draw.light && copied[i] { 0 } else { least.max(0) + more };
        weights[i] = u16::try_from(weight).ok()?;
        loads[i] = weights[i].into();
    }
    Some(weights)
}

/// Takes from some agents what they have to spare in all their pairs; those without pairs lose any part.
fn lessen(random: &mut Random, array: &Array, pairs: &[Pair], weights: &mut [u16]) {
    let loads = loads(array, weights);
    let nodes = array.nodes();
    for x in (0..weights.len()).filter(|x| nodes[*x].is_agent()) {
        if !random.once_in(3) {
            continue;
        }
        let own = pairs.iter().filter(|(p, q)| *p == x || *q == x);
        let least = own.map(|pair| slack(array, weights, &loads, *pair)).min();
        let least = least.unwrap_or_else(|| random.between(0, weights[x].into()) as i64);
        let least = if nodes[x].kind == Kind::Resource { 0 } else { least.clamp(0, MOST_WEIGHT) };
        weights[x] = weights[x].saturating_sub(least as u16);
    }
}

/// A bound that the root is within: just so, at the end, or where a pair is just live or just not.
fn bound(random: &mut Random, array: &Array, weights: &[u16]) -> u32 {
    let load = loads(array, weights)[0];
    let heavy: Vec<u64> = weights.iter().filter(|weight| **weight > 0).map(|weight| u64::from(*weight)).collect();
    let sum = random.any(&heavy).unwrap_or(0) + random.any(&heavy).unwrap_or(0);
    let bound = match random.below(8) {
        0 => u64::from(u32::MAX),
        1 => load + random.below(5) as u64,
        2 | 3 => load,
        4 | 5 => sum,
        _ => sum.saturating_sub(1),
    };
    bound.max(load) as u32
}

#[cfg(test)]
mod tests {
    use super::*;
    use crate::many_senders;

    #[test]
    fn most_drafts_are_held() {
        let holds = |round: &u64| {
            let mut random = Random::of(4, 0, *round);
            let file = many_senders::array(&mut random).bytes();
            let array = plain::read_array(&file).expect("a valid array");
            let table = draft(&mut random, &array).bytes();
            matches!(plain::check(&file, &table), plain::Verdict::Held { .. })
        };
        let held = (0..200).filter(holds).count();
        assert!(held > 190, "{held} of 200");
    }
}
