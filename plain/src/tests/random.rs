//! Random arrays, tables, attempts and spoiled files.

use std::collections::{BTreeMap, BTreeSet};

use super::build::*;
use crate::bytes::bit;
use crate::calculus::{attempt, begin, safe, Configuration, Marker, Opening, Thread};
use crate::engine::walk_telling;
use crate::*;

pub struct Dice(pub u64);

impl Dice {
    pub fn below(&mut self, n: usize) -> usize {
        self.0 ^= self.0 << 13;
        self.0 ^= self.0 >> 7;
        self.0 ^= self.0 << 17;
        (self.0 >> 11) as usize % n
    }

    fn choices(&mut self) -> [u8; 128] {
        let mut choices = [0; 128];
        choices.iter_mut().for_each(|byte| *byte = self.below(256) as u8);
        choices
    }
}

/// A random array that the reader must accept, and its number of names.
pub fn random_array(dice: &mut Dice, most: usize) -> (Vec<u8>, usize) {
    let mut records: Vec<Record> = vec![stop()];
    let mut waiting: Vec<(usize, Vec<u8>)> = vec![(0, vec![])];
    let mut names = 0u8;
    while !waiting.is_empty() {
        let (at, mut scope) = waiting.swap_remove(dice.below(waiting.len()));
        if records.len() + 2 > most || names > 240 {
            continue;
        }
        let next = records.len() as u16;
        // First two news, then some pars, then anything.
        let kind = match at {
            _ if scope.len() < 2 => 0,
            _ if at <= most / 8 => 2,
            _ => dice.below(10),
        };
        if kind == 1 {
            continue;
        }
        let arity = dice.below(4) / 2;
        let some = |dice: &mut Dice| match scope.len() {
            0 => 0,
            length => scope[dice.below(length)],
        };
        let channel = if dice.below(3) > 0 { 0 } else { some(dice) };
        let mut two = false;
        let mut bound = vec![];
        records[at] = match kind {
            0 => {
                bound.push(names);
                new(names, next)
            }
            2..=4 => {
                two = true;
                let (left, right) = if dice.below(2) == 0 { (next, next + 1) } else { (next + 1, next) };
                if kind == 4 {
                    choice(left, right)
                } else {
                    par(left, right)
                }
            }
            5..=7 => {
                let sent: Vec<u8> = (0..arity).map(|_| some(dice)).collect();
                out(channel, &sent, next)
            }
            _ => {
                bound.extend((0..arity as u8).map(|i| names + i));
                if kind == 8 {
                    input(channel, &bound, next)
                } else {
                    resource(channel, &bound, next)
                }
            }
        };
        names += bound.len() as u8;
        scope.extend(bound);
        records.push(stop());
        waiting.push((usize::from(next), scope.clone()));
        if two {
            records.push(stop());
            waiting.push((usize::from(next) + 1, scope));
        }
    }
    (array(u16::from(names), &records), usize::from(names))
}

/// The least rows that meet rules 1 and 3 where every balance fits.
fn least_rows(array: &Array) -> Vec<Vec<usize>> {
    let mut rows = vec![BTreeSet::new(); array.names()];
    for o in array.opened().iter() {
        rows[o].insert(o);
    }
    loop {
        let before = rows.clone();
        for p in array.nodes().iter().filter(|node| node.is_receiver()) {
            for q in array.nodes().iter().filter(|node| node.is_sender()) {
                if p.arity() == q.arity() && !rows[p.name].is_disjoint(&rows[q.name]) {
                    for (to, from) in p.arguments.iter().zip(&q.arguments) {
                        let row = rows[*from].clone();
                        rows[*to].extend(row);
                    }
                }
            }
        }
        if rows == before {
            return rows.into_iter().map(|row| row.into_iter().collect()).collect();
        }
    }
}

/// The load of a node, from its kind.
fn slow_load(array: &Array, weights: &[u32], at: usize) -> u32 {
    let node = &array.nodes()[at];
    let load = |child| slow_load(array, weights, child);
    match node.kind {
        Kind::Stop => 0,
        Kind::New => load(node.left),
        Kind::Par => load(node.left) + load(node.right),
        Kind::Choice => load(node.left).max(load(node.right)),
        _ => weights[at],
    }
}

/// Raises weights of outs for rule 4, and gives the load of node 0. It stops
/// after some rounds, so a few pairs may still break the rule.
fn raise(array: &Array, rows: &[Vec<usize>], weights: &mut [u32]) -> u32 {
    let nodes = array.nodes();
    for _ in 0..4 {
        for (p, input) in nodes.iter().enumerate().filter(|(_, node)| node.is_receiver()) {
            for (q, output) in nodes.iter().enumerate().filter(|(_, node)| node.is_sender()) {
                let share = rows[input.name].iter().any(|o| rows[output.name].contains(o));
                if share && input.arity() == output.arity() {
                    let comes = slow_load(array, weights, input.left) + slow_load(array, weights, output.left);
                    let goes = if input.kind == Kind::In { weights[p] } else { 0 };
                    weights[q] = weights[q].max(comes.saturating_sub(goes)).min(100);
                }
            }
        }
    }
    slow_load(array, weights, 0)
}

/// A bound and random weights, half of the time raised to fit each other.
fn random_balance(dice: &mut Dice, array: &Array, rows: &[Vec<usize>]) -> (u32, Vec<(usize, u16)>) {
    let mut weights = vec![0; array.nodes().len()];
    let rarely = 1 + dice.below(12);
    for agent in (0..weights.len()).filter(|i| array.agent(*i).is_some()) {
        if dice.below(rarely) == 0 {
            weights[agent] = 1 + dice.below(2) as u32;
        }
    }
    let mut bound = dice.below(6) as u32;
    if dice.below(2) == 0 {
        bound = raise(array, rows, &mut weights);
    }
    let weights = weights.iter().enumerate().filter(|(_, weight)| **weight > 0);
    (bound, weights.map(|(agent, weight)| (agent, *weight as u16)).collect())
}

/// Adds the claims of one set, mostly of agents with a weight, and with the
/// least `most` for one of them. An agent may be named more than once.
fn add_set(dice: &mut Dice, agents: &[usize], set: u16, parts: &mut Parts) {
    let balance = dice.below(parts.balances.len());
    let (bound, weights) = &parts.balances[balance];
    let mut picked = vec![(agents[dice.below(agents.len())], 1)];
    if !weights.is_empty() && dice.below(4) > 0 {
        let count = 1 + dice.below(3 * weights.len()).min(99);
        picked = (0..count).map(|_| weights[dice.below(weights.len())]).collect();
    }
    let most = bound / u32::from(picked[dice.below(picked.len())].1);
    let claim = |(agent, _): &(usize, u16)| [*agent as u16, most as u16, balance as u16, set];
    parts.claims.extend(picked.iter().map(claim));
}

/// A table with least rows, random weights, and claims in any order with repeats.
pub fn random_parts(dice: &mut Dice, array: &Array) -> Parts {
    let agents: Vec<usize> = (0..array.nodes().len()).filter(|i| array.agent(*i).is_some()).collect();
    let mut parts = Parts { rows: least_rows(array), ..Parts::default() };
    for _ in 0..dice.below(3) {
        let balance = random_balance(dice, array, &parts.rows);
        parts.balances.push(balance);
    }
    if !agents.is_empty() && !parts.balances.is_empty() {
        for _ in 0..dice.below(2) {
            let agent = agents[dice.below(agents.len())] as u16;
            let balance = dice.below(parts.balances.len()) as u16;
            parts.claims.push([agent, dice.below(4) as u16, balance, 0]);
        }
        for set in [256, 1].into_iter().take(dice.below(3)) {
            add_set(dice, &agents, set, &mut parts);
        }
        for i in 1..parts.claims.len() {
            parts.claims.swap(i, dice.below(i + 1));
        }
    }
    parts
}

/// The same parts with their claims in order.
pub fn ordered(parts: &Parts) -> Parts {
    Parts { claims: in_order(&parts.claims), ..parts.clone() }
}

/// Whether two claims, by their places, stand for one set or are the same claim.
fn one_set(claims: &[[u16; 4]], i: usize, j: usize) -> bool {
    i == j || claims[i][3] != 0 && claims[i][3] == claims[j][3]
}

/// The threads that a claim's set speaks of, each thread counted once.
fn spoken_of(claims: &[[u16; 4]], i: usize, configuration: &Configuration) -> usize {
    let named = |node| (0..claims.len()).any(|j| one_set(claims, i, j) && usize::from(claims[j][0]) == node);
    configuration.threads.iter().filter(|thread| named(thread.node)).count()
}

/// Whether a claim's set has as many threads as it may, and not all of one agent.
fn is_shared(claims: &[[u16; 4]], i: usize, configuration: &Configuration) -> bool {
    let agent = usize::from(claims[i][0]);
    let own = configuration.threads.iter().filter(|thread| thread.node == agent).count();
    let all = spoken_of(claims, i, configuration);
    all == usize::from(claims[i][1]) && 0 < own && own < all
}

/// The configuration that lent lists stand for.
fn lifted(array: &Array, threads: &[u32], markers: &[u16], counts: Counts) -> Configuration {
    let mut trees = vec![Marker::empty()];
    for entry in markers.chunks(4).take(counts.markers) {
        let part = |i: usize| trees[usize::from(entry[i])].clone();
        trees.push(Marker::new(usize::from(entry[0]), usize::from(entry[1]), part(2), part(3)));
    }
    let width = 2 + array.names();
    let lift = |words: &[u32]| {
        let mut names = BTreeMap::new();
        for (name, word) in words[2..].iter().enumerate().filter(|(_, word)| **word != 0) {
            let new = ((word - 1) / 65_536) as usize;
            let marker = trees[((word - 1) % 65_536) as usize].clone();
            names.insert(name, Opening { new, marker });
        }
        Thread { node: words[0] as usize, marker: trees[words[1] as usize].clone(), names }
    };
    Configuration { threads: threads.chunks(width).take(counts.threads).map(lift).collect() }
}

/// Two random positions, mostly of threads that are ready.
fn random_pair(dice: &mut Dice, array: &Array, configuration: &Configuration) -> (usize, usize) {
    let threads = &configuration.threads;
    let mut ready = vec![];
    for (i, p) in threads.iter().enumerate() {
        for (j, q) in threads.iter().enumerate() {
            let (input, output) = (&array.nodes()[p.node], &array.nodes()[q.node]);
            let kinds = input.is_receiver() && output.is_sender();
            let same = p.names[&input.name] == q.names[&output.name];
            if kinds && same && input.arity() == output.arity() {
                ready.push((i, j));
            }
        }
    }
    if ready.is_empty() || dice.below(4) == 0 {
        (dice.below(threads.len() + 1), dice.below(threads.len() + 1))
    } else {
        ready[dice.below(ready.len())]
    }
}

#[test]
fn engine_and_calculus_agree() {
    let mut dice = Dice(1);
    let mut steps = 0;
    for _ in 0..400 {
        let (file, names) = random_array(&mut dice, 60);
        let array = read_array(&file).unwrap();
        let mut threads = vec![0; 256 * (2 + names)];
        let mut markers = vec![0; 4096 * 4];
        let choices = dice.choices();
        let mut free = begin(&array, &|node| bit(&choices, node));
        let mut counts = Counts { threads: start(&file, &choices, &mut threads).unwrap(), markers: 0 };
        assert_eq!(lifted(&array, &threads, &markers, counts), free);
        for _ in 0..40 {
            let choices = dice.choices();
            let (receiver, sender) = random_pair(&mut dice, &array, &free);
            let next = attempt(&array, &free, receiver, sender, &|node| bit(&choices, node));
            let stepped =
                step(&file, &choices, &mut threads, counts.threads, &mut markers, counts.markers, receiver, sender);
            match (stepped, next) {
                (Ok(after), Ok(next)) => {
                    counts = after;
                    free = next;
                    steps += 1;
                }
                (Err(refusal), Err(number)) => assert_eq!(refusal.number, number),
                (Err(refusal), Ok(_)) => {
                    assert!(refusal.number >= 28);
                    break;
                }
                (Ok(_), Err(number)) => panic!("only the calculus refused: {number}"),
            }
            assert_eq!(lifted(&array, &threads, &markers, counts), free);
        }
    }
    assert!(steps > 2000, "{steps}");
}

#[test]
fn a_walk_is_its_steps() {
    let mut dice = Dice(2);
    let mut endings = [0; 3];
    for _ in 0..300 {
        let (file, names) = random_array(&mut dice, 60);
        let choices = dice.choices();
        let mut threads = vec![9; 30 * (2 + names)];
        let mut markers = vec![9; 12 * 4];
        let Ok(count) = start(&file, &choices, &mut threads) else {
            continue;
        };
        let allowed = dice.below(20) as u32;
        let mut by_steps = (threads.clone(), markers.clone());
        let walked = walk(&file, &choices, &mut threads, count, &mut markers, 0, allowed).unwrap();

        let mut counts = Counts { threads: count, markers: 0 };
        let mut steps = 0;
        let ending = 'steps: loop {
            for receiver in 0..counts.threads {
                for sender in 0..counts.threads {
                    let mut trial = by_steps.clone();
                    let stepped = step(
                        &file,
                        &choices,
                        &mut trial.0,
                        counts.threads,
                        &mut trial.1,
                        counts.markers,
                        receiver,
                        sender,
                    );
                    match stepped {
                        Err(Refusal { number: 25..=27, .. }) => continue,
                        _ if steps == allowed => break 'steps Ending::Spent,
                        Err(Refusal { number: 28..=29, .. }) => break 'steps Ending::Full,
                        Ok(after) => {
                            by_steps = trial;
                            counts = after;
                            steps += 1;
                            continue 'steps;
                        }
                        Err(refusal) => panic!("{refusal:?}"),
                    }
                }
            }
            break Ending::Quiet;
        };
        assert_eq!(walked, Walked { ending, steps, counts });
        assert_eq!((threads, markers), by_steps);
        endings[ending as usize] += 1;
    }
    assert!(endings.iter().all(|count| *count > 5), "{endings:?}");
}

#[test]
fn a_walk_is_its_strides() {
    let mut dice = Dice(5);
    let mut endings = [0; 3];
    for _ in 0..300 {
        let (file, names) = random_array(&mut dice, 60);
        let choices = dice.choices();
        let mut threads = vec![9; 30 * (2 + names)];
        let mut markers = vec![9; 12 * 4];
        let Ok(count) = start(&file, &choices, &mut threads) else {
            continue;
        };
        let allowed = dice.below(20) as u32;
        let mut lent = (threads.clone(), markers.clone());
        let mut told = vec![];
        let walked =
            walk_telling(&file, &choices, &mut threads, count, &mut markers, 0, allowed, &mut |made| told.push(made));

        let mut counts = Counts { threads: count, markers: 0 };
        let mut allowance = Allowance { allowed, left: allowed };
        let mut steps = vec![];
        let (ending, number) = loop {
            let before = lent.clone();
            let answer =
                stride(&file, &choices, &mut lent.0, counts.threads, &mut lent.1, counts.markers, allowance).unwrap();
            match answer {
                Stride::Made(made, after, less) => {
                    assert_eq!(less, Allowance { allowed, left: allowance.left - 1 });
                    (counts, allowance) = (after, less);
                    steps.push(made);
                }
                Stride::Ended(ending, number) => {
                    assert_eq!(lent, before);
                    break (ending, number);
                }
            }
        };
        assert_eq!(walked, Ok(Walked { ending, steps: number, counts }));
        assert_eq!(steps, told);
        assert_eq!(number as usize, steps.len());
        assert_eq!(lent, (threads, markers));
        endings[ending as usize] += 1;
    }
    assert!(endings.iter().all(|count| *count > 5), "{endings:?}");
}

#[test]
fn accepted_tables_are_safe() {
    let mut dice = Dice(3);
    let (mut accepted, mut steps, mut shared) = (0, 0, 0);
    for _ in 0..12_000 {
        let (file, _) = random_array(&mut dice, 40);
        let array = read_array(&file).unwrap();
        let parts = ordered(&random_parts(&mut dice, &array));
        let bytes = table(&file, &parts);
        if parts.balances.is_empty() || !matches!(check(&file, &bytes), Verdict::Held { .. }) {
            continue;
        }
        accepted += 1;
        let table = read_table(&file, &bytes).unwrap();
        let choices = dice.choices();
        let mut configuration = begin(&array, &|node| bit(&choices, node));
        assert!(safe(&array, &table, &configuration));
        for _ in 0..30 {
            let choices = dice.choices();
            let (receiver, sender) = random_pair(&mut dice, &array, &configuration);
            let next = attempt(&array, &configuration, receiver, sender, &|node| bit(&choices, node));
            if let Ok(next) = next {
                configuration = next;
                steps += 1;
                assert!(safe(&array, &table, &configuration));
                let claims = &parts.claims;
                shared += (0..claims.len()).filter(|i| is_shared(claims, *i, &configuration)).count();
            }
        }
    }
    assert!(accepted > 100 && steps > 200 && shared > 50, "{accepted} {steps} {shared}");
}

#[test]
fn safe_counts_the_threads_of_a_set() {
    let mut dice = Dice(6);
    let mut answers = [0; 2];
    for _ in 0..600 {
        let (file, names) = random_array(&mut dice, 60);
        let array = read_array(&file).unwrap();
        // Rows and bounds that always hold. The table says in order what the claims say as they come.
        let mut parts = random_parts(&mut dice, &array);
        parts.rows = vec![array.opened().iter().collect(); names];
        parts.balances.iter_mut().for_each(|balance| balance.0 = u32::MAX);
        let claims = &parts.claims;
        let table = read_table(&file, &table(&file, &ordered(&parts))).unwrap();
        let mut configuration = begin(&array, &|_| false);
        for _ in 0..20 {
            let holds = |i| spoken_of(claims, i, &configuration) <= usize::from(claims[i][1]);
            let expected = (0..claims.len()).all(holds);
            assert_eq!(safe(&array, &table, &configuration), expected);
            answers[usize::from(expected)] += 1;
            let choices = dice.choices();
            let (receiver, sender) = random_pair(&mut dice, &array, &configuration);
            if let Ok(next) = attempt(&array, &configuration, receiver, sender, &|node| bit(&choices, node)) {
                configuration = next;
            }
        }
    }
    assert!(answers.iter().all(|count| *count > 500), "{answers:?}");
}

/// Refusals 21 and 30 for array A, claim by claim, as number and place.
fn slow_refusals(claims: &[[u16; 4]], balances: &[(u32, Vec<(usize, u16)>)]) -> Option<(u8, usize)> {
    let places = 0..claims.len();
    let is_wrong = |i: &usize| !matches!(claims[*i][0], 3 | 5 | 6) || usize::from(claims[*i][2]) >= balances.len();
    let differs = |i: &usize| (0..*i).any(|j| one_set(claims, *i, j) && claims[*i][1..3] != claims[j][1..3]);
    let wrong = places.clone().find(is_wrong).map(|place| (21, place));
    wrong.or_else(|| places.clone().find(differs).map(|place| (30, place)))
}

/// Refusal 31, with each claim taken as one number of 64 bits.
fn slow_order(claims: &[[u16; 4]]) -> Option<(u8, usize)> {
    let whole = |claim: &[u16; 4]| [3, 0, 1, 2].iter().fold(0, |sum, i| sum * 65_536 + u64::from(claim[*i]));
    let rises = |pair: &[[u16; 4]]| whole(&pair[0]) < whole(&pair[1]);
    claims.windows(2).position(|pair| !rises(pair)).map(|first| (31, first + 1))
}

/// Rule 5 for array A, claim by claim. Agent 3 has no weight.
fn slow_rule_5(claims: &[[u16; 4]], balances: &[(u32, Vec<(usize, u16)>)]) -> Option<(u8, usize)> {
    // A set's least weight will do if each of its weights will do.
    let fails = |j: usize| {
        let (bound, weights) = &balances[usize::from(claims[j][2])];
        let weight = weights.iter().find(|(agent, _)| *agent == usize::from(claims[j][0])).map_or(0, |pair| pair.1);
        u64::from(weight) * (u64::from(claims[j][1]) + 1) <= u64::from(*bound)
    };
    let in_failing_set = |i: &usize| (0..claims.len()).any(|j| one_set(claims, *i, j) && fails(j));
    (0..claims.len()).find(in_failing_set).map(|place| (5, place))
}

/// Parts of a table for array A with random claims, in any order and with repeats.
fn random_claims(dice: &mut Dice) -> Parts {
    let mut parts = parts_a();
    parts.balances = vec![(5, vec![(5, 5), (6, 2)]), (1, vec![(5, 1), (6, 1)])];
    let rarely = 3 + dice.below(30);
    let mut sets = [0, 1, 256, 65_535].map(|set| [0, dice.below(4) as u16, dice.below(2) as u16, set]);
    parts.claims.clear();
    for _ in 0..dice.below(8) {
        sets[0][1] = dice.below(4) as u16;
        let mut claim = sets[dice.below(4)];
        claim[0] = 5 + dice.below(2) as u16;
        match dice.below(rarely) {
            0 => claim[dice.below(3)] = dice.below(4) as u16,
            1 => claim[1 + dice.below(2)] = dice.below(2) as u16,
            2 => claim[0] = 3,
            _ => {}
        }
        parts.claims.push(claim);
    }
    parts
}

/// Number and place of a refusal or of rule 5, none if the table is held.
fn judged_a(parts: &Parts) -> Option<(u8, usize)> {
    let a = array_a();
    match check(&a, &table(&a, parts)) {
        Verdict::Refused(refusal) => Some((refusal.number, refusal.place)),
        Verdict::Rule { number: 5, place } => Some((5, place[0])),
        Verdict::Rule { number, .. } => panic!("rule {number}"),
        Verdict::Held { .. } => None,
    }
}

#[test]
fn claims_are_judged_by_sets() {
    let mut dice = Dice(7);
    let mut found = BTreeMap::new();
    for _ in 0..20_000 {
        let mut parts = random_claims(&mut dice);
        if dice.below(3) > 0 {
            parts = ordered(&parts);
        }
        let (claims, balances) = (&parts.claims, &parts.balances);
        let expected =
            slow_refusals(claims, balances).or_else(|| slow_order(claims)).or_else(|| slow_rule_5(claims, balances));
        assert_eq!(judged_a(&parts), expected, "{claims:?}");
        *found.entry(expected.map_or(0, |answer| answer.0)).or_insert(0) += 1;
    }
    assert!(found.len() == 5 && found.values().all(|count| *count > 1000), "{found:?}");
}

#[test]
fn order_and_repeats_decide_nothing_but_31() {
    let mut dice = Dice(8);
    let mut found = BTreeMap::new();
    for _ in 0..20_000 {
        let parts = random_claims(&mut dice);
        let (claims, balances) = (&parts.claims, &parts.balances);
        // What is said of the claims as they come, but for 31.
        let expected = slow_refusals(claims, balances).or_else(|| slow_rule_5(claims, balances));
        let number = |answer: Option<(u8, usize)>| answer.map_or(0, |answer| answer.0);
        assert_eq!(number(judged_a(&ordered(&parts))), number(expected), "{claims:?}");
        *found.entry(number(expected)).or_insert(0) += 1;
    }
    assert!(found.len() == 4 && found.values().all(|count| *count > 1000), "{found:?}");
}

#[test]
fn claims_put_in_order_pass_31() {
    let mut dice = Dice(9);
    let file = row_of_outs(600);
    let (mut repeats, mut rising) = (0, 0);
    for _ in 0..500 {
        let values = [4, 40, 600][dice.below(3)];
        let longest = [3, 256][dice.below(2)];
        let mut claims = vec![];
        for _ in 0..dice.below(longest + 1) {
            // Claims of a set agree in most and balance.
            let set = [0, dice.below(values) * 109][dice.below(2)] as u16;
            let (most, balance) = if set == 0 { (109 * dice.below(values), dice.below(24)) } else { (300, 3) };
            claims.push([1 + dice.below(values) as u16, most as u16, balance as u16, set]);
        }
        let parts = Parts { rows: vec![vec![0]], balances: vec![(9, vec![]); 24], claims };
        let sorted = ordered(&parts);
        repeats += parts.claims.len() - sorted.claims.len();
        let read = read_table(&file, &table(&file, &sorted)).unwrap();
        assert_eq!(read.claims().len(), sorted.claims.len());
        let as_they_come = read_table(&file, &table(&file, &parts));
        match slow_order(&parts.claims) {
            Some((number, place)) => assert_eq!(as_they_come, Err(Refusal { number, place })),
            None => {
                assert_eq!(as_they_come, Ok(read));
                rising += 1;
            }
        }
    }
    assert!(repeats > 500 && rising > 50, "{repeats} {rising}");
}

#[test]
fn spoiled_files_are_refused_or_read() {
    let mut dice = Dice(4);
    let mut numbers = [0; 32];
    for round in 0..20_000 {
        let (mut file, names) = random_array(&mut dice, 24);
        let mut bytes = match read_array(&file) {
            Ok(array) => table(&file, &ordered(&random_parts(&mut dice, &array))),
            Err(refusal) => panic!("{refusal:?}"),
        };
        let spoiled = if round % 2 == 0 { &mut file } else { &mut bytes };
        for _ in 0..dice.below(3) {
            let at = dice.below(spoiled.len());
            spoiled[at] = if dice.below(2) == 0 { dice.below(12) } else { dice.below(256) } as u8;
        }
        if dice.below(4) > 0 {
            set_sum(spoiled);
        }
        match check(&file, &bytes) {
            Verdict::Refused(refusal) => numbers[usize::from(refusal.number)] += 1,
            _ => numbers[0] += 1,
        }
        assert!(file.starts_with(remark(&file)));

        let mut threads = vec![0; 8 * (2 + names)];
        let mut markers = vec![0; 4 * 4];
        let choices = dice.choices();
        let started = start(&file, &choices, &mut threads).unwrap_or(0);
        if dice.below(4) == 0 {
            let at = dice.below(threads.len());
            threads[at] = [dice.below(20), 65_536 * dice.below(20) + dice.below(5)][dice.below(2)] as u32;
        }
        markers.iter_mut().for_each(|number| *number = dice.below(12) as u16);
        let thread_count = if dice.below(4) == 0 { dice.below(10) } else { started };
        let marker_count = if dice.below(4) == 0 { dice.below(6) } else { 0 };
        let (receiver, sender) = (dice.below(4), dice.below(4));
        let stepped = step(&file, &choices, &mut threads, thread_count, &mut markers, marker_count, receiver, sender);
        if let Err(refusal) = stepped {
            numbers[usize::from(refusal.number)] += 1;
        }
        let _ = walk(&file, &choices, &mut threads, thread_count, &mut markers, marker_count, 9);
    }
    assert!(numbers[..=27].iter().filter(|count| **count > 0).count() > 20, "{numbers:?}");
    assert!(numbers[30] > 0 && numbers[31] > 0, "{numbers:?}");
}

/// Refusal 12 by going up the tree from each node.
fn slow_reach(array: &[Record], names: usize) -> Option<usize> {
    let child = |record: &Record, at: usize| usize::from(u16::from_le_bytes([record[at], record[at + 1]]));
    let mut parent = vec![0; array.len()];
    for (i, record) in array.iter().enumerate() {
        for at in [2, 4] {
            let child = child(record, at);
            if child != 0 {
                parent[child] = i;
            }
        }
    }
    (0..array.len()).find(|&i| {
        let record = &array[i];
        let mut used = vec![];
        if record[0] >= 4 {
            used.push(record[6]);
        }
        if record[0] == 4 {
            used.extend(&record[8..8 + usize::from(record[1])]);
        }
        used.iter().any(|name| {
            assert!(usize::from(*name) < names);
            let mut at = i;
            while at != 0 {
                at = parent[at];
                let above = &array[at];
                let binds = match above[0] {
                    1 => above[6] == *name,
                    5 | 6 => above[8..8 + usize::from(above[1])].contains(name),
                    _ => false,
                };
                if binds {
                    return false;
                }
            }
            true
        })
    })
}

#[test]
fn reach_agrees_with_going_up() {
    let mut dice = Dice(5);
    let mut found = [0; 2];
    for _ in 0..3000 {
        let (file, names) = random_array(&mut dice, 30);
        let records = file[..file.len() - 16].chunks(16);
        let mut records: Vec<Record> = records.map(|bytes| bytes.try_into().unwrap()).collect();
        for record in &mut records {
            if record[0] >= 4 && dice.below(4) == 0 {
                record[6] = dice.below(names) as u8;
            }
            if record[0] == 4 && record[1] > 0 && dice.below(4) == 0 {
                record[8] = dice.below(names) as u8;
            }
        }
        let expected = slow_reach(&records, names);
        let got = read_array(&array(names as u16, &records));
        match expected {
            Some(place) => assert_eq!(got, Err(Refusal { number: 12, place })),
            None => assert!(got.is_ok()),
        }
        found[usize::from(expected.is_some())] += 1;
    }
    assert!(found.iter().all(|count| *count > 100), "{found:?}");
}
