//! Arrays of one line of agents that use news and parameters alike, as channels and as what is sent, so that bits take
//! many ways and pairs live only late; and balances that end pairs at random.

use plain::Array;

use crate::files::{ArrayFile, Balance, Record, TableFile, IN, NEW, OUT, RESOURCE, ROW, STOP};
use crate::random::Random;
use crate::{arrays, tables};

const MOST_NAMES: usize = 256;

pub fn array(random: &mut Random) -> ArrayFile {
    let news = random.pick(&[1, 2, 5, 20, 60]);
    let names = random.between(news + 1, MOST_NAMES);
    let arities = random.pick(&[&[1][..], &[1], &[1, 2], &[2], &[0, 1, 2, 3], &[3, 8], &[1, 7, 8]]);
    let new = |name: usize| Record { kind: NEW, name, ..Record::default() };
    let mut records: Vec<Record> = (0..news).map(new).collect();
    let mut bound = news;
    for _ in 0..random.between(10, 300) {
        let record = agent(random, news, bound, names, arities);
        bound += if record.kind == OUT { 0 } else { record.arguments.len() };
        records.push(record);
    }
    records.iter_mut().enumerate().for_each(|(i, record)| record.left = i + 1);
    records.push(Record { kind: STOP, ..Record::default() });
    arrays::mix_names(random, &mut records, bound);
    ArrayFile { remark: Vec::new(), records, names: bound }
}

/// An agent below which `bound` names are bound, the first of them by news. One that has no names left for its
/// parameters sends.
fn agent(random: &mut Random, news: usize, bound: usize, names: usize, arities: &[usize]) -> Record {
    let arity = random.pick(arities);
    let name = if random.once_in(2) { random.below(news) } else { random.below(bound) };
    if random.once_in(2) || bound + arity > names {
        let arguments = (0..arity).map(|_| sent(random, news, bound)).collect();
        return Record { kind: OUT, name, arguments, ..Record::default() };
    }
    let kind = random.pick(&[IN, IN, RESOURCE]);
    Record { kind, name, arguments: (bound..bound + arity).collect(), ..Record::default() }
}

/// A name to send, mostly one of the last that are bound.
fn sent(random: &mut Random, news: usize, bound: usize) -> usize {
    match random.below(4) {
        0 => random.below(news),
        1 => random.below(bound),
        _ => bound - 1 - random.below(bound.min(9)),
    }
}

/// A table for such an array, with all rows empty.
pub fn table(random: &mut Random, array: &Array) -> TableFile {
    let count = random.pick(&[0, 0, 1, 2, 24]);
    let balances = (0..count).map(|_| balance(random, array)).collect();
    TableFile { rows: vec![[0; ROW]; array.names()], balances, claims: Vec::new(), array_sum: array.sum() }
}

/// Ends few pairs or many.
fn balance(random: &mut Random, array: &Array) -> Balance {
    let most = random.pick(&[1, 2, 9, 65_535]);
    let often = random.pick(&[1, 3, 20]);
    let mut weights = vec![0; array.nodes().len()];
    for agent in tables::agents(array) {
        if random.once_in(often) {
            weights[agent] = random.between(0, most) as u16;
        }
    }
    Balance { bound: random.between(most, 2 * most) as u32, weights }
}

#[cfg(test)]
mod tests {
    use super::*;
    use crate::mended::Smallest;

    #[test]
    fn bits_take_rounds() {
        let rounds = |round: u64| {
            let mut random = Random::of(5, 0, round);
            let array = plain::read_array(&array(&mut random).bytes()).expect("a valid array");
            Smallest::of(&array, &table(&mut random, &array)).rounds
        };
        let rounds: Vec<usize> = (0..1000).map(rounds).collect();
        let count = |least: usize| rounds.iter().filter(|rounds| **rounds >= least).count();
        assert!(count(2) > 300 && count(10) > 10);
    }
}
