//! Faults in the order of claims, for refusal 31.

use crate::claims::{MOST_CLAIMS, NUMBERS};
use crate::files::{Claim, TableFile, AGENT, BALANCE, MOST, SET};
use crate::order;
use crate::random::Random;

/// Orders that are not the one: agent before set, most before agent, balance before most, as the file has the numbers.
const OTHER_ORDERS: [[usize; 4]; 4] = [
    [AGENT, SET, MOST, BALANCE],
    [SET, MOST, AGENT, BALANCE],
    [SET, AGENT, BALANCE, MOST],
    [AGENT, MOST, BALANCE, SET],
];

/// One fault, if the table has claims enough.
pub fn fault(random: &mut Random, table: &mut TableFile) {
    let balances = table.balances.len();
    let claims = &mut table.claims;
    match random.below(8) {
        _ if claims.is_empty() => {}
        0 if claims.len() > 1 => swap(random, claims),
        1 if claims.len() > 1 => shift(random, claims),
        2 => repeat(random, claims),
        3 => resort(random, claims),
        _ => lower(random, claims, balances),
    }
}

/// A claim that has one before it, the last one more often.
fn later(random: &mut Random, claims: &[Claim]) -> usize {
    let some = random.between(1, claims.len() - 1);
    random.pick(&[some, claims.len() - 1])
}

/// Exchanges neighbours.
fn swap(random: &mut Random, claims: &mut [Claim]) {
    let c = later(random, claims);
    claims.swap(c - 1, c);
}

/// Moves a claim to another place.
fn shift(random: &mut Random, claims: &mut Vec<Claim>) {
    let claim = claims.remove(random.below(claims.len()));
    claims.insert(random.between(0, claims.len()), claim);
}

/// Writes a claim over its neighbour, or once more beside itself.
fn repeat(random: &mut Random, claims: &mut Vec<Claim>) {
    if claims.len() < MOST_CLAIMS && random.once_in(2) || claims.len() == 1 {
        let c = random.below(claims.len());
        claims.insert(c, claims[c]);
    } else {
        let c = later(random, claims);
        let (to, from) = random.pick(&[(c, c - 1), (c - 1, c)]);
        claims[to] = claims[from];
    }
}

/// Sorts by another order of the numbers, by their low bytes first, or falling.
fn resort(random: &mut Random, claims: &mut [Claim]) {
    match random.below(6) {
        0 => claims.sort_by_key(|claim| order::rank(claim).map(u16::swap_bytes)),
        1 => claims.reverse(),
        _ => {
            let order = random.pick(&OTHER_ORDERS);
            claims.sort_by_key(|claim| order.map(|at| claim[at]));
        }
    }
}

/// Puts two claims where the first one belongs, of which the second has one number lower. It may have numbers that are
/// compared later higher.
fn lower(random: &mut Random, claims: &mut Vec<Claim>, balances: usize) {
    let number = random.pick(&[SET, AGENT, MOST, BALANCE]);
    let mut first = random.pick(claims);
    if number == MOST || number == BALANCE {
        // In a set, 30 would name the claim first.
        first[SET] = 0;
    }
    let Some((low, high)) = apart(random, &values(claims, balances, number)) else { return };
    first[number] = high;
    let mut second = first;
    second[number] = low;
    if second[SET] == 0 && number != BALANCE && random.once_in(2) {
        second[BALANCE] = balances as u16 - 1;
    }
    while claims.len() + 2 > MOST_CLAIMS {
        claims.remove(random.below(claims.len()));
    }
    let at = claims.partition_point(|claim| order::rank(claim) < order::rank(&first));
    claims.splice(at..at, [first, second]);
}

/// What a number of a claim can be without a fault of 21 or 30: agents that are named, set numbers that are not.
fn values(claims: &[Claim], balances: usize, number: usize) -> Vec<u16> {
    match number {
        SET => NUMBERS.into_iter().filter(|set| claims.iter().all(|claim| claim[SET] != *set)).chain([0]).collect(),
        AGENT => claims.iter().map(|claim| claim[AGENT]).collect(),
        MOST => vec![0, 1, 255, 256, 257, 511, 512, 32_767, 32_768, 65_535],
        _ => (0..balances as u16).collect(),
    }
}

/// Two different values, the lower one first; often such that their low bytes compare otherwise.
fn apart(random: &mut Random, values: &[u16]) -> Option<(u16, u16)> {
    let one = random.any(values)?;
    let others: Vec<u16> = values.iter().copied().filter(|other| *other != one).collect();
    let is_crossed = |other: &u16| other.cmp(&one) != (other % 256).cmp(&(one % 256));
    let crossed: Vec<u16> = others.iter().copied().filter(is_crossed).collect();
    let pool = if crossed.is_empty() || random.once_in(2) { &others } else { &crossed };
    let other = random.any(pool)?;
    Some((one.min(other), one.max(other)))
}
