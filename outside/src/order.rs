//! The one order of claims, and the counts of what answers say of it.

use std::cmp::Ordering;

use crate::files::{Claim, AGENT, BALANCE, MOST, SET};
use crate::tally::Tally;

/// The numbers that claims rise by, the one that decides first at the front.
const RISE_BY: [usize; 4] = [SET, AGENT, MOST, BALANCE];
/// Counts by the number that decides between neighbours.
const REFUSED_BY: [&str; 4] = ["31 by the set", "31 by the agent", "31 by most", "31 by the balance"];
const HELD_BY: [&str; 4] =
    ["held, the set decides", "held, the agent decides", "held, most decides", "held, the balance decides"];
/// The same, of neighbours that compare the other way by the low byte of that number. Balances have one byte.
const REFUSED_OVER_BYTES: [&str; 3] =
    ["31 by the set, its low byte rises", "31 by the agent, its low byte rises", "31 by most, its low byte rises"];
const HELD_OVER_BYTES: [&str; 3] = [
    "held, the set decides, its low byte falls",
    "held, the agent decides, its low byte falls",
    "held, most decides, its low byte falls",
];

/// A claim's numbers as they are compared.
pub fn rank(claim: &Claim) -> Claim {
    RISE_BY.map(|at| claim[at])
}

/// Puts claims in their order; repeats go.
pub fn put(claims: &mut Vec<Claim>) {
    claims.sort_by_key(rank);
    claims.dedup();
}

/// The claims that do not come after the one before them, lowest first.
pub fn misplaced(claims: &[Claim]) -> impl Iterator<Item = usize> + '_ {
    (1..claims.len()).filter(|c| rank(&claims[*c]) <= rank(&claims[c - 1]))
}

/// Which number decides between two claims, and how its low bytes compare; none if the claims are equal.
fn decides(one: &Claim, other: &Claim) -> Option<(usize, Ordering)> {
    let (one, other) = (rank(one), rank(other));
    let at = (0..4).find(|at| one[*at] != other[*at])?;
    Some((at, (one[at] % 256).cmp(&(other[at] % 256))))
}

/// Whether claims rise with the agent compared before the set.
fn rise_by_agent(claims: &[Claim]) -> bool {
    let rank = |claim: &Claim| [AGENT, SET, MOST, BALANCE].map(|at| claim[at]);
    claims.is_sorted_by(|one, other| rank(one) < rank(other))
}

/// Counts what the answer alone does not tell of the order.
pub fn count(tally: &mut Tally, code: u8, place: usize, claims: &[Claim]) {
    let misplaced_before = misplaced(claims).any(|c| c < place);
    match code {
        0 => count_held(tally, claims),
        121 => tally.other("21 after a claim that 31 would name", misplaced_before.into()),
        130 => tally.other("30 after a claim that 31 would name", misplaced_before.into()),
        131 => count_refused(tally, place, claims),
        _ => {}
    }
}

fn count_held(tally: &mut Tally, claims: &[Claim]) {
    for pair in claims.windows(2) {
        let Some((at, low_bytes)) = decides(&pair[0], &pair[1]) else { continue };
        tally.other(HELD_BY[at], 1);
        if let (Some(name), Ordering::Greater) = (HELD_OVER_BYTES.get(at), low_bytes) {
            tally.other(name, 1);
        }
    }
}

fn count_refused(tally: &mut Tally, place: usize, claims: &[Claim]) {
    match decides(&claims[place - 1], &claims[place]) {
        None => tally.other("31 by a repeat", 1),
        Some((at, low_bytes)) => {
            tally.other(REFUSED_BY[at], 1);
            if let (Some(name), Ordering::Less) = (REFUSED_OVER_BYTES.get(at), low_bytes) {
                tally.other(name, 1);
            }
        }
    }
    tally.other("31 at the last of 256 claims", (place == 255).into());
    tally.other("31 with a later claim out of order too", misplaced(claims).nth(1).is_some().into());
    tally.other("31 where claims rise by agent before set", rise_by_agent(claims).into());
}

#[cfg(test)]
mod tests {
    use super::*;

    /// Agent, most, balance and set of claims that rise.
    const RISING: [Claim; 10] = [
        [9, 65_535, 7, 0],
        [10, 0, 3, 0],
        [10, 255, 3, 0],
        [10, 256, 0, 0],
        [10, 256, 1, 0],
        [257, 0, 0, 0],
        [4, 1, 1, 1],
        [255, 1, 1, 255],
        [3, 1, 1, 256],
        [256, 1, 1, 256],
    ];

    fn places(claims: &[Claim]) -> Vec<usize> {
        misplaced(claims).collect()
    }

    #[test]
    fn neighbours_are_compared() {
        assert_eq!(places(&RISING), []);
        for c in 1..RISING.len() {
            let mut claims = RISING;
            claims.swap(c - 1, c);
            assert_eq!(places(&claims), [c]);
            claims[c] = claims[c - 1];
            assert_eq!(places(&claims)[0], c);
        }
    }

    #[test]
    fn order_is_one() {
        let mut claims = [RISING, RISING].concat();
        claims.reverse();
        put(&mut claims);
        assert_eq!(claims, RISING);
    }
}
