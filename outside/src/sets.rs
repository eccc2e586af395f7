//! The sets of a list of claims, and the counts of what answers say of them.

use std::collections::BTreeSet;

use crate::files::{Claim, TableFile, MOST, SET};
use crate::tally::Tally;

/// Whether two claims are of one set; a claim of set 0 is alone in its own.
fn together(claims: &[Claim], c: usize, d: usize) -> bool {
    c == d || claims[c][SET] != 0 && claims[c][SET] == claims[d][SET]
}

/// The claims of claim c's set, lowest first.
pub fn members(claims: &[Claim], c: usize) -> Vec<usize> {
    (0..claims.len()).filter(|d| together(claims, c, *d)).collect()
}

/// The agents of claim c's set, each once.
pub fn agents(claims: &[Claim], c: usize) -> BTreeSet<usize> {
    members(claims, c).into_iter().map(|d| usize::from(claims[d][0])).collect()
}

/// Whether claim c is the first of its set.
pub fn is_first(claims: &[Claim], c: usize) -> bool {
    !(0..c).any(|d| together(claims, c, d))
}

/// Whether claim c differs from an earlier one of its set in most or balance.
pub fn clashes(claims: &[Claim], c: usize) -> bool {
    (0..c).any(|d| together(claims, c, d) && claims[c][1..3] != claims[d][1..3])
}

/// Whether some set has two agents.
pub fn has_wide(claims: &[Claim]) -> bool {
    claims.iter().any(|one| claims.iter().any(|other| one[SET] != 0 && one[SET] == other[SET] && one[0] != other[0]))
}

/// Whether all claims are of one set, and are as many as there may be.
pub fn has_longest(claims: &[Claim]) -> bool {
    claims.len() == 256 && members(claims, 0).len() == 256
}

/// Whether there are as many sets as there may be, none of them 0.
pub fn has_many(claims: &[Claim]) -> bool {
    let numbers: BTreeSet<u16> = claims.iter().map(|claim| claim[SET]).collect();
    numbers.len() == 256 && !numbers.contains(&0)
}

/// Whether claim c follows from its balance by itself.
pub fn holds_alone(table: &TableFile, c: usize) -> bool {
    let claim = table.claims[c];
    let balance = &table.balances[usize::from(claim[2])];
    let weight = u64::from(balance.weights[usize::from(claim[0])]);
    weight * (u64::from(claim[MOST]) + 1) > u64::from(balance.bound)
}

/// Counts what the answer alone does not tell of sets.
pub fn count(tally: &mut Tally, code: u8, place: usize, table: &TableFile) {
    let claims = &table.claims;
    match code {
        0 => {
            tally.other("held with a set of two agents", has_wide(claims).into());
            tally.other("held with 256 claims in one set", has_longest(claims).into());
            tally.other("held with 256 sets", has_many(claims).into());
        }
        5 => tally.other("rule 5 at a claim that alone would hold", holds_alone(table, place).into()),
        121 => tally.other("21 after a claim that 30 would name", (0..place).any(|c| clashes(claims, c)).into()),
        _ => {}
    }
}
