//! Claims in one order: refusal 31.

use super::build::*;
use crate::programs::judge_text;
use crate::*;

const OUTS: u16 = 598;

/// The refusal of a table with these claims, none if it is held. The array is
/// a row of outs. Its table has 24 balances and breaks no rule, whichever of
/// the agents 2 to 598 the claims name.
fn refusal(claims: &[[u16; 4]]) -> Option<(u8, usize)> {
    let file = row_of_outs(OUTS);
    let weights: Vec<(usize, u16)> = (2..=usize::from(OUTS)).map(|agent| (agent, 1)).collect();
    let parts = Parts { rows: vec![vec![0]], balances: vec![(0, weights); 24], claims: claims.to_vec() };
    let bytes = table(&file, &parts);
    match check(&file, &bytes) {
        Verdict::Refused(refusal) => {
            assert_eq!(read_table(&file, &bytes), Err(refusal));
            Some((refusal.number, refusal.place))
        }
        verdict => {
            assert_eq!(verdict, Verdict::Held { nodes: 600, names: 1, balances: 24, claims: claims.len() });
            assert_eq!(read_table(&file, &bytes).unwrap().claims(), claims.iter().map(claim).collect::<Vec<_>>());
            None
        }
    }
}

fn claim([agent, most, balance, set]: &[u16; 4]) -> Claim {
    Claim { agent: usize::from(*agent), most: *most, balance: usize::from(*balance), set: *set }
}

/// Two claims, each as set, agent, most, balance: the first is to go before the second.
fn assert_before(first: [u16; 4], second: [u16; 4]) {
    let [first, second] = [first, second].map(|[set, agent, most, balance]| [agent, most, balance, set]);
    assert_eq!(refusal(&[first, second]), None, "{first:?} {second:?}");
    assert_eq!(refusal(&[second, first]), Some((31, 1)), "{first:?} {second:?}");
}

#[test]
fn no_claims_and_one() {
    assert_eq!(refusal(&[]), None);
    for claim in [[2, 0, 0, 0], [598, 65_535, 23, 0], [2, 0, 0, 65_535], [598, 65_535, 23, 65_535]] {
        assert_eq!(refusal(&[claim]), None);
    }
}

#[test]
fn repeats_are_refused() {
    let (lower, upper) = ([2, 1, 0, 0], [3, 1, 0, 0]);
    assert_eq!(refusal(&[lower, lower]), Some((31, 1)));
    assert_eq!(refusal(&[[2, 0, 0, 0]; 2]), Some((31, 1)));
    assert_eq!(refusal(&[lower, upper, upper]), Some((31, 2)));
    assert_eq!(refusal(&[lower, lower, upper]), Some((31, 1)));
    assert_eq!(refusal(&[lower, upper, lower]), Some((31, 2)));
    // Within a set.
    let (lower, upper) = ([2, 1, 0, 7], [3, 1, 0, 7]);
    assert_eq!(refusal(&[lower, lower]), Some((31, 1)));
    assert_eq!(refusal(&[lower, upper, upper]), Some((31, 2)));
    assert_eq!(refusal(&[lower, upper, lower]), Some((31, 2)));
    assert_eq!(refusal(&[[2, 1, 0, 0], lower, upper, upper, [2, 1, 0, 8]]), Some((31, 3)));
    // One agent by the same numbers, but alone and in two sets.
    assert_eq!(refusal(&[[2, 1, 0, 0], [2, 1, 0, 7], [2, 1, 0, 8]]), None);
}

#[test]
fn each_number_decides() {
    // The set, against the others and with them.
    assert_before([7, 9, 9, 9], [8, 2, 0, 0]);
    assert_before([7, 2, 0, 0], [8, 9, 9, 9]);
    assert_before([0, 9, 9, 9], [1, 2, 0, 0]);
    assert_before([7, 9, 9, 9], [8, 9, 9, 9]);
    // The agent, alone and in a set.
    assert_before([0, 2, 9, 9], [0, 3, 0, 0]);
    assert_before([0, 2, 0, 0], [0, 3, 9, 9]);
    assert_before([0, 2, 9, 9], [0, 3, 9, 9]);
    assert_before([7, 2, 9, 9], [7, 3, 9, 9]);
    // The most.
    assert_before([0, 2, 3, 9], [0, 2, 4, 0]);
    assert_before([0, 2, 3, 0], [0, 2, 4, 9]);
    assert_before([0, 2, 3, 9], [0, 2, 4, 9]);
    // The balance.
    assert_before([0, 2, 3, 4], [0, 2, 3, 5]);
    assert_before([0, 2, 3, 0], [0, 2, 3, 23]);
}

#[test]
fn each_number_goes_before_the_next() {
    // Two numbers against each other, the rest equal.
    assert_before([7, 9, 5, 5], [8, 2, 5, 5]);
    assert_before([7, 5, 9, 5], [8, 5, 2, 5]);
    assert_before([7, 5, 5, 9], [8, 5, 5, 2]);
    assert_before([0, 7, 9, 5], [0, 8, 2, 5]);
    assert_before([0, 7, 5, 9], [0, 8, 5, 2]);
    assert_before([0, 5, 7, 9], [0, 5, 8, 2]);
}

#[test]
fn numbers_count_by_all_16_bits() {
    let pairs = [(2, 256), (255, 256), (254, 511), (257, 512), (511, 512), (2, 598)];
    for (low, high) in pairs {
        assert_before([low, 598, 65_535, 23], [high, 2, 0, 0]);
        assert_before([0, low, 65_535, 23], [0, high, 0, 0]);
        assert_before([7, low, 300, 3], [7, high, 300, 3]);
        assert_before([0, 2, low, 23], [0, 2, high, 0]);
    }
    for (low, high) in [(0, 256), (255, 65_280), (32_767, 32_768), (1, 65_535), (65_279, 65_280), (65_534, 65_535)] {
        assert_before([low, 598, 65_535, 23], [high, 2, 0, 0]);
        assert_before([0, 300, low, 23], [0, 300, high, 0]);
    }
}

#[test]
fn every_pair_of_a_rising_list() {
    // Agent, most, balance, set.
    let rising = [
        [2, 0, 0, 0],
        [2, 0, 23, 0],
        [2, 1, 22, 0],
        [2, 255, 1, 0],
        [2, 256, 0, 0],
        [2, 32_768, 0, 0],
        [2, 65_535, 0, 0],
        [3, 0, 23, 0],
        [255, 65_535, 23, 0],
        [256, 0, 0, 0],
        [256, 0, 1, 0],
        [511, 9, 9, 0],
        [512, 8, 8, 0],
        [598, 65_535, 23, 0],
        [2, 256, 2, 1],
        [256, 256, 2, 1],
        [598, 256, 2, 1],
        [598, 65_535, 23, 255],
        [255, 1, 0, 256],
        [256, 1, 0, 256],
        [598, 9, 9, 32_767],
        [2, 0, 0, 32_768],
        [2, 7, 7, 65_535],
        [598, 7, 7, 65_535],
    ];
    assert_eq!(refusal(&rising), None);
    for (i, second) in rising.iter().enumerate() {
        for first in &rising[..i] {
            assert_eq!(refusal(&[*first, *second]), None, "{first:?} {second:?}");
            assert_eq!(refusal(&[*second, *first]), Some((31, 1)), "{first:?} {second:?}");
        }
        assert_eq!(refusal(&[*second, *second]), Some((31, 1)), "{second:?}");
    }
}

#[test]
fn the_lowest_claim_that_does_not_come_after_its_predecessor() {
    let by_agents = |agents: &[u16]| refusal(&agents.iter().map(|agent| [*agent, 9, 9, 0]).collect::<Vec<_>>());
    // Two places.
    assert_eq!(by_agents(&[2, 9, 3, 8, 4]), Some((31, 2)));
    assert_eq!(by_agents(&[2, 3, 3, 5, 4]), Some((31, 2)));
    assert_eq!(by_agents(&[9, 8, 7, 6, 5]), Some((31, 1)));
    // Claim 0 is the one out of its place, but it has no predecessor.
    assert_eq!(by_agents(&[9, 2, 3, 4]), Some((31, 1)));
    // The claim that comes too late is named, not those that it should go before.
    assert_eq!(by_agents(&[2, 8, 9, 3, 4]), Some((31, 3)));
    // A claim that comes after the first one, but not after its predecessor.
    assert_eq!(by_agents(&[2, 9, 8]), Some((31, 2)));
}

#[test]
fn as_many_claims_as_fit_in_order() {
    let claims: Vec<[u16; 4]> = (2..258).map(|agent| [agent, 9, 9, 0]).collect();
    assert_eq!(refusal(&claims), None);
    for i in 1..256 {
        let mut swapped = claims.clone();
        swapped.swap(i - 1, i);
        assert_eq!(refusal(&swapped), Some((31, i)));
        let mut repeated = claims.clone();
        repeated[i] = repeated[i - 1];
        assert_eq!(refusal(&repeated), Some((31, i)));
    }
    // Only the last claim is out of order, below all others.
    let mut last = claims.clone();
    last[255] = [2, 0, 0, 0];
    assert_eq!(refusal(&last), Some((31, 255)));
    // One agent by its most and by its balance, then sets up to the last one.
    let mut claims: Vec<[u16; 4]> = (0..24).map(|balance| [598, 0, balance, 0]).collect();
    claims.extend((1..=100).map(|most| [598, 600 * most, 0, 0]));
    claims.extend((0..132).map(|i| [598 - i, 0, 0, 65_404 + i]));
    assert_eq!(claims.len(), 256);
    assert_eq!(refusal(&claims), None);
    claims[255][3] = 65_534;
    claims[255][0] = claims[254][0];
    assert_eq!(refusal(&claims), Some((31, 255)));
}

#[test]
fn refusal_30_goes_before_31() {
    let (upper, lower) = ([9, 1, 0, 0], [2, 1, 0, 0]);
    assert_eq!(refusal(&[upper, lower, [2, 1, 0, 7], [3, 2, 0, 7]]), Some((30, 3)));
    assert_eq!(refusal(&[lower, lower, [2, 1, 0, 7], [3, 1, 1, 7]]), Some((30, 3)));
    assert_eq!(refusal(&[[3, 1, 0, 7], [2, 1, 0, 7], [4, 2, 0, 7]]), Some((30, 2)));
    assert_eq!(refusal(&[[2, 1, 0, 7], lower, [3, 2, 0, 7]]), Some((30, 2)));
    assert_eq!(refusal(&[[2, 1, 0, 8], [2, 1, 0, 7], [3, 2, 0, 8]]), Some((30, 2)));
    // Both at one place, and 30 at the lower one.
    assert_eq!(refusal(&[[3, 1, 0, 7], [2, 2, 0, 7]]), Some((30, 1)));
    assert_eq!(refusal(&[[2, 1, 0, 7], [3, 2, 0, 7], lower]), Some((30, 1)));
    // Within a set claims can't rise by most or balance.
    assert_eq!(refusal(&[[2, 1, 0, 7], [2, 2, 0, 7]]), Some((30, 1)));
    assert_eq!(refusal(&[[2, 1, 0, 7], [2, 1, 1, 7]]), Some((30, 1)));
}

#[test]
fn refusal_21_goes_before_31() {
    let (upper, lower) = ([9, 1, 0, 0], [2, 1, 0, 0]);
    // Node 599 is the stop, and there is no node 600 and no balance 24.
    for wrong in [[599, 1, 0, 0], [600, 1, 0, 0], [65_535, 1, 0, 0], [9, 1, 24, 0], [9, 1, 24, 7]] {
        assert_eq!(refusal(&[upper, lower, wrong]), Some((21, 2)));
        assert_eq!(refusal(&[lower, lower, wrong]), Some((21, 2)));
        assert_eq!(refusal(&[wrong, lower]), Some((21, 0)));
    }
    assert_eq!(refusal(&[upper, [0, 1, 0, 0]]), Some((21, 1)));
    // All three of 21, 30 and 31.
    assert_eq!(refusal(&[upper, lower, [2, 1, 0, 7], [3, 2, 0, 7], [0, 1, 0, 8]]), Some((21, 4)));
}

#[test]
fn refusal_31_goes_before_the_rules() {
    let a = array_a();
    let judged = |parts: &Parts| judge_text(&a, &table(&a, parts));
    // Agent 3 has no weight.
    let mut parts = Parts { claims: vec![[6, 1, 0, 0], [3, 1, 0, 0]], ..parts_a() };
    assert_eq!(judged(&parts), "refused 31 1\n");
    parts.claims = vec![[3, 1, 0, 0], [6, 1, 0, 0], [6, 1, 0, 0]];
    assert_eq!(judged(&parts), "refused 31 2\n");
    parts.rows[1].clear();
    assert_eq!(judged(&parts), "refused 31 2\n");
    parts.claims.pop();
    assert_eq!(judged(&parts), "rule 1 1\n");
}
