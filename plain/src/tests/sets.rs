//! Claims for a set of agents.

use super::build::*;
use crate::calculus::{attempt, begin, safe, Configuration};
use crate::programs::judge_text;
use crate::*;

/// The line of `judge` for array A with other claims.
fn a_with(claims: &[[u16; 4]]) -> String {
    let a = array_a();
    judge_text(&a, &table(&a, &Parts { claims: claims.to_vec(), ..parts_a() }))
}

/// The same where agent 6 has no weight either, so that the last agent of a set may fail.
fn a_without_6(claims: &[[u16; 4]]) -> String {
    let a = array_a();
    judge_text(&a, &table(&a, &Parts { claims: claims.to_vec(), balances: vec![(1, vec![(5, 1)])], ..parts_a() }))
}

/// Whether claims hold of a configuration, beside rows and balances that do.
fn is_safe(file: &[u8], parts: &Parts, claims: &[[u16; 4]], configuration: &Configuration) -> bool {
    let parts = Parts { claims: claims.to_vec(), ..parts.clone() };
    let table = read_table(file, &table(file, &parts)).unwrap();
    safe(&read_array(file).unwrap(), &table, configuration)
}

#[test]
fn a_with_5_and_6_in_one_set() {
    assert_eq!(a_with(&[[5, 1, 0, 7], [6, 1, 0, 7]]), "held 8 3 1 2\n");
    assert_eq!(a_with(&[[6, 1, 0, 7], [5, 1, 0, 7]]), "refused 31 1\n");
    assert_eq!(a_with(&[[5, 0, 0, 7], [6, 0, 0, 7]]), "rule 5 0\n");
    assert_eq!(a_with(&[[6, 1, 0, 0], [5, 0, 0, 7], [6, 0, 0, 7]]), "rule 5 1\n");
    assert_eq!(a_with(&[[6, 1, 0, 7]]), "held 8 3 1 1\n");
    assert_eq!(a_with(&[[6, 0, 0, 7]]), "rule 5 0\n");
}

#[test]
fn a_weight_of_0_is_the_least() {
    for most in [0, 1, 65_535] {
        assert_eq!(a_with(&[[3, most, 0, 7], [6, most, 0, 7]]), "rule 5 0\n");
        assert_eq!(a_without_6(&[[5, most, 0, 7], [6, most, 0, 7]]), "rule 5 0\n");
    }
    assert_eq!(a_with(&[[6, 1, 0, 7], [3, 1, 0, 8], [5, 1, 0, 8]]), "rule 5 1\n");
    assert_eq!(a_without_6(&[[5, 1, 0, 7], [5, 1, 0, 8], [6, 1, 0, 8]]), "rule 5 1\n");
}

#[test]
fn the_least_weight_counts_and_not_the_greatest() {
    let a = array_a();
    let lines = [(1, "rule 5 0\n"), (2, "rule 5 0\n"), (3, "held 8 3 1 2\n")];
    for (most, line) in lines {
        for weights in [vec![(5, 3), (6, 1)], vec![(3, 2), (5, 1), (6, 3)]] {
            let mut parts = parts_a();
            parts.balances[0] = (3, weights);
            parts.claims = vec![[5, most, 0, 7], [6, most, 0, 7]];
            assert_eq!(judge_text(&a, &table(&a, &parts)), line);
        }
    }
}

#[test]
fn the_set_has_its_own_balance() {
    let a = array_a();
    let mut parts = parts_a();
    parts.balances = vec![(9, vec![(5, 1), (6, 1)]), (2, vec![(5, 2), (6, 2)])];
    parts.claims = vec![[5, 1, 1, 7], [6, 1, 1, 7]];
    assert_eq!(judge_text(&a, &table(&a, &parts)), "held 8 3 2 2\n");
    parts.claims = vec![[5, 1, 0, 7], [6, 1, 0, 7]];
    assert_eq!(judge_text(&a, &table(&a, &parts)), "rule 5 0\n");
    parts.claims = vec![[5, 1, 1, 7], [6, 1, 1, 7], [5, 1, 0, 8], [6, 1, 0, 8]];
    assert_eq!(judge_text(&a, &table(&a, &parts)), "rule 5 2\n");
}

#[test]
fn a_set_names_an_agent_once() {
    assert_eq!(a_with(&[[6, 1, 0, 7], [6, 1, 0, 7]]), "refused 31 1\n");
    assert_eq!(a_with(&[[6, 1, 0, 7], [5, 1, 0, 7], [6, 1, 0, 7]]), "refused 31 1\n");
    assert_eq!(a_with(&[[5, 1, 0, 7], [6, 1, 0, 7], [6, 1, 0, 7]]), "refused 31 2\n");
    assert_eq!(a_with(&[[6, 0, 0, 7], [6, 0, 0, 7]]), "refused 31 1\n");
    // By differing claims it can't be named twice either.
    assert_eq!(a_with(&[[6, 1, 0, 7], [6, 2, 0, 7]]), "refused 30 1\n");
}

#[test]
fn an_agent_may_be_in_two_sets_and_alone() {
    assert_eq!(a_with(&[[6, 3, 0, 0], [6, 1, 0, 7], [6, 2, 0, 8]]), "held 8 3 1 3\n");
    assert_eq!(a_with(&[[6, 1, 0, 0], [6, 1, 0, 7], [6, 1, 0, 8]]), "held 8 3 1 3\n");
    assert_eq!(a_with(&[[6, 1, 0, 0], [6, 1, 0, 7], [6, 0, 0, 8]]), "rule 5 2\n");
}

#[test]
fn claims_of_set_0_stand_alone() {
    assert_eq!(a_with(&[[6, 1, 0, 0], [6, 2, 0, 0]]), "held 8 3 1 2\n");
    assert_eq!(a_with(&[[5, 1, 0, 0], [6, 1, 0, 0], [6, 2, 0, 0]]), "held 8 3 1 3\n");
    assert_eq!(a_with(&[[6, 0, 0, 0], [6, 1, 0, 0]]), "rule 5 0\n");
    assert_eq!(a_with(&[[5, 1, 0, 0], [6, 0, 0, 0], [6, 1, 0, 0]]), "rule 5 1\n");
    assert_eq!(a_without_6(&[[5, 1, 0, 0], [5, 2, 0, 0], [6, 1, 0, 0]]), "rule 5 2\n");
}

#[test]
fn the_claims_of_a_set_lie_together() {
    assert_eq!(a_with(&[[6, 1, 0, 0], [5, 1, 0, 7], [6, 1, 0, 7]]), "held 8 3 1 3\n");
    assert_eq!(a_with(&[[5, 1, 0, 7], [6, 1, 0, 0], [6, 1, 0, 7]]), "refused 31 1\n");
    assert_eq!(a_with(&[[5, 0, 0, 7], [6, 1, 0, 0], [6, 0, 0, 7]]), "refused 31 1\n");
    assert_eq!(a_with(&[[5, 1, 0, 7], [6, 1, 0, 8], [6, 1, 0, 7]]), "refused 31 2\n");
    assert_eq!(a_with(&[[6, 1, 0, 0], [5, 1, 0, 7], [6, 1, 0, 0], [3, 1, 0, 7]]), "refused 31 2\n");
}

#[test]
fn the_lowest_first_claim_is_named() {
    // Both sets fail.
    assert_eq!(a_with(&[[3, 1, 0, 7], [6, 1, 0, 7], [3, 1, 0, 8], [6, 1, 0, 8]]), "rule 5 0\n");
    // Only the set that begins at claim 2 fails.
    assert_eq!(a_with(&[[5, 1, 0, 7], [6, 1, 0, 7], [3, 1, 0, 8], [6, 1, 0, 8]]), "rule 5 2\n");
    assert_eq!(a_with(&[[5, 1, 0, 0], [6, 1, 0, 0], [3, 1, 0, 7], [6, 1, 0, 7]]), "rule 5 2\n");
    // Claim 2 fails, and its set begins at claim 1.
    assert_eq!(a_without_6(&[[5, 1, 0, 0], [5, 1, 0, 7], [6, 1, 0, 7], [6, 1, 0, 8]]), "rule 5 1\n");
    // A single claim goes before every set.
    assert_eq!(a_with(&[[5, 1, 0, 0], [6, 0, 0, 0], [3, 1, 0, 7], [6, 1, 0, 7]]), "rule 5 1\n");
}

#[test]
fn all_16_bits_of_a_set_number_count() {
    for set in [1, 255, 256, 65_535] {
        assert_eq!(a_with(&[[5, 1, 0, set], [6, 1, 0, set]]), "held 8 3 1 2\n");
        assert_eq!(a_with(&[[6, 1, 0, 0], [3, 1, 0, set], [6, 1, 0, set]]), "rule 5 1\n");
        assert_eq!(a_with(&[[5, 1, 0, set], [6, 2, 0, set]]), "refused 30 1\n");
    }
    for (one, other) in [(0, 256), (1, 257), (255, 65_535), (256, 65_280), (1, 2)] {
        assert_eq!(a_with(&[[5, 1, 0, one], [6, 2, 0, other]]), "held 8 3 1 2\n");
        assert_eq!(a_with(&[[6, 1, 0, one], [3, 1, 0, other]]), "rule 5 1\n");
    }
}

#[test]
fn as_many_claims_as_fit() {
    // Agents 1 to 257, of which claims name 1 to 256.
    let file = row_of_outs(257);
    let mut parts = one_row(65_535 * 65_536 - 1, &[]);
    parts.balances[0].1 = (1..257).map(|agent| (agent, 65_535)).collect();
    parts.claims = (1..257).map(|agent| [agent, 65_535, 0, 7]).collect();
    let judged = |parts: &Parts| judge_text(&file, &table(&file, parts));
    assert_eq!(judged(&parts), "held 259 1 1 256\n");
    // Agent 257 has no weight.
    parts.claims[255][0] = 257;
    assert_eq!(judged(&parts), "rule 5 0\n");
    parts.claims[255][1] = 0;
    assert_eq!(judged(&parts), "refused 30 255\n");
    parts.claims[255] = parts.claims[254];
    assert_eq!(judged(&parts), "refused 31 255\n");
    parts.claims[255] = [257, 0, 0, 7];
    for (claim, set) in parts.claims.iter_mut().zip(65_280..=65_535) {
        claim[3] = set;
    }
    assert_eq!(judged(&parts), "rule 5 255\n");
}

#[test]
fn safe_adds_the_agents_of_a_set() {
    let a = array_a();
    let array = read_array(&a).unwrap();
    let left = |_| false;
    // Agents 3 and 5, then agent 6.
    let first = begin(&array, &left);
    let second = attempt(&array, &first, 1, 0, &left).unwrap();
    let both = |claims: &[[u16; 4]]| [&first, &second].map(|at| is_safe(&a, &parts_a(), claims, at));
    assert_eq!(both(&[[3, 1, 0, 7], [5, 1, 0, 7]]), [false, true]);
    assert_eq!(both(&[[3, 2, 0, 7], [5, 2, 0, 7]]), [true, true]);
    assert_eq!(both(&[[3, 1, 0, 0], [5, 1, 0, 0]]), [true, true]);
    assert_eq!(both(&[[3, 1, 0, 7], [5, 1, 0, 8]]), [true, true]);
    assert_eq!(both(&[[5, 1, 0, 7], [6, 1, 0, 7]]), [true, true]);
    assert_eq!(both(&[[5, 0, 0, 7], [6, 0, 0, 7]]), [false, false]);
    // Agents in two sets, and alone too.
    assert_eq!(both(&[[3, 1, 0, 7], [6, 1, 0, 7], [5, 1, 0, 8], [6, 1, 0, 8]]), [true, true]);
    assert_eq!(both(&[[6, 0, 0, 7], [5, 1, 0, 8], [6, 1, 0, 8]]), [true, false]);
    assert_eq!(both(&[[6, 1, 0, 0], [5, 1, 0, 7], [6, 1, 0, 7]]), [true, true]);
    assert_eq!(both(&[[6, 1, 0, 0], [3, 1, 0, 7], [5, 1, 0, 7]]), [false, true]);
    // Claims of one agent alone, each by its own most.
    assert_eq!(both(&[[6, 0, 0, 0], [6, 1, 0, 0]]), [true, false]);
}

#[test]
fn two_of_three_together() {
    // Two outs, and a resource that puts a third in the place of either.
    let records = [
        new(0, 1),
        par(2, 4),
        out(0, &[], 3),
        stop(),
        par(5, 7),
        out(0, &[], 6),
        stop(),
        resource(0, &[], 8),
        out(0, &[], 9),
        stop(),
    ];
    let file = array(1, &records);
    let parts = one_row(2, &[(2, 1), (5, 1), (8, 1)]);
    let with_most = |most, set| [2, 5, 8].map(|agent| [agent, most, 0, set]).to_vec();
    let judged = |claims| judge_text(&file, &table(&file, &Parts { claims, ..parts.clone() }));
    assert_eq!(judged(with_most(2, 7)), "held 10 1 1 3\n");
    assert_eq!(judged(with_most(1, 7)), "rule 5 0\n");

    let array = read_array(&file).unwrap();
    let left = |_| false;
    let mut at = begin(&array, &left);
    let turns = [([2, 5, 7], 2, 0, true), ([5, 7, 8], 1, 0, true), ([7, 8, 8], 0, 1, false)];
    for (nodes, receiver, sender, alone) in turns {
        assert_eq!(at.threads.iter().map(|thread| thread.node).collect::<Vec<_>>(), nodes);
        assert!(is_safe(&file, &parts, &with_most(2, 7), &at));
        assert!(!is_safe(&file, &parts, &with_most(1, 7), &at));
        assert_eq!(is_safe(&file, &parts, &with_most(1, 0), &at), alone);
        at = attempt(&array, &at, receiver, sender, &left).unwrap();
    }
}
