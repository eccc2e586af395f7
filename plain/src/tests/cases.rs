//! The cases of the section "Arrays A, B and C".

use super::build::*;
use crate::calculus::{attempt, begin, reached, safe, Attempt, Marker};
use crate::programs::{judge_text, walk_text};
use crate::rules::live;
use crate::*;

const LEFT: [u8; 128] = [0; 128];

fn held(nodes: usize, names: usize, balances: usize, claims: usize) -> Verdict {
    Verdict::Held { nodes, names, balances, claims }
}

fn rule(number: u8, place: &[usize]) -> Verdict {
    Verdict::Rule { number, place: place.to_vec() }
}

fn judged(array: &[u8], parts: &Parts) -> Verdict {
    check(array, &table(array, parts))
}

#[test]
fn a_is_accepted() {
    assert_eq!(judged(&array_a(), &parts_a()), held(8, 3, 1, 1));
}

#[test]
fn a_with_most_0() {
    let mut parts = parts_a();
    parts.claims[0][1] = 0;
    assert_eq!(judged(&array_a(), &parts), rule(5, &[0]));
}

#[test]
fn a_with_bound_0() {
    let mut parts = parts_a();
    parts.balances[0].0 = 0;
    assert_eq!(judged(&array_a(), &parts), rule(2, &[0]));
}

#[test]
fn a_with_row_2_empty() {
    let mut parts = parts_a();
    parts.rows[2].clear();
    assert_eq!(judged(&array_a(), &parts), rule(3, &[5, 3, 1]));
}

#[test]
fn a_with_row_1_empty() {
    let mut parts = parts_a();
    parts.rows[1].clear();
    assert_eq!(judged(&array_a(), &parts), rule(1, &[1]));
}

#[test]
fn a_with_weight_of_6_two() {
    let mut parts = parts_a();
    parts.balances[0].1 = vec![(5, 1), (6, 2)];
    assert_eq!(judged(&array_a(), &parts), rule(4, &[5, 3, 0]));
}

#[test]
fn b_is_accepted() {
    let parts = one_row(1, &[(2, 1), (5, 1)]);
    assert_eq!(judged(&array_b(), &parts), held(7, 1, 1, 0));
}

#[test]
fn b_with_only_weight_of_5() {
    let parts = one_row(1, &[(5, 1)]);
    assert_eq!(judged(&array_b(), &parts), rule(4, &[4, 2, 0]));
}

#[test]
fn a_resource_keeps_its_weight_in_rule_4() {
    let parts = one_row(2, &[(4, 1), (5, 1)]);
    assert_eq!(judged(&array_b(), &parts), rule(4, &[4, 2, 0]));
}

#[test]
fn rule_3_goes_over_all_pairs_before_rule_4() {
    // Pair 3, 5 breaks rule 4, pair 3, 8 breaks rule 3.
    let records = [
        new(0, 1),
        new(1, 2),
        par(3, 4),
        resource(0, &[2], 10),
        par(5, 7),
        out(0, &[0], 6),
        stop(),
        par(8, 11),
        out(0, &[1], 9),
        stop(),
        out(2, &[], 13),
        out(1, &[], 12),
        stop(),
        stop(),
    ];
    let file = array(3, &records);
    let mut parts = Parts {
        rows: vec![vec![0], vec![1], vec![0]],
        balances: vec![(9, vec![]), (9, vec![(10, 1)])],
        claims: vec![],
    };
    assert_eq!(judged(&file, &parts), rule(3, &[3, 8, 1]));
    parts.rows[2].push(1);
    assert_eq!(judged(&file, &parts), rule(4, &[3, 5, 1]));
}

#[test]
fn b_after_two_steps() {
    let b = array_b();
    let mut threads = [99; 12];
    let mut markers = [99; 12];
    assert_eq!(start(&b, &LEFT, &mut threads), Ok(2));
    assert_eq!(threads, [2, 0, 1, 4, 0, 1, 99, 99, 99, 99, 99, 99]);
    let counts = step(&b, &LEFT, &mut threads, 2, &mut markers, 0, 1, 0);
    assert_eq!(counts, Ok(Counts { threads: 2, markers: 1 }));
    assert_eq!(threads[..6], [4, 0, 1, 5, 1, 1]);
    let counts = step(&b, &LEFT, &mut threads, 2, &mut markers, 1, 0, 1);
    assert_eq!(counts, Ok(Counts { threads: 2, markers: 2 }));
    assert_eq!(threads, [4, 0, 1, 5, 2, 1, 99, 99, 99, 99, 99, 99]);
    assert_eq!(markers, [4, 2, 0, 0, 4, 5, 0, 1, 99, 99, 99, 99]);
}

#[test]
fn b_after_two_steps_without_limits() {
    let b = read_array(&array_b()).unwrap();
    let left = |_| false;
    let first = begin(&b, &left);
    let second = attempt(&b, &first, 1, 0, &left).unwrap();
    let third = attempt(&b, &second, 0, 1, &left).unwrap();
    let nodes: Vec<usize> = third.threads.iter().map(|thread| thread.node).collect();
    assert_eq!(nodes, [4, 5]);
    let one = Marker::new(4, 2, Marker::empty(), Marker::empty());
    let two = Marker::new(4, 5, Marker::empty(), one.clone());
    assert_eq!(second.threads[1].marker, one);
    assert_eq!(third.threads[0].marker, Marker::empty());
    assert_eq!(third.threads[1].marker, two);
}

#[test]
fn channels_differ_by_marker() {
    // A resource that opens a channel each time, and two outs that start it.
    let records = [
        new(0, 1),
        par(2, 4),
        out(0, &[], 3),
        stop(),
        par(5, 7),
        out(0, &[], 6),
        stop(),
        resource(0, &[], 8),
        new(1, 9),
        par(10, 12),
        out(1, &[], 11),
        stop(),
        input(1, &[], 13),
        stop(),
    ];
    let file = array(2, &records);
    let array = read_array(&file).unwrap();
    let left = |_| false;
    let mut free = begin(&array, &left);
    free = attempt(&array, &free, 2, 0, &left).unwrap();
    free = attempt(&array, &free, 1, 0, &left).unwrap();
    let nodes: Vec<usize> = free.threads.iter().map(|thread| thread.node).collect();
    assert_eq!(nodes, [7, 10, 12, 10, 12]);

    let mut threads = [0; 20];
    let mut markers = [0; 8];
    start(&file, &LEFT, &mut threads).unwrap();
    step(&file, &LEFT, &mut threads, 3, &mut markers, 0, 2, 0).unwrap();
    step(&file, &LEFT, &mut threads, 4, &mut markers, 1, 1, 0).unwrap();
    for (receiver, sender, ready) in [(2, 1, true), (2, 3, false), (4, 1, false), (4, 3, true)] {
        let attempted = attempt(&array, &free, receiver, sender, &left);
        let mut lent = (threads, markers);
        let stepped = step(&file, &LEFT, &mut lent.0, 5, &mut lent.1, 2, receiver, sender);
        if ready {
            assert!(attempted.is_ok() && stepped.is_ok());
        } else {
            assert_eq!(attempted, Err(27));
            assert_eq!(stepped, Err(Refusal { number: 27, place: 0 }));
        }
    }
}

#[test]
fn c_is_accepted_and_its_pair_is_not_live() {
    let c = array_c();
    let parts = one_row(1, &[(2, 1), (4, 1)]);
    assert_eq!(judged(&c, &parts), held(6, 1, 1, 0));
    let table = table(&c, &parts);
    assert!(!live(&read_array(&c).unwrap(), &read_table(&c, &table).unwrap(), 4, 2));
}

#[test]
fn c_starts_on_either_side() {
    let c = array_c();
    let mut threads = [0; 3];
    assert_eq!(start(&c, &LEFT, &mut threads), Ok(1));
    assert_eq!(threads, [2, 0, 1]);
    let mut right = LEFT;
    right[0] = 2;
    assert_eq!(start(&c, &right, &mut threads), Ok(1));
    assert_eq!(threads, [4, 0, 1]);
}

#[test]
fn weight_3_bound_2_most_0() {
    let array = array(1, &[new(0, 1), out(0, &[], 2), out(0, &[], 3), stop()]);
    let mut parts = one_row(2, &[(2, 3)]);
    parts.claims = vec![[2, 0, 0, 0]];
    assert_eq!(judged(&array, &parts), held(4, 1, 1, 1));
    parts.balances[0].0 = 3;
    assert_eq!(judged(&array, &parts), rule(5, &[0]));
}

#[test]
fn weight_0_never_meets_rule_5() {
    let mut parts = parts_a();
    parts.claims = vec![[3, 65_535, 0, 0], [6, 1, 0, 0]];
    assert_eq!(judged(&array_a(), &parts), rule(5, &[0]));
    parts.balances[0].1 = vec![(5, 1)];
    parts.claims = vec![[5, 1, 0, 0], [6, 65_535, 0, 0]];
    assert_eq!(judged(&array_a(), &parts), rule(5, &[1]));
}

#[test]
fn one_stop_is_read() {
    let file = array(0, &[stop()]);
    let read = read_array(&file).unwrap();
    assert_eq!((read.nodes().len(), read.names()), (1, 0));
    assert_eq!(judged(&file, &Parts::default()), held(1, 0, 0, 0));
    assert_eq!(start(&file, &LEFT, &mut []), Ok(0));
}

#[test]
fn no_nodes_and_too_many() {
    let three = Err(Refusal { number: 3, place: 0 });
    assert_eq!(read_array(&array(0, &[])), three);
    assert_eq!(read_array(&array(0, &vec![stop(); 1025])), three);
}

#[test]
fn b_walks() {
    for allowed in [2, 0] {
        let b = array_b();
        let mut threads = [0; 6];
        let mut markers = [0; 8];
        let count = start(&b, &LEFT, &mut threads).unwrap();
        let walked = walk(&b, &LEFT, &mut threads, count, &mut markers, 0, allowed);
        let counts = Counts { threads: 2, markers: allowed as usize };
        assert_eq!(walked, Ok(Walked { ending: Ending::Spent, steps: allowed, counts }));
    }
}

#[test]
fn b_fills_its_markers() {
    let b = array_b();
    let mut threads = [0; 6];
    let mut markers = [0; 9];
    let count = start(&b, &LEFT, &mut threads).unwrap();
    let walked = walk(&b, &LEFT, &mut threads, count, &mut markers, 0, 3);
    let counts = Counts { threads: 2, markers: 2 };
    assert_eq!(walked, Ok(Walked { ending: Ending::Full, steps: 2, counts }));
    assert_eq!(threads, [4, 0, 1, 5, 2, 1]);
    assert_eq!(markers, [4, 2, 0, 0, 4, 5, 0, 1, 0]);
}

#[test]
fn b_strides() {
    let b = array_b();
    let mut threads = [0; 6];
    let mut markers = [0; 8];
    let mut counts = Counts { threads: start(&b, &LEFT, &mut threads).unwrap(), markers: 0 };
    let mut allowance = Allowance { allowed: 5, left: 5 };
    for sender in [2, 5] {
        let made = stride(&b, &LEFT, &mut threads, counts.threads, &mut markers, counts.markers, allowance);
        counts.markers += 1;
        let step = Made { receiver: 4, sender, marker: counts.markers as u32 };
        allowance = Allowance { allowed: 5, left: allowance.left - 1 };
        assert_eq!(made, Ok(Stride::Made(step, counts, allowance)));
    }
    assert_eq!(threads, [4, 0, 1, 5, 2, 1]);
    assert_eq!(markers, [4, 2, 0, 0, 4, 5, 0, 1]);
    let mut lent = (threads, markers);
    let mut ask = |thread_count, left| {
        let allowance = Allowance { allowed: 5, left };
        stride(&b, &LEFT, &mut lent.0, thread_count, &mut lent.1, 2, allowance)
    };
    // A third marker does not fit.
    assert_eq!(ask(2, 3), Ok(Stride::Ended(Ending::Full, 2)));
    // Spent goes before full.
    assert_eq!(ask(2, 0), Ok(Stride::Ended(Ending::Spent, 5)));
    // The resource alone has no sender, and quiet goes before spent.
    assert_eq!(ask(1, 3), Ok(Stride::Ended(Ending::Quiet, 2)));
    assert_eq!(ask(1, 0), Ok(Stride::Ended(Ending::Quiet, 5)));
    // A count that does not fit, also where nothing is left.
    for left in [3, 0] {
        assert_eq!(ask(3, left), Err(Refusal { number: 23, place: 0 }));
    }
    assert_eq!(lent, (threads, markers));
}

#[test]
fn any_allowance_will_do_for_a_stride() {
    let b = array_b();
    let most = u32::MAX;
    // Allowed and left before, left after, and the steps made if it ended.
    let pairs = [(1, 1, 0, 0), (most, most, most - 1, 0), (most, 1, 0, most - 1), (0, 1, 0, 0), (3, most, most - 1, 0)];
    for (allowed, left, after, steps) in pairs {
        let mut threads = [0; 6];
        let mut markers = [0; 4];
        start(&b, &LEFT, &mut threads).unwrap();
        let allowance = Allowance { allowed, left };
        let full = stride(&b, &LEFT, &mut threads, 2, &mut [], 0, allowance);
        assert_eq!(full, Ok(Stride::Ended(Ending::Full, steps)));
        let quiet = stride(&b, &LEFT, &mut threads, 1, &mut [], 0, allowance);
        assert_eq!(quiet, Ok(Stride::Ended(Ending::Quiet, steps)));
        let made = stride(&b, &LEFT, &mut threads, 2, &mut markers, 0, allowance);
        let step = Made { receiver: 4, sender: 2, marker: 1 };
        let counts = Counts { threads: 2, markers: 1 };
        assert_eq!(made, Ok(Stride::Made(step, counts, Allowance { allowed, left: after })));
    }
}

#[test]
fn a_steps_and_keeps_the_words_behind() {
    let a = array_a();
    let mut threads = [7; 12];
    assert_eq!(start(&a, &LEFT, &mut threads), Ok(2));
    let before = [3, 0, 1, 65_537, 0, 5, 0, 1, 0, 0, 7, 7];
    assert_eq!(threads, before);
    let counts = step(&a, &LEFT, &mut threads, 2, &mut [], 0, 1, 0);
    assert_eq!(counts, Ok(Counts { threads: 1, markers: 0 }));
    assert_eq!(threads[..5], [6, 0, 0, 0, 65_537]);
    assert_eq!(threads[5..], before[5..]);
    let walked = walk(&a, &LEFT, &mut threads, 1, &mut [], 0, 0);
    let counts = Counts { threads: 1, markers: 0 };
    assert_eq!(walked, Ok(Walked { ending: Ending::Quiet, steps: 0, counts }));
}

#[test]
fn the_programs_write_their_lines() {
    let a = array_a();
    let good = table(&a, &parts_a());
    assert_eq!(judge_text(&a, &good), "held 8 3 1 1\n");
    let mut parts = parts_a();
    parts.rows[2].clear();
    assert_eq!(judge_text(&a, &table(&a, &parts)), "rule 3 5 3 1\n");
    assert_eq!(judge_text(&[], &good), "refused 1 0\n");
    assert_eq!(judge_text(&a, &[]), "refused 13 0\n");

    assert_eq!(walk_text(&a), "5 3 0\nquiet 1\n");
    assert_eq!(walk_text(&[]), "refused 1 0\n");
    let b: Vec<String> = walk_text(&array_b()).lines().map(String::from).collect();
    assert_eq!(b.len(), 101);
    assert_eq!(b[..2], ["4 2 1", "4 5 2"]);
    assert_eq!(b[99..], ["4 5 100", "spent 100"]);

    let mut many: Vec<Record> = (0..63).map(|name| new(name, u16::from(name) + 1)).collect();
    many.push(stop());
    assert_eq!(walk_text(&array(63, &many)), "too many names\n");
    many.remove(0);
    for (i, record) in many.iter_mut().enumerate().take(62) {
        *record = new(i as u8, i as u16 + 1);
    }
    assert_eq!(walk_text(&array(62, &many)), "quiet 0\n");

    // One new over 129 outs.
    let mut wide = vec![new(0, 1)];
    for i in 0..128u16 {
        let at = 1 + 3 * i;
        wide.extend([par(at + 1, at + 3), out(0, &[], at + 2), stop()]);
    }
    wide.extend([out(0, &[], 1 + 3 * 128 + 1), stop()]);
    assert_eq!(walk_text(&array(1, &wide)), "refused 28 0\n");
}

#[test]
fn the_remark_is_part_of_the_file() {
    let file = array_with(b"abcdefgh", 3, &records_a());
    let part = remark(&file);
    assert_eq!(part, b"abcdefgh");
    assert_eq!(part.as_ptr(), file.as_ptr());
    assert_eq!(remark(&file[4..]), b"");
}

#[test]
fn refused_attempts_change_nothing() {
    let a = read_array(&array_a()).unwrap();
    let left = |_| false;
    let first = begin(&a, &left);
    assert_eq!(attempt(&a, &first, 2, 0, &left), Err(24));
    assert_eq!(attempt(&a, &first, 0, usize::MAX, &left), Err(24));
    assert_eq!(attempt(&a, &first, 0, 1, &left), Err(25));
    let list = [Attempt { receiver: 9, sender: 0, choices: LEFT }, Attempt { receiver: 0, sender: 1, choices: LEFT }];
    assert_eq!(reached(&a, &LEFT, &list), first);
    assert_eq!(reached(&a, &LEFT, &[]), first);
}

#[test]
fn safe_looks_at_rows_balances_and_claims() {
    let a = array_a();
    let array = read_array(&a).unwrap();
    let left = |_| false;
    let first = begin(&array, &left);
    let second = attempt(&array, &first, 1, 0, &left).unwrap();
    let is_safe =
        |parts: &Parts, configuration| safe(&array, &read_table(&a, &table(&a, parts)).unwrap(), configuration);
    assert!(is_safe(&parts_a(), &first));
    assert!(is_safe(&parts_a(), &second));
    let mut parts = parts_a();
    parts.rows[2].clear();
    assert!(is_safe(&parts, &first));
    assert!(!is_safe(&parts, &second));
    let mut parts = parts_a();
    parts.balances[0].1[1].1 = 2;
    assert!(is_safe(&parts, &first));
    assert!(!is_safe(&parts, &second));
    let mut parts = parts_a();
    parts.claims[0][1] = 0;
    assert!(is_safe(&parts, &first));
    assert!(!is_safe(&parts, &second));
}

#[test]
fn high_and_shared_markers_are_compared_and_freed() {
    let high = |top| {
        let mut marker = Marker::empty();
        for i in 0..200_000 {
            let resource = if i == 0 { top } else { 4 };
            marker = Marker::new(resource, 5, marker.clone(), marker);
        }
        marker
    };
    assert!(high(1) == high(1));
    assert!(high(1) != high(2));
}
