//! Mending a flow table: smallest rows, what is written, refusal 32.

use super::build::*;
use super::random::{ordered, random_array, random_parts, Dice};
use crate::programs::{judge_text, mend_text};
use crate::*;

/// The table mended within just its own length, with the number of bits set.
fn mended(array: &[u8], table: &[u8]) -> (usize, Vec<u8>) {
    let mut output = vec![7; table.len()];
    let bits = mend(array, table, &mut output).unwrap();
    (bits, output)
}

/// Asserts the rows after mending; all else is as before. Gives the mended table.
fn assert_rows(array: &[u8], parts: &Parts, bits: usize, rows: &[&[usize]]) -> Vec<u8> {
    let (set, bytes) = mended(array, &table(array, parts));
    let rows = rows.iter().map(|row| row.to_vec()).collect();
    assert_eq!(bytes, table(array, &Parts { rows, ..parts.clone() }));
    assert_eq!(set, bits);
    bytes
}

/// Asserts a refusal for outputs of several lengths. None of their bytes changes.
fn assert_refused(array: &[u8], table: &[u8], number: u8, place: usize, lengths: &[usize]) {
    for length in lengths {
        let mut output = vec![7; *length];
        assert_eq!(mend(array, table, &mut output), Err(Refusal { number, place }), "{length}");
        assert_eq!(output, vec![7; *length]);
    }
}

#[test]
fn a_with_rows_1_and_2_empty() {
    let a = array_a();
    let mut parts = parts_a();
    parts.rows = vec![vec![0], vec![], vec![]];
    let bytes = assert_rows(&a, &parts, 2, &[&[0], &[1], &[1]]);
    assert_eq!(bytes, table(&a, &parts_a()));
    assert_eq!(judge_text(&a, &bytes), "held 8 3 1 1\n");
}

#[test]
fn a_with_one_row_empty() {
    let a = array_a();
    for row in 0..3 {
        let mut parts = parts_a();
        parts.rows[row].clear();
        let bytes = assert_rows(&a, &parts, 1, &[&[0], &[1], &[1]]);
        assert_eq!(judge_text(&a, &bytes), "held 8 3 1 1\n", "{row}");
    }
}

#[test]
fn all_rows_empty() {
    let a = array_a();
    let empty = Parts { rows: vec![vec![]; 3], ..parts_a() };
    assert_rows(&a, &empty, 3, &[&[0], &[1], &[1]]);
    for file in [array_b(), array_c()] {
        let mut parts = one_row(1, &[(2, 1)]);
        parts.rows[0].clear();
        assert_rows(&file, &parts, 1, &[&[0]]);
    }
}

#[test]
fn a_held_table_is_copied() {
    let held = [(array_a(), parts_a()), (array_b(), one_row(1, &[(2, 1), (5, 1)])), (array_c(), one_row(9, &[]))];
    for (file, parts) in held {
        let bytes = table(&file, &parts);
        assert!(matches!(check(&file, &bytes), Verdict::Held { .. }));
        assert_eq!(mended(&file, &bytes), (0, bytes));
    }
    // No names at all.
    let file = array(0, &[stop()]);
    let bytes = table(&file, &Parts::default());
    assert_eq!(mended(&file, &bytes), (0, bytes));
}

#[test]
fn given_bits_stay() {
    let a = array_a();
    let given = |rows: [&[usize]; 3]| Parts { rows: rows.map(<[usize]>::to_vec).to_vec(), ..parts_a() };
    assert_rows(&a, &given([&[0], &[1], &[0, 1]]), 0, &[&[0], &[1], &[0, 1]]);
    assert_rows(&a, &given([&[0, 1], &[0, 1], &[0, 1]]), 0, &[&[0, 1], &[0, 1], &[0, 1]]);
    // Bits that are not needed are passed on like the others.
    assert_rows(&a, &given([&[0], &[0], &[]]), 3, &[&[0], &[0, 1], &[0, 1]]);
    assert_rows(&a, &given([&[1], &[], &[0]]), 3, &[&[0, 1], &[1], &[0, 1]]);
}

#[test]
fn a_given_bit_makes_a_pair_live() {
    // The in listens on 1, the out sends on 0.
    let records = [new(0, 1), new(1, 2), par(3, 5), out(0, &[1], 4), stop(), input(1, &[2], 6), stop()];
    let file = array(3, &records);
    let given = |rows: [&[usize]; 3]| Parts { rows: rows.map(<[usize]>::to_vec).to_vec(), ..Parts::default() };
    assert_rows(&file, &given([&[], &[], &[]]), 2, &[&[0], &[1], &[]]);
    assert_rows(&file, &given([&[1], &[], &[]]), 3, &[&[0, 1], &[1], &[1]]);
    assert_rows(&file, &given([&[], &[0], &[]]), 4, &[&[0], &[0, 1], &[0, 1]]);
}

#[test]
fn a_parameter_never_gets_its_own_bit() {
    // A resource that sends its parameter to itself, twice over.
    let records = [
        new(0, 1),
        par(2, 4),
        out(0, &[0, 0], 3),
        stop(),
        resource(0, &[1, 2], 5),
        out(1, &[2, 1], 6),
        input(2, &[3], 7),
        stop(),
    ];
    let file = array(4, &records);
    let parts = Parts { rows: vec![vec![]; 4], ..Parts::default() };
    // No out has arity 1, so name 3 gets nothing.
    assert_rows(&file, &parts, 3, &[&[0], &[0], &[0], &[]]);
}

/// News 0 to 2, an out that sends 1 over 0, an in that gets it as 3, an out that
/// then sends 2 over 3, and an in on 1 with parameter 4. Either in can come first.
/// Gives the file, and the nodes of out, in, out, in.
fn relay(later_first: bool) -> (Vec<u8>, [usize; 4]) {
    let mut records = vec![new(0, 1), new(1, 2), new(2, 3), par(4, 6), out(0, &[1], 5), stop()];
    let first = if later_first { 9 } else { 7 };
    records.push(par(7, if later_first { 9 } else { 10 }));
    if later_first {
        records.extend([input(1, &[4], 8), stop()]);
    }
    records.extend([input(0, &[3], first + 1), out(3, &[2], first + 2), stop()]);
    if !later_first {
        records.extend([input(1, &[4], 11), stop()]);
    }
    let first = usize::from(first);
    let nodes = [4, first, first + 1, if later_first { 7 } else { 10 }];
    (array(5, &records), nodes)
}

#[test]
fn liveness_grows_with_the_rows() {
    for later_first in [false, true] {
        let (file, [sender, first, second, last]) = relay(later_first);
        let parts = |balances| Parts { rows: vec![vec![]; 5], balances, claims: vec![] };
        let weigh = |p, q, bound| (bound, vec![(p, 1), (q, 1)]);
        // Bit 1 of row 3 makes the other pair live.
        let all: [&[usize]; 5] = [&[0], &[1], &[2], &[1], &[2]];
        let bytes = assert_rows(&file, &parts(vec![]), 5, &all);
        assert_eq!(judge_text(&file, &bytes), "held 12 5 0 0\n");
        assert_rows(&file, &parts(vec![weigh(first, sender, 2), weigh(last, second, 2)]), 5, &all);
        // A balance rules out the first pair, or the other one.
        assert_rows(&file, &parts(vec![weigh(first, sender, 1)]), 3, &[&[0], &[1], &[2], &[], &[]]);
        assert_rows(&file, &parts(vec![weigh(last, second, 1)]), 4, &[&[0], &[1], &[2], &[1], &[]]);
        // The first pair is ruled out, but its bit is given.
        let mut given = parts(vec![weigh(first, sender, 1)]);
        given.rows[3].push(1);
        assert_rows(&file, &given, 4, &all);
    }
}

#[test]
fn arguments_match_by_place() {
    // Eight sent names, one of them twice, and a resource and an in that get them.
    let mut records: Vec<Record> = (0..7).map(|i| new(i, u16::from(i) + 1)).collect();
    records.extend([par(8, 10), out(0, &[6, 5, 4, 3, 2, 1, 1, 0], 9), stop(), par(11, 13)]);
    records.extend([resource(0, &[7, 8, 9, 10, 11, 12, 13, 14], 12), stop()]);
    records.extend([input(0, &[15, 16, 17, 18, 19, 20, 21], 14), stop()]);
    let file = array(22, &records);
    let parts = Parts { rows: vec![vec![]; 22], ..Parts::default() };
    let mut rows: Vec<Vec<usize>> = (0..7).map(|o| vec![o]).collect();
    rows.extend([6, 5, 4, 3, 2, 1, 1, 0].map(|o| vec![o]));
    // The in has arity 7, so it gets nothing.
    rows.extend(vec![vec![]; 7]);
    let rows: Vec<&[usize]> = rows.iter().map(Vec::as_slice).collect();
    assert_rows(&file, &parts, 15, &rows);
}

#[test]
fn the_balances_decide() {
    // The pair of 5 and 3 weighs 1.
    let a = array_a();
    let mut parts = parts_a();
    parts.rows[2].clear();
    parts.balances[0].0 = 0;
    let bytes = assert_rows(&a, &parts, 0, &[&[0], &[1], &[]]);
    assert_eq!(judge_text(&a, &bytes), "rule 2 0\n");
    // One of two balances is enough, and the sum does not wrap.
    parts.balances = vec![(9, vec![]), (65_536, vec![(3, 1), (5, 65_535)])];
    assert_rows(&a, &parts, 1, &[&[0], &[1], &[1]]);
    parts.balances[1].0 -= 1;
    assert_rows(&a, &parts, 0, &[&[0], &[1], &[]]);
    parts.balances.reverse();
    assert_rows(&a, &parts, 0, &[&[0], &[1], &[]]);
}

#[test]
fn the_other_rules_may_stay_broken() {
    let a = array_a();
    let whole: [&[usize]; 3] = [&[0], &[1], &[1]];
    let empty = Parts { rows: vec![vec![]; 3], ..parts_a() };
    let mut parts = empty.clone();
    parts.claims[0][1] = 0;
    assert_eq!(judge_text(&a, &assert_rows(&a, &parts, 3, &whole)), "rule 5 0\n");
    let mut parts = empty.clone();
    parts.balances[0].1 = vec![(5, 1), (6, 2)];
    assert_eq!(judge_text(&a, &assert_rows(&a, &parts, 3, &whole)), "rule 4 5 3 0\n");
    let mut parts = empty;
    parts.balances.push((1, vec![(3, 1), (5, 1)]));
    assert_eq!(judge_text(&a, &assert_rows(&a, &parts, 2, &[&[0], &[1], &[]])), "rule 2 1\n");
}

#[test]
fn output_shorter_than_the_table() {
    let a = array_a();
    for rows in [parts_a().rows, vec![vec![]; 3]] {
        let bytes = table(&a, &Parts { rows, ..parts_a() });
        assert_refused(&a, &bytes, 32, 0, &[0, 1, 28, bytes.len() - 4, bytes.len() - 1]);
    }
    let file = array(0, &[stop()]);
    assert_refused(&file, &table(&file, &Parts::default()), 32, 0, &[0, 27]);
}

#[test]
fn output_longer_than_the_table() {
    let a = array_a();
    let whole = table(&a, &parts_a());
    for (bits, rows) in [(0, parts_a().rows), (3, vec![vec![]; 3])] {
        let bytes = table(&a, &Parts { rows, ..parts_a() });
        for longer in [0, 1, 3, 4, 32, 70_000] {
            let mut output = vec![7; bytes.len() + longer];
            assert_eq!(mend(&a, &bytes, &mut output), Ok(bits));
            assert_eq!(output[..whole.len()], whole);
            assert_eq!(output[whole.len()..], vec![7; longer]);
        }
    }
}

/// Array A with one byte of one record set and the word sum put right.
fn a_with(node: usize, at: usize, byte: u8) -> Vec<u8> {
    let mut file = array_a();
    file[16 * node + at] = byte;
    set_sum(&mut file);
    file
}

/// Arrays that are refused, with number and place.
fn refused_arrays() -> Vec<(Vec<u8>, u8, usize)> {
    let a = array_a();
    let mut wrong_sum = a.clone();
    wrong_sum[a.len() - 8] ^= 1;
    vec![
        (vec![], 1, 0),
        (vec![0; 16], 2, 0),
        (array(3, &[]), 3, 0),
        (a[4..].to_vec(), 4, 0),
        (wrong_sum, 5, 0),
        (a_with(4, 0, 7), 6, 4),
        (a_with(4, 15, 1), 7, 4),
        (a_with(3, 2, 3), 8, 3),
        (a_with(2, 2, 5), 9, 3),
        (a_with(3, 8, 3), 10, 3),
        (array(4, &records_a()), 11, 3),
        (a_with(3, 8, 2), 12, 3),
    ]
}

/// Tables of array A with one byte set, counted from the end, and the word sum put right.
fn spoiled_tables() -> Vec<(Vec<u8>, u8, usize)> {
    let a = array_a();
    let whole = table(&a, &parts_a());
    let with = |back: usize, byte: u8| {
        let mut bytes = whole.clone();
        bytes[whole.len() - back] = byte;
        set_sum(&mut bytes);
        bytes
    };
    let mut wrong_sum = whole.clone();
    wrong_sum[whole.len() - 8] ^= 1;
    vec![
        (vec![], 13, 0),
        (with(4, b'p'), 14, 0),
        (with(16, 25), 15, 0),
        (with(28, 1), 16, 0),
        (wrong_sum, 17, 0),
        (with(12, whole[whole.len() - 12] ^ 1), 18, 0),
    ]
}

/// Tables of array A with wrong parts. All but the first lack a bit.
fn wrong_tables() -> Vec<(Vec<u8>, u8, usize)> {
    let a = array_a();
    let empty = Parts { rows: vec![vec![]; 3], ..parts_a() };
    let claims = |claims: &[[u16; 4]]| Parts { claims: claims.to_vec(), ..empty.clone() };
    let rows = vec![vec![0], vec![1], vec![1, 2]];
    let balances = vec![(1, vec![]), (1, vec![(4, 1)])];
    let wrong = [
        (Parts { rows, ..parts_a() }, 19, 2),
        (Parts { balances, ..empty.clone() }, 20, 1),
        (claims(&[[6, 1, 0, 0], [6, 1, 1, 0]]), 21, 1),
        (claims(&[[5, 1, 0, 7], [6, 2, 0, 7]]), 30, 1),
        (claims(&[[6, 1, 0, 0], [5, 1, 0, 0]]), 31, 1),
    ];
    wrong.map(|(parts, number, place)| (table(&a, &parts), number, place)).to_vec()
}

#[test]
fn earlier_refusals_go_before_32() {
    let a = array_a();
    let whole = table(&a, &parts_a());
    let lengths = [0, 28, 1000];
    let mut numbers = vec![];
    // The array goes before the table, also before one that is refused.
    for (file, number, place) in refused_arrays() {
        for bytes in [&whole[..], &[]] {
            assert_refused(&file, bytes, number, place, &lengths);
        }
        numbers.push(number);
    }
    for (bytes, number, place) in [spoiled_tables(), wrong_tables()].concat() {
        assert_refused(&a, &bytes, number, place, &lengths);
        numbers.push(number);
    }
    assert_eq!(numbers, (1..=21).chain([30, 31]).collect::<Vec<u8>>());
}

#[test]
fn the_largest_table_is_mended() {
    // 256 news, then outs down to a stop.
    let mut records: Vec<Record> = (0..256).map(|i| new(i as u8, i + 1)).collect();
    records.extend((256..1023).map(|i| out((i % 256) as u8, &[0; 8], i + 1)));
    records.push(stop());
    let file = array_with(&[1; 1024], 256, &records);
    let parts = Parts {
        rows: vec![vec![]; 256],
        balances: vec![(65_535 * 65_536 - 1, vec![(1022, 65_535)]); 24],
        claims: (0..256).map(|set| [1022, 65_535, 23, set]).collect(),
    };
    let bytes = table(&file, &parts);
    assert_eq!(bytes.len(), 59_516);
    let (bits, after) = mended(&file, &bytes);
    assert_eq!((bits, judge_text(&file, &after)), (256, "held 1024 256 24 256\n".to_string()));
    for o in 0..256 {
        assert_eq!(after[32 * o + o / 8], 1 << (o % 8));
    }
}

/// Channels 0 to 127, and ins with parameters 128 to 254, each of which passes on
/// what it gets; those that get it last come first. Outs that nothing matches
/// fill up the array.
fn long_relay() -> Vec<u8> {
    let mut records: Vec<Record> = (0..128).map(|i| new(i, u16::from(i) + 1)).collect();
    for i in (1..128).rev() {
        let at = records.len() as u16;
        records.extend([par(at + 1, at + 4), input(i - 1, &[127 + i], at + 2), out(i, &[127 + i], at + 3), stop()]);
    }
    records.extend((records.len()..1023).map(|at| out(if at == 636 { 0 } else { 127 }, &[0], at as u16 + 1)));
    records.push(stop());
    array(255, &records)
}

#[test]
fn a_bit_goes_a_long_way() {
    let file = long_relay();
    assert_eq!(read_array(&file).unwrap().nodes().len(), 1024);
    let mut rows: Vec<Vec<usize>> = (0..128).map(|o| vec![o]).collect();
    rows.extend(vec![vec![0]; 127]);
    let rows: Vec<&[usize]> = rows.iter().map(Vec::as_slice).collect();
    let parts = Parts { rows: vec![vec![]; 255], ..Parts::default() };
    assert_rows(&file, &parts, 255, &rows);
}

/// A pair that arity and balances allow: its two channels, and each sent name
/// with the matching parameter.
struct Pair {
    channels: [usize; 2],
    sent: Vec<(usize, usize)>,
}

fn allowed_pairs(array: &Array, parts: &Parts) -> Vec<Pair> {
    let weight = |weights: &[(usize, u16)], node| weights.iter().find(|pair| pair.0 == node).map_or(0, |pair| pair.1);
    let both = |weights: &[(usize, u16)], p, q| u32::from(weight(weights, p)) + u32::from(weight(weights, q));
    let mut pairs = vec![];
    for (p, input) in array.nodes().iter().enumerate().filter(|(_, node)| node.is_receiver()) {
        for (q, output) in array.nodes().iter().enumerate().filter(|(_, node)| node.is_sender()) {
            let fits = parts.balances.iter().all(|(bound, weights)| both(weights, p, q) <= *bound);
            if fits && input.arity() == output.arity() {
                let sent = output.arguments.iter().copied().zip(input.arguments.iter().copied()).collect();
                pairs.push(Pair { channels: [input.name, output.name], sent });
            }
        }
    }
    pairs
}

/// Rules 1 and 3 for rows as numbers of 64 bits.
fn meets(array: &Array, pairs: &[Pair], rows: &[u64]) -> bool {
    let holds = |pair: &Pair| {
        let [input, output] = pair.channels;
        rows[input] & rows[output] == 0 || pair.sent.iter().all(|(from, to)| rows[*from] & !rows[*to] == 0)
    };
    array.opened().iter().all(|o| rows[o] >> o & 1 == 1) && pairs.iter().all(holds)
}

/// The rows of a table file as numbers of 64 bits.
fn rows_of(file: &[u8], names: usize) -> Vec<u64> {
    let row = |bytes: &[u8]| {
        assert!(bytes[8..].iter().all(|byte| *byte == 0));
        u64::from_le_bytes(bytes[..8].try_into().unwrap())
    };
    file.chunks(32).take(names).map(row).collect()
}

fn bits_in(rows: &[u64]) -> usize {
    rows.iter().map(|row| row.count_ones() as usize).sum()
}

fn is_within(rows: &[u64], others: &[u64]) -> bool {
    rows.iter().zip(others).all(|(row, other)| row & !other == 0)
}

/// The bits for news that rows lack, as name and new.
fn missing(array: &Array, rows: &[u64]) -> Vec<(usize, usize)> {
    let lacks = |(v, o): &(usize, usize)| rows[*v] >> o & 1 == 0;
    (0..rows.len()).flat_map(|v| array.opened().iter().map(move |o| (v, o))).filter(lacks).collect()
}

/// What all choices of rows that contain the given ones and meet rules 1 and 3
/// have in common.
fn common(array: &Array, pairs: &[Pair], given: &[u64]) -> Vec<u64> {
    let missing = missing(array, given);
    let mut common = vec![u64::MAX; given.len()];
    for choice in 0..1u32 << missing.len() {
        let mut rows = given.to_vec();
        for (_, (v, o)) in missing.iter().enumerate().filter(|(i, _)| choice >> i & 1 == 1) {
            rows[*v] |= 1 << o;
        }
        if meets(array, pairs, &rows) {
            common.iter_mut().zip(rows).for_each(|(common, row)| *common &= row);
        }
    }
    common
}

/// Some news, and beside each other some outs, and ins or resources that each
/// lead to an out.
fn small_array(dice: &mut Dice) -> Vec<u8> {
    let news = 1 + dice.below(3);
    let mut records: Vec<Record> = (0..news).map(|o| new(o as u8, o as u16 + 1)).collect();
    let mut names = news;
    for _ in 0..1 + dice.below(4) {
        let at = records.len() as u16;
        let some = |dice: &mut Dice| dice.below(news) as u8;
        let (channel, arity) = (some(dice), dice.below(3));
        if dice.below(2) == 0 {
            let sent: Vec<u8> = (0..arity).map(|_| some(dice)).collect();
            records.extend([par(at + 1, at + 3), out(channel, &sent, at + 2), stop()]);
            continue;
        }
        let bound: Vec<u8> = (names..names + arity).map(|name| name as u8).collect();
        names += arity;
        let scope: Vec<u8> = (0..news as u8).chain(bound.iter().copied()).collect();
        let some = |dice: &mut Dice| scope[scope.len() - 1 - dice.below(scope.len())];
        let sent: Vec<u8> = (0..dice.below(3)).map(|_| some(dice)).collect();
        let kind = [input, resource][dice.below(2)];
        records.extend([par(at + 1, at + 4), kind(channel, &bound, at + 2), out(some(dice), &sent, at + 3), stop()]);
    }
    records.push(stop());
    array(names as u16, &records)
}

/// Rows with some bits for news, and balances that rule out some pairs.
fn small_parts(dice: &mut Dice, array: &Array) -> Parts {
    let rarely = 1 + dice.below(12);
    let mut rows = vec![vec![]; array.names()];
    for row in &mut rows {
        row.extend(array.opened().iter().filter(|_| dice.below(rarely) == 0 && rarely > 1));
    }
    let mut balances = vec![];
    for _ in 0..dice.below(3) {
        let agents = (0..array.nodes().len()).filter(|i| array.agent(*i).is_some());
        let weights = agents.map(|agent| (agent, dice.below(3) as u16)).collect();
        balances.push((1 + dice.below(4) as u32, weights));
    }
    Parts { rows, balances, claims: vec![] }
}

#[test]
fn small_rows_are_the_smallest() {
    let mut dice = Dice(10);
    let (mut tried, mut by_rule_3, mut by_balance) = (0, 0, 0);
    while tried < 3000 {
        let file = small_array(&mut dice);
        let array = read_array(&file).unwrap();
        let parts = small_parts(&mut dice, &array);
        let bytes = table(&file, &parts);
        let given = rows_of(&bytes, array.names());
        if missing(&array, &given).len() > 12 {
            continue;
        }
        tried += 1;
        let pairs = allowed_pairs(&array, &parts);
        let least = common(&array, &pairs, &given);
        assert!(meets(&array, &pairs, &least));
        let (bits, after) = mended(&file, &bytes);
        assert_eq!(rows_of(&after, array.names()), least);
        assert_eq!(bits, bits_in(&least) - bits_in(&given));

        let own = array.opened().iter().filter(|o| given[*o] >> o & 1 == 0).count();
        by_rule_3 += usize::from(bits > own);
        let free = Parts { balances: vec![], ..parts };
        by_balance += usize::from(mended(&file, &table(&file, &free)).0 > bits);
    }
    assert!(by_rule_3 > 500 && by_balance > 100, "{by_rule_3} {by_balance}");
}

/// Takes some bits out of rows and puts some others in.
fn shake(dice: &mut Dice, array: &Array, rows: &mut [Vec<usize>]) {
    let opened: Vec<usize> = array.opened().iter().collect();
    let (keep, add) = (dice.below(5), 1 + dice.below(40));
    for row in rows {
        row.retain(|_| dice.below(4) < keep);
        row.extend(opened.iter().filter(|_| dice.below(add + 20) == 0));
    }
}

/// Asserts that only rows and word sum differ, and that the rows grew by so many bits.
fn assert_grown(file: &[u8], names: usize, before: &[u8], after: &[u8], bits: usize) {
    let (old, new) = (rows_of(before, names), rows_of(after, names));
    assert!(is_within(&old, &new));
    assert_eq!(bits_in(&new) - bits_in(&old), bits);
    let sum = before.len() - 8;
    assert_eq!(after[32 * names..sum], before[32 * names..sum]);
    assert_eq!(after[sum + 4..], before[sum + 4..]);
    let (old, new) = (read_table(file, before).unwrap(), read_table(file, after).unwrap());
    assert_eq!((old.balances(), old.claims()), (new.balances(), new.claims()));
}

#[test]
fn random_tables_are_mended() {
    let mut dice = Dice(11);
    let (mut rules, mut copied, mut grown) = ([0; 6], 0, 0);
    for _ in 0..4000 {
        let (file, names) = random_array(&mut dice, 60);
        let array = read_array(&file).unwrap();
        let mut parts = ordered(&random_parts(&mut dice, &array));
        shake(&mut dice, &array, &mut parts.rows);
        let bytes = table(&file, &parts);
        let (bits, after) = mended(&file, &bytes);
        assert_grown(&file, names, &bytes, &after, bits);
        assert!(meets(&array, &allowed_pairs(&array, &parts), &rows_of(&after, names)));
        assert_eq!(mended(&file, &after), (0, after.clone()));
        match check(&file, &after) {
            Verdict::Held { .. } => rules[0] += 1,
            Verdict::Rule { number: number @ (2 | 4 | 5), .. } => rules[usize::from(number)] += 1,
            verdict => panic!("{verdict:?}"),
        }
        copied += usize::from(bytes == after);
        assert_eq!(bytes == after, bits == 0);

        // More bits given, more bits in the end.
        parts.rows.iter_mut().for_each(|row| row.extend(array.opened().iter().filter(|_| dice.below(30) == 0)));
        let (_, larger) = mended(&file, &table(&file, &parts));
        assert!(is_within(&rows_of(&after, names), &rows_of(&larger, names)));
        grown += usize::from(larger != after);
    }
    assert!([0, 2, 4, 5].iter().all(|number| rules[*number] > 50), "{rules:?}");
    assert!(copied > 50 && grown > 500, "{copied} {grown}");
}

#[test]
fn spoiled_files_are_refused_as_the_reader_does() {
    let mut dice = Dice(12);
    let mut numbers = [0; 33];
    for round in 0..10_000 {
        let (mut file, _) = random_array(&mut dice, 24);
        let array = read_array(&file).unwrap();
        let mut bytes = table(&file, &ordered(&random_parts(&mut dice, &array)));
        let spoiled = if round % 4 == 0 { &mut file } else { &mut bytes };
        for _ in 0..dice.below(3) {
            let at = dice.below(spoiled.len());
            spoiled[at] = dice.below(256) as u8;
        }
        set_sum(spoiled);
        let length = bytes.len() - 8 + dice.below(16);
        let mut output = vec![7; length];
        let answer = mend(&file, &bytes, &mut output);
        match read_table(&file, &bytes) {
            Err(refusal) => assert_eq!(answer, Err(refusal)),
            Ok(_) if length < bytes.len() => assert_eq!(answer, Err(Refusal { number: 32, place: 0 })),
            Ok(_) => assert!(answer.is_ok()),
        }
        if let Err(refusal) = answer {
            assert_eq!(output, vec![7; length]);
            numbers[usize::from(refusal.number)] += 1;
        } else {
            assert_eq!(output[bytes.len()..], vec![7; length - bytes.len()]);
            numbers[0] += 1;
        }
    }
    assert!(numbers.iter().filter(|count| **count > 0).count() > 14, "{numbers:?}");
    assert!(numbers[0] > 1000 && numbers[32] > 1000, "{numbers:?}");
}

#[test]
fn the_line_of_mend() {
    let a = array_a();
    let whole = table(&a, &parts_a());
    let empty = table(&a, &Parts { rows: vec![vec![]; 3], ..parts_a() });
    assert_eq!(mend_text(&a, &empty), ("mended 3\n".to_string(), Some(whole.clone())));
    assert_eq!(mend_text(&a, &whole), ("mended 0\n".to_string(), Some(whole.clone())));
    assert_eq!(mend_text(&[], &whole), ("refused 1 0\n".to_string(), None));
    assert_eq!(mend_text(&a, &[]), ("refused 13 0\n".to_string(), None));
    let unordered = Parts { claims: vec![[6, 1, 0, 0], [6, 1, 0, 0]], ..parts_a() };
    assert_eq!(mend_text(&a, &table(&a, &unordered)), ("refused 31 1\n".to_string(), None));
}
