//! Each refusal at its place.

use super::build::*;
use crate::*;

const LEFT: [u8; 128] = [0; 128];

fn refused<T>(number: u8, place: usize) -> Result<T, Refusal> {
    Err(Refusal { number, place })
}

fn array_refusal(file: &[u8]) -> (u8, usize) {
    let refusal = read_array(file).unwrap_err();
    assert_eq!(remark(file), b"");
    assert_eq!(check(file, &[]), Verdict::Refused(refusal));
    (refusal.number, refusal.place)
}

/// A file with one byte of it set and the word sum put right.
fn with(file: &[u8], at: usize, byte: u8) -> Vec<u8> {
    let mut file = file.to_vec();
    file[at] = byte;
    set_sum(&mut file);
    file
}

/// Array A with one byte of one record set.
fn a_with(node: usize, at: usize, byte: u8) -> (u8, usize) {
    array_refusal(&with(&array_a(), 16 * node + at, byte))
}

#[test]
fn refusals_1_to_5() {
    let a = array_a();
    assert_eq!(array_refusal(&[]), (1, 0));
    assert_eq!(array_refusal(&a[..12]), (1, 0));
    assert_eq!(array_refusal(&a[1..]), (1, 0));
    assert_eq!(array_refusal(&[0; 17_428]), (1, 0));
    assert_eq!(array_refusal(&[0; 17_424]), (2, 0));
    let end = a.len();
    assert_eq!(array_refusal(&with(&a, end - 1, b'2')), (2, 0));
    assert_eq!(array_refusal(&with(&a, end - 12, 0)), (3, 0));
    assert_eq!(array_refusal(&with(&a, end - 11, 5)), (3, 0));
    assert_eq!(array_refusal(&with(&a, end - 9, 1)), (3, 0));
    assert_eq!(array_refusal(&with(&a, end - 12, 7)), (4, 0));
    assert_eq!(array_refusal(&with(&a, end - 16, 4)), (4, 0));
    assert_eq!(array_refusal(&with(&a, end - 13, 255)), (4, 0));
    assert_eq!(array_refusal(&array_with(&[0; 1028], 3, &records_a())), (4, 0));
    assert!(read_array(&array_with(&[9; 1024], 3, &records_a())).is_ok());
    let mut wrong = a.clone();
    wrong[end - 8] ^= 1;
    assert_eq!(array_refusal(&wrong), (5, 0));
}

#[test]
fn the_largest_array_is_read() {
    // 256 news, then outs down to a stop.
    let mut records: Vec<Record> = (0..256).map(|i| new(i as u8, i + 1)).collect();
    records.extend((256..1023).map(|i| out((i % 256) as u8, &[0; 8], i + 1)));
    records.push(stop());
    let file = array_with(&[1; 1024], 256, &records);
    assert_eq!(file.len(), 17_424);
    let array = read_array(&file).unwrap();
    assert_eq!((array.nodes().len(), array.names()), (1024, 256));
    let parts = Parts {
        rows: (0..256).map(|o| vec![o]).collect(),
        balances: vec![(65_535 * 65_536 - 1, vec![(1022, 65_535)]); 24],
        claims: (0..256).map(|set| [1022, 65_535, 23, set]).collect(),
    };
    let table = table(&file, &parts);
    assert_eq!(table.len(), 59_516);
    assert_eq!(check(&file, &table), Verdict::Held { nodes: 1024, names: 256, balances: 24, claims: 256 });
    assert_eq!(start(&file, &LEFT, &mut [0; 258]), Ok(1));
}

#[test]
fn at_most_256_threads_fit() {
    for count in [256, 257] {
        let mut records = vec![new(0, 1)];
        for i in 1..count {
            let at = 3 * i - 2;
            records.extend([par(at + 1, at + 3), out(0, &[], at + 2), stop()]);
        }
        records.extend([out(0, &[], 3 * count - 1), stop()]);
        let file = array(1, &records);
        let mut threads = vec![7; 300 * 3];
        let started = start(&file, &LEFT, &mut threads);
        if count == 256 {
            assert_eq!(started, Ok(256));
        } else {
            assert_eq!(started, refused(28, 0));
            assert_eq!(threads, vec![7; 300 * 3]);
        }
    }
}

#[test]
fn refusal_6() {
    assert_eq!(a_with(4, 0, 7), (6, 4));
    assert_eq!(a_with(4, 0, 255), (6, 4));
    assert_eq!(a_with(3, 1, 9), (6, 3));
    for node in [0, 2, 4] {
        assert_eq!(a_with(node, 1, 1), (6, node));
    }
    let c = array_c();
    assert_eq!(array_refusal(&with(&c, 16 + 1, 1)), (6, 1));
}

#[test]
fn refusal_7() {
    for at in [2, 3, 4, 5, 6, 7, 8, 15] {
        assert_eq!(a_with(4, at, 1), (7, 4));
    }
    for at in [4, 5, 7, 8, 15] {
        assert_eq!(a_with(0, at, 1), (7, 0));
    }
    for at in [6, 7, 8, 15] {
        assert_eq!(a_with(2, at, 1), (7, 2));
    }
    for at in [4, 5, 7, 9, 15] {
        assert_eq!(a_with(3, at, 1), (7, 3));
        assert_eq!(a_with(5, at, 1), (7, 5));
    }
    // The number goes before the place.
    let file = with(&array_a(), 16, 7);
    assert_eq!(array_refusal(&with(&file, 7, 1)), (6, 1));
}

#[test]
fn refusals_8_and_9() {
    assert_eq!(a_with(3, 2, 3), (8, 3));
    assert_eq!(a_with(3, 2, 0), (8, 3));
    assert_eq!(a_with(6, 2, 8), (8, 6));
    assert_eq!(a_with(6, 3, 1), (8, 6));
    assert_eq!(a_with(2, 4, 1), (8, 2));
    // Both fields of the par name node 5.
    assert_eq!(a_with(2, 2, 5), (9, 3));
    assert_eq!(a_with(3, 2, 7), (9, 4));
    assert_eq!(array_refusal(&array(0, &[par(1, 1), stop()])), (9, 1));
    assert_eq!(array_refusal(&array(0, &[stop(), stop()])), (9, 1));
}

#[test]
fn refusals_10_to_12() {
    assert_eq!(a_with(0, 6, 3), (10, 0));
    assert_eq!(a_with(3, 6, 3), (10, 3));
    assert_eq!(a_with(3, 8, 3), (10, 3));
    assert_eq!(a_with(5, 8, 3), (10, 5));
    assert_eq!(a_with(0, 6, 1), (11, 0));
    assert_eq!(a_with(1, 6, 2), (11, 1));
    assert_eq!(array_refusal(&array(4, &records_a())), (11, 3));
    let twice = [new(0, 1), input(0, &[1, 1], 2), stop()];
    assert_eq!(array_refusal(&array(2, &twice)), (11, 1));
    assert_eq!(a_with(3, 8, 2), (12, 3));
    assert_eq!(a_with(3, 6, 2), (12, 3));
    // A channel isn't reached by the agent's own parameters.
    let own = [new(0, 1), input(1, &[1], 2), stop()];
    assert_eq!(array_refusal(&array(2, &own)), (12, 1));
    // A new doesn't reach the other side of a par.
    let side = [par(3, 1), out(0, &[], 2), stop(), new(0, 4), stop()];
    assert_eq!(array_refusal(&array(1, &side)), (12, 1));
}

fn table_refusal(array: &[u8], table: &[u8]) -> (u8, usize) {
    let refusal = read_table(array, table).unwrap_err();
    assert_eq!(check(array, table), Verdict::Refused(refusal));
    (refusal.number, refusal.place)
}

#[test]
fn refusals_13_to_18() {
    let a = array_a();
    let t = table(&a, &parts_a());
    let end = t.len();
    let with = |at: usize, byte: u8| table_refusal(&a, &with(&t, at, byte));
    assert_eq!(table_refusal(&a, &t[..24]), (13, 0));
    assert_eq!(table_refusal(&a, &t[1..]), (13, 0));
    assert_eq!(table_refusal(&a, &[0; 59_520]), (13, 0));
    assert_eq!(table_refusal(&a, &[0; 59_516]), (14, 0));
    assert_eq!(with(end - 4, b'p'), (14, 0));
    assert_eq!(with(end - 16, 25), (15, 0));
    assert_eq!(with(end - 13, 2), (15, 0));
    assert_eq!(with(end - 16, 2), (16, 0));
    assert_eq!(with(end - 14, 2), (16, 0));
    for at in [28, 24, 20] {
        assert_eq!(with(end - at, 1), (16, 0));
    }
    assert_eq!(table_refusal(&a, &t[4..]), (16, 0));
    let mut wrong = t.clone();
    wrong[end - 8] ^= 1;
    assert_eq!(table_refusal(&a, &wrong), (17, 0));
    assert_eq!(with(end - 12, t[end - 12] ^ 1), (18, 0));
    assert_eq!(table_refusal(&a[4..], &t), (4, 0));
}

#[test]
fn refusals_19_to_21() {
    let a = array_a();
    for bit in [2, 3, 255] {
        let mut parts = parts_a();
        parts.rows[1].push(bit);
        assert_eq!(table_refusal(&a, &table(&a, &parts)), (19, 1));
    }
    for node in [0, 1, 2, 4, 7] {
        let mut parts = parts_a();
        parts.balances.push((0, vec![(node, 1)]));
        assert_eq!(table_refusal(&a, &table(&a, &parts)), (20, 1));
    }
    let b = array_b();
    let parts = one_row(0, &[(7, 1)]);
    assert_eq!(table_refusal(&b, &table(&b, &parts)), (20, 0));
    for claim in [[4, 1, 0, 0], [8, 1, 0, 0], [65_535, 1, 0, 0], [6, 1, 1, 0], [4, 1, 0, 1], [6, 1, 1, 1]] {
        let mut parts = parts_a();
        parts.claims.push(claim);
        assert_eq!(table_refusal(&a, &table(&a, &parts)), (21, 1));
    }
    for set in [0, 1, 255, 256, 65_535] {
        let mut parts = parts_a();
        parts.claims.push([6, 2, 0, set]);
        let read = read_table(&a, &table(&a, &parts)).unwrap();
        assert_eq!(read.claims()[1], Claim { agent: 6, most: 2, balance: 0, set });
    }
}

/// Array A and two equal balances with some claims.
fn a_claims(claims: &[[u16; 4]]) -> (u8, usize) {
    let mut parts = parts_a();
    parts.balances.push(parts.balances[0].clone());
    parts.claims = claims.to_vec();
    let a = array_a();
    table_refusal(&a, &table(&a, &parts))
}

#[test]
fn refusal_30() {
    // By most, by balance, by both.
    assert_eq!(a_claims(&[[5, 1, 0, 7], [6, 2, 0, 7]]), (30, 1));
    assert_eq!(a_claims(&[[5, 2, 0, 7], [6, 1, 0, 7]]), (30, 1));
    assert_eq!(a_claims(&[[5, 1, 0, 7], [6, 257, 0, 7]]), (30, 1));
    assert_eq!(a_claims(&[[5, 1, 0, 7], [6, 1, 1, 7]]), (30, 1));
    assert_eq!(a_claims(&[[5, 1, 1, 7], [6, 1, 0, 7]]), (30, 1));
    assert_eq!(a_claims(&[[5, 1, 0, 7], [6, 2, 1, 7]]), (30, 1));
    // Also where both name one agent.
    assert_eq!(a_claims(&[[6, 1, 0, 7], [6, 2, 0, 7]]), (30, 1));
    // Claims apart, and a third one that agrees with either.
    assert_eq!(a_claims(&[[5, 1, 0, 7], [5, 1, 0, 0], [6, 2, 0, 7]]), (30, 2));
    assert_eq!(a_claims(&[[5, 1, 0, 7], [6, 1, 0, 7], [6, 2, 0, 7]]), (30, 2));
    assert_eq!(a_claims(&[[5, 1, 0, 7], [6, 2, 0, 7], [6, 1, 0, 7]]), (30, 1));
    assert_eq!(a_claims(&[[5, 1, 0, 7], [6, 2, 0, 7], [6, 2, 0, 7]]), (30, 1));
    // Of two sets the lower of the later claims.
    assert_eq!(a_claims(&[[5, 1, 0, 7], [5, 1, 0, 8], [6, 2, 0, 8], [6, 2, 0, 7]]), (30, 2));
    assert_eq!(a_claims(&[[5, 1, 0, 8], [5, 1, 0, 7], [6, 1, 1, 7], [6, 2, 0, 8]]), (30, 2));
}

#[test]
fn refusal_30_goes_after_21_and_before_the_rules() {
    assert_eq!(a_claims(&[[5, 1, 0, 7], [6, 2, 0, 7], [4, 1, 0, 0]]), (21, 2));
    assert_eq!(a_claims(&[[5, 1, 0, 7], [6, 2, 0, 7], [6, 1, 2, 7]]), (21, 2));
    assert_eq!(a_claims(&[[5, 1, 0, 7], [8, 2, 0, 7]]), (21, 1));
    assert_eq!(a_claims(&[[5, 1, 0, 7], [6, 1, 2, 7]]), (21, 1));
    // Claim 0 breaks rule 5, and row 1 rule 1.
    assert_eq!(a_claims(&[[3, 1, 0, 0], [5, 1, 0, 7], [6, 2, 0, 7]]), (30, 2));
    let a = array_a();
    let mut parts = parts_a();
    parts.rows[1].clear();
    parts.claims = vec![[5, 1, 0, 7], [6, 2, 0, 7]];
    assert_eq!(table_refusal(&a, &table(&a, &parts)), (30, 1));
}

#[test]
fn refusals_of_a_start() {
    let a = array_a();
    let mut threads = [7; 10];
    assert_eq!(start(&a[4..], &[], &mut threads), refused(4, 0));
    assert_eq!(start(&a, &[0; 127], &mut threads), refused(22, 0));
    assert_eq!(start(&a, &LEFT, &mut threads[..9]), refused(28, 0));
    assert_eq!(threads, [7; 10]);
    assert_eq!(start(&a, &LEFT, &mut threads), Ok(2));
}

/// Steps, walks and strides B with a lent configuration; all must refuse it by 23.
fn is_misformed(threads: &[u32], thread_count: usize, markers: &[u16], marker_count: usize) -> bool {
    let b = array_b();
    let mut lent = (threads.to_vec(), markers.to_vec());
    let stepped = step(&b, &LEFT, &mut lent.0, thread_count, &mut lent.1, marker_count, usize::MAX, 0);
    let misformed = stepped == refused(23, 0);
    assert!(misformed || stepped == refused(24, 0));
    let walked = walk(&b, &LEFT, &mut lent.0, thread_count, &mut lent.1, marker_count, 0);
    assert_eq!(walked == refused(23, 0), misformed);
    let strode = stride(&b, &LEFT, &mut lent.0, thread_count, &mut lent.1, marker_count, Allowance::whole(0));
    assert_eq!(strode == refused(23, 0), misformed);
    assert_eq!(lent, (threads.to_vec(), markers.to_vec()));
    misformed
}

#[test]
fn refusal_23() {
    let threads = [4, 0, 1, 5, 2, 1];
    let markers = [4, 2, 0, 0, 4, 5, 0, 1];
    assert!(!is_misformed(&threads, 2, &markers, 2));
    assert!(!is_misformed(&threads, 1, &markers, 0));
    assert!(!is_misformed(&[], 0, &[], 0));
    assert!(is_misformed(&threads, 3, &markers, 2));
    assert!(is_misformed(&threads, usize::MAX, &markers, 2));
    assert!(is_misformed(&threads[..5], 2, &markers, 2));
    assert!(is_misformed(&threads, 2, &markers, 3));
    assert!(is_misformed(&threads, 2, &markers[..7], 2));
    assert!(is_misformed(&threads, 2, &markers, 1));
    let many = [5, 0, 1].repeat(257);
    assert!(!is_misformed(&many, 256, &[], 0));
    assert!(is_misformed(&many, 257, &[], 0));
    for (at, word) in [(0, 3), (0, 7), (0, u32::MAX), (1, 3), (1, 65_536), (2, 0), (2, 4), (2, 65_537), (2, u32::MAX)] {
        let mut threads = threads;
        threads[at] = word;
        assert!(is_misformed(&threads, 2, &markers, 2), "{at} {word}");
    }
    for (at, number) in [(0, 2), (0, 7), (1, 4), (1, 65_535), (2, 1), (3, 1), (6, 2), (7, 2)] {
        let mut markers = markers;
        markers[at] = number;
        assert!(is_misformed(&threads, 2, &markers, 2), "{at} {number}");
    }
    assert!(is_misformed(&threads, 2, &[4, 2, 0, 0, 4, 2, 0, 0], 2));
    // A parameter's number is no new; a name that isn't free has no word.
    let a = array_a();
    for words in [[3, 0, 1, 131_073, 0], [3, 0, 1, 65_537, 1]] {
        let mut threads = words;
        assert_eq!(step(&a, &LEFT, &mut threads, 1, &mut [], 0, 0, 0), refused(23, 0));
    }
    let mut threads = threads;
    assert_eq!(step(&array_b(), &[0; 129], &mut threads, 9, &mut [], 0, 0, 0), refused(22, 0));
    assert_eq!(walk(&array_b(), &[], &mut threads, 9, &mut [], 0, 0), refused(22, 0));
    let none = Allowance::whole(0);
    assert_eq!(stride(&array_b(), &[], &mut threads, 9, &mut [], 0, none), refused(22, 0));
    assert_eq!(stride(&array_b()[4..], &[], &mut threads, 9, &mut [], 0, none), refused(4, 0));
}

#[test]
fn refusals_24_to_27() {
    let b = array_b();
    let mut markers = [4, 2, 0, 0, 4, 5, 0, 1];
    let mut threads = [4, 0, 1, 5, 2, 1, 5, 1, 2];
    let mut try_step = |receiver, sender| step(&b, &LEFT, &mut threads, 3, &mut markers, 2, receiver, sender);
    assert_eq!(try_step(3, 0), refused(24, 0));
    assert_eq!(try_step(0, usize::MAX), refused(24, 0));
    assert_eq!(try_step(1, 0), refused(25, 0));
    assert_eq!(try_step(0, 0), refused(25, 0));
    assert_eq!(try_step(1, 1), refused(25, 0));
    assert_eq!(try_step(0, 2), refused(27, 0));
    assert_eq!(threads, [4, 0, 1, 5, 2, 1, 5, 1, 2]);

    // Two channels; arity goes before channel.
    let records = [
        new(0, 1),
        new(1, 2),
        par(3, 5),
        out(0, &[0], 4),
        stop(),
        par(6, 8),
        input(1, &[], 7),
        stop(),
        input(1, &[2], 9),
        stop(),
    ];
    let file = array(3, &records);
    let mut threads = [0; 15];
    assert_eq!(start(&file, &LEFT, &mut threads), Ok(3));
    assert_eq!(step(&file, &LEFT, &mut threads, 3, &mut [], 0, 1, 0), refused(26, 0));
    assert_eq!(step(&file, &LEFT, &mut threads, 3, &mut [], 0, 2, 0), refused(27, 0));
}

#[test]
fn refusals_28_and_29() {
    // A resource that gives two outs.
    let records = [
        new(0, 1),
        par(2, 4),
        out(0, &[], 3),
        stop(),
        resource(0, &[], 5),
        par(6, 8),
        out(0, &[], 7),
        stop(),
        out(0, &[], 9),
        stop(),
    ];
    let file = array(1, &records);
    let mut threads = [7; 9];
    let mut markers = [7; 4];
    assert_eq!(start(&file, &LEFT, &mut threads), Ok(2));
    let words = threads;
    let stepped = step(&file, &LEFT, &mut threads[..8], 2, &mut [], 0, 1, 0);
    assert_eq!(stepped, refused(28, 0));
    let stepped = step(&file, &LEFT, &mut threads, 2, &mut markers[..3], 0, 1, 0);
    assert_eq!(stepped, refused(29, 0));
    assert_eq!((threads, markers), (words, [7; 4]));
    let walked = walk(&file, &LEFT, &mut threads, 2, &mut markers[..3], 0, 5);
    let counts = Counts { threads: 2, markers: 0 };
    assert_eq!(walked, Ok(Walked { ending: Ending::Full, steps: 0, counts }));
    // A marker that is listed is used, even where the markers are full.
    let mut markers = [4, 2, 0, 0];
    let stepped = step(&file, &LEFT, &mut threads, 2, &mut markers, 1, 1, 0);
    assert_eq!(stepped, Ok(Counts { threads: 3, markers: 1 }));
    assert_eq!(threads, [4, 0, 1, 6, 1, 1, 8, 1, 1]);
    assert_eq!(markers, [4, 2, 0, 0]);
}

#[test]
fn a_resource_without_threads_still_appends_its_marker() {
    let records = [new(0, 1), par(2, 4), out(0, &[], 3), stop(), resource(0, &[], 5), stop()];
    let file = array(1, &records);
    let mut threads = [7; 6];
    assert_eq!(start(&file, &LEFT, &mut threads), Ok(2));
    let stepped = step(&file, &LEFT, &mut threads, 2, &mut [], 0, 1, 0);
    assert_eq!(stepped, refused(29, 0));
    let mut markers = [7; 5];
    let stepped = step(&file, &LEFT, &mut threads, 2, &mut markers, 0, 1, 0);
    assert_eq!(stepped, Ok(Counts { threads: 1, markers: 1 }));
    assert_eq!(markers, [4, 2, 0, 0, 7]);
    assert_eq!(threads, [4, 0, 1, 4, 0, 1]);
}
