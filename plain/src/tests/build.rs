//! Builds array and table files for the tests.

pub type Record = [u8; 16];

fn record(kind: u8, left: u16, right: u16, name: u8, arguments: &[u8]) -> Record {
    let mut record = [0; 16];
    record[0] = kind;
    record[1] = arguments.len() as u8;
    record[2..4].copy_from_slice(&left.to_le_bytes());
    record[4..6].copy_from_slice(&right.to_le_bytes());
    record[6] = name;
    record[8..8 + arguments.len()].copy_from_slice(arguments);
    record
}

pub fn stop() -> Record {
    record(0, 0, 0, 0, &[])
}

pub fn new(name: u8, left: u16) -> Record {
    record(1, left, 0, name, &[])
}

pub fn par(left: u16, right: u16) -> Record {
    record(2, left, right, 0, &[])
}

pub fn choice(left: u16, right: u16) -> Record {
    record(3, left, right, 0, &[])
}

pub fn out(channel: u8, arguments: &[u8], left: u16) -> Record {
    record(4, left, 0, channel, arguments)
}

pub fn input(channel: u8, arguments: &[u8], left: u16) -> Record {
    record(5, left, 0, channel, arguments)
}

pub fn resource(channel: u8, arguments: &[u8], left: u16) -> Record {
    record(6, left, 0, channel, arguments)
}

fn sum(bytes: &[u8]) -> u32 {
    let words = bytes.chunks(4).map(|word| u32::from_le_bytes(word.try_into().unwrap()));
    words.fold(0, u32::wrapping_add)
}

/// Puts the right word sum into an array or table file.
pub fn set_sum(file: &mut [u8]) {
    let at = file.len() - 8;
    let sum = sum(&file[..at]);
    file[at..at + 4].copy_from_slice(&sum.to_le_bytes());
}

/// The word sum in the trailer of an array file.
fn sum_of(array: &[u8]) -> [u8; 4] {
    let at = array.len() - 8;
    array[at..at + 4].try_into().unwrap()
}

pub fn array_with(remark: &[u8], names: u16, records: &[Record]) -> Vec<u8> {
    let mut file = remark.to_vec();
    file.extend(records.concat());
    file.extend((remark.len() as u32).to_le_bytes());
    file.extend((records.len() as u16).to_le_bytes());
    file.extend(names.to_le_bytes());
    file.extend([0; 4]);
    file.extend(b"PIS1");
    set_sum(&mut file);
    file
}

pub fn array(names: u16, records: &[Record]) -> Vec<u8> {
    array_with(&[], names, records)
}

#[derive(Clone, Default)]
pub struct Parts {
    /// The numbers in each row.
    pub rows: Vec<Vec<usize>>,
    /// Per balance its bound, and the nodes with their weights.
    pub balances: Vec<(u32, Vec<(usize, u16)>)>,
    /// Agent, most, balance, set.
    pub claims: Vec<[u16; 4]>,
}

pub fn table(array: &[u8], parts: &Parts) -> Vec<u8> {
    let nodes = usize::from(u16::from_le_bytes(array[array.len() - 12..array.len() - 10].try_into().unwrap()));
    let mut file = Vec::new();
    for row in &parts.rows {
        let mut bytes = [0; 32];
        for o in row {
            bytes[o / 8] |= 1 << (o % 8);
        }
        file.extend(bytes);
    }
    let balances = file.len() as u32;
    for (bound, weights) in &parts.balances {
        file.extend(bound.to_le_bytes());
        let mut all = vec![0u16; nodes + nodes % 2];
        for (node, weight) in weights {
            all[*node] = *weight;
        }
        file.extend(all.iter().flat_map(|weight| weight.to_le_bytes()));
    }
    let claims = file.len() as u32;
    file.extend(parts.claims.iter().flatten().flat_map(|number| number.to_le_bytes()));
    file.extend(0u32.to_le_bytes());
    file.extend(balances.to_le_bytes());
    file.extend(claims.to_le_bytes());
    file.extend((parts.balances.len() as u16).to_le_bytes());
    file.extend((parts.claims.len() as u16).to_le_bytes());
    file.extend(sum_of(array));
    file.extend([0; 4]);
    file.extend(b"PIC1");
    set_sum(&mut file);
    file
}

pub fn records_a() -> Vec<Record> {
    vec![new(0, 1), new(1, 2), par(3, 5), out(0, &[1], 4), stop(), input(0, &[2], 6), out(2, &[], 7), stop()]
}

pub fn array_a() -> Vec<u8> {
    array(3, &records_a())
}

pub fn parts_a() -> Parts {
    Parts {
        rows: vec![vec![0], vec![1], vec![1]],
        balances: vec![(1, vec![(5, 1), (6, 1)])],
        claims: vec![[6, 1, 0, 0]],
    }
}

pub fn array_b() -> Vec<u8> {
    let records = [new(0, 1), par(2, 4), out(0, &[], 3), stop(), resource(0, &[], 5), out(0, &[], 6), stop()];
    array(1, &records)
}

pub fn array_c() -> Vec<u8> {
    let records = [new(0, 1), choice(2, 4), out(0, &[], 3), stop(), input(0, &[], 5), stop()];
    array(1, &records)
}

/// A new over so many outs in a row, which are nodes 1 and on, and a stop.
pub fn row_of_outs(count: u16) -> Vec<u8> {
    let mut records = vec![new(0, 1)];
    records.extend((1..=count).map(|i| out(0, &[], i + 1)));
    records.push(stop());
    array(1, &records)
}

/// The claims by set, agent, most, balance, each once.
pub fn in_order(claims: &[[u16; 4]]) -> Vec<[u16; 4]> {
    let mut claims = claims.to_vec();
    claims.sort_by_key(|[agent, most, balance, set]| [*set, *agent, *most, *balance]);
    claims.dedup();
    claims
}

/// Row {0} and one balance.
pub fn one_row(bound: u32, weights: &[(usize, u16)]) -> Parts {
    Parts { rows: vec![vec![0]], balances: vec![(bound, weights.to_vec())], claims: vec![] }
}
