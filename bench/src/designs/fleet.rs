//! The example `towed-mended` many times side by side. A copy has names, balances and claims of its own; the copies
//! that 24 balances do not reach have no weights.

use super::Files;
use crate::files::{array_file, word_sum, Balance, Record, IN, NEW, RESOURCE};
use crate::loops::side_by_side;
use outside::files::{flip_bit, has_bit, TableFile, AGENT, ROW, STOP};
use outside::order;

const ARRAY: &[u8] = include_bytes!("../../../examples/towed-mended/array.pis");
const TABLE: &[u8] = include_bytes!("../../../examples/towed-mended/table.pic");
const MOST_BALANCES: usize = 24;

struct Design {
    records: Vec<Record>,
    table: TableFile,
}

/// The copies one after the other.
pub fn fleet(copies: usize) -> Files {
    written(of_copies(copies))
}

/// The same array, but nodes are numbered level by level and names as they are bound, so that the copies mix.
pub fn fleet_mixed(copies: usize) -> Files {
    written(mixed(&of_copies(copies)))
}

fn written(design: Design) -> Files {
    let Design { records, mut table } = design;
    let (nodes, names, balances) = (records.len(), table.rows.len(), table.balances.len());
    let array = array_file(&records, names);
    table.array_sum = word_sum(&array);
    order::put(&mut table.claims);
    Files { array, table: table.bytes(), nodes, names, balances }
}

fn example() -> Design {
    let array = plain::read_array(ARRAY).expect("the example is read");
    let record = |node: &plain::Node| Record {
        kind: node.kind as u8,
        left: node.left,
        right: node.right,
        name: node.name,
        arguments: node.arguments.clone(),
    };
    Design { records: array.nodes().iter().map(record).collect(), table: TableFile::read(TABLE) }
}

fn of_copies(copies: usize) -> Design {
    let own = example();
    let names = own.table.rows.len();
    let records = side_by_side(&[], copies, |records, copy| {
        let first = records.len();
        records.extend(own.records.iter().map(|record| moved(record, |i| first + i, |v| names * copy + v)));
        first
    });
    let mut table = TableFile::default();
    for copy in 0..copies {
        table.rows.extend(own.table.rows.iter().map(|row| moved_row(row, |v| names * copy + v)));
        if table.balances.len() + own.table.balances.len() <= MOST_BALANCES {
            add_balances(&mut table, &own, copies - 1 + own.records.len() * copy, records.len());
        }
    }
    Design { records, table }
}

/// Adds the balances and claims of the copy that begins at node `first`; the array has `nodes` nodes.
fn add_balances(table: &mut TableFile, own: &Design, first: usize, nodes: usize) {
    for [agent, most, balance, set] in &own.table.claims {
        table.claims.push([agent + first as u16, *most, balance + table.balances.len() as u16, *set]);
    }
    let count = own.records.len();
    for balance in &own.table.balances {
        let mut weights = vec![0; nodes];
        weights[first..first + count].copy_from_slice(&balance.weights[..count]);
        table.balances.push(Balance { bound: balance.bound, weights });
    }
}

/// A record with other numbers for nodes and names.
fn moved(record: &Record, node: impl Fn(usize) -> usize, name: impl Fn(usize) -> usize) -> Record {
    let mut moved = record.clone();
    if record.kind != STOP {
        moved.left = node(record.left);
    }
    if record.has_right() {
        moved.right = node(record.right);
    }
    if record.kind == NEW || record.is_agent() {
        moved.name = name(record.name);
    }
    moved.arguments.iter_mut().for_each(|v| *v = name(*v));
    moved
}

fn moved_row(row: &[u8; ROW], name: impl Fn(usize) -> usize) -> [u8; ROW] {
    let mut moved = [0; ROW];
    (0..8 * ROW).filter(|o| has_bit(row, *o)).for_each(|o| flip_bit(&mut moved, name(o)));
    moved
}

fn mixed(design: &Design) -> Design {
    let Design { records, table } = design;
    let nodes = by_level(records);
    let names: Vec<usize> = nodes.iter().flat_map(|i| bound(&records[*i])).collect();
    let (node_place, name_place) = (places(&nodes), places(&names));
    let (node, name) = (|i: usize| node_place[i], |v: usize| name_place[v]);
    let weights = |old: &[u16]| nodes.iter().map(|i| old[*i]).collect();
    let balance = |old: &Balance| Balance { bound: old.bound, weights: weights(&old.weights) };
    let mut claims = table.claims.clone();
    claims.iter_mut().for_each(|claim| claim[AGENT] = node(claim[AGENT].into()) as u16);
    Design {
        records: nodes.iter().map(|i| moved(&records[*i], node, name)).collect(),
        table: TableFile {
            rows: names.iter().map(|v| moved_row(&table.rows[*v], name)).collect(),
            balances: table.balances.iter().map(balance).collect(),
            claims,
            array_sum: 0,
        },
    }
}

/// The nodes from the root down.
fn by_level(records: &[Record]) -> Vec<usize> {
    let mut nodes = vec![0];
    for at in 0..records.len() {
        let record = &records[nodes[at]];
        nodes.extend((record.kind != STOP).then_some(record.left));
        nodes.extend(record.has_right().then_some(record.right));
    }
    nodes
}

/// The names that a record binds.
fn bound(record: &Record) -> Vec<usize> {
    match record.kind {
        NEW => vec![record.name],
        IN | RESOURCE => record.arguments.clone(),
        _ => vec![],
    }
}

/// Where each number stands in a list of all.
fn places(numbers: &[usize]) -> Vec<usize> {
    let mut places = vec![0; numbers.len()];
    numbers.iter().enumerate().for_each(|(place, number)| places[*number] = place);
    places
}
