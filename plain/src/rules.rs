//! Loads, live pairs, the five rules and the verdict.

use crate::array::{read_array, Array, Kind};
use crate::table::{read_table_for, Balance, Claim, Table};
use crate::Refusal;

/// What the checker says of an array and a table.
#[derive(Clone, Debug, PartialEq, Eq)]
pub enum Verdict {
    Held { nodes: usize, names: usize, balances: usize, claims: usize },
    Rule { number: u8, place: Vec<usize> },
    Refused(Refusal),
}

/// Reads both files and applies the rules.
pub fn check(array: &[u8], table: &[u8]) -> Verdict {
    let array = match read_array(array) {
        Ok(array) => array,
        Err(refusal) => return Verdict::Refused(refusal),
    };
    match read_table_for(&array, table) {
        Ok(table) => judge(&array, &table),
        Err(refusal) => Verdict::Refused(refusal),
    }
}

/// Applies the rules in number order. The table must be one read for the array.
pub fn judge(array: &Array, table: &Table) -> Verdict {
    let loads: Vec<Vec<u64>> = table.balances().iter().map(|balance| loads(array, balance)).collect();
    let broken = None
        .or_else(|| rule_1(array, table).map(|place| (1, place)))
        .or_else(|| rule_2(table, &loads).map(|place| (2, place)))
        .or_else(|| rule_3(array, table).map(|place| (3, place)))
        .or_else(|| rule_4(array, table, &loads).map(|place| (4, place)))
        .or_else(|| rule_5(table).map(|place| (5, place)));
    match broken {
        Some((number, place)) => Verdict::Rule { number, place },
        None => Verdict::Held {
            nodes: array.nodes().len(),
            names: array.names(),
            balances: table.balances().len(),
            claims: table.claims().len(),
        },
    }
}

/// The load of every node in one balance, children before parents.
pub fn loads(array: &Array, balance: &Balance) -> Vec<u64> {
    let nodes = array.nodes();
    let mut loads = vec![0u64; nodes.len()];
    for (i, node) in nodes.iter().enumerate().rev() {
        loads[i] = match node.kind {
            Kind::Stop => 0,
            Kind::New => loads[node.left],
            Kind::Par => loads[node.left] + loads[node.right],
            Kind::Choice => loads[node.left].max(loads[node.right]),
            Kind::Out | Kind::In | Kind::Resource => balance.weight(i),
        };
    }
    loads
}

/// Whether p (an in or resource) and q (an out) are a live pair.
pub fn live(array: &Array, table: &Table, p: usize, q: usize) -> bool {
    let (Some(receiver), Some(sender)) = (array.agent(p), array.agent(q)) else {
        return false;
    };
    let fits = |balance: &Balance| balance.weight(p) + balance.weight(q) <= balance.bound();
    receiver.is_receiver()
        && sender.is_sender()
        && receiver.arity() == sender.arity()
        && table.row(receiver.name).shares(&table.row(sender.name))
        && table.balances().iter().all(fits)
}

/// Row o has bit o for every new o.
fn rule_1(array: &Array, table: &Table) -> Option<Vec<usize>> {
    let o = array.opened().iter().find(|o| !table.row(*o).has(*o))?;
    Some(vec![o])
}

/// The load of node 0 is within the bound.
fn rule_2(table: &Table, loads: &[Vec<u64>]) -> Option<Vec<usize>> {
    let mut pairs = table.balances().iter().zip(loads);
    let balance = pairs.position(|(balance, loads)| loads[0] > balance.bound())?;
    Some(vec![balance])
}

/// Each sent name's row is contained in the matching parameter's row.
fn rule_3(array: &Array, table: &Table) -> Option<Vec<usize>> {
    let (receivers, senders) = agents(array);
    let mut place = None;
    'receivers: for &p in &receivers {
        'senders: for &q in &senders {
            if !live(array, table, p, q) {
                continue 'senders;
            }
            let sent = &array.nodes()[q].arguments;
            let parameters = &array.nodes()[p].arguments;
            for (i, (from, to)) in sent.iter().zip(parameters).enumerate() {
                if !table.row(*from).within(&table.row(*to)) {
                    place = Some(vec![p, q, i + 1]);
                    break 'receivers;
                }
            }
        }
    }
    place
}

/// The load of both continuations is at most the weight that goes.
fn rule_4(array: &Array, table: &Table, loads: &[Vec<u64>]) -> Option<Vec<usize>> {
    let (receivers, senders) = agents(array);
    let mut place = None;
    'receivers: for &p in &receivers {
        'senders: for &q in &senders {
            if !live(array, table, p, q) {
                continue 'senders;
            }
            let receiver = &array.nodes()[p];
            let sender = &array.nodes()[q];
            for (i, (balance, loads)) in table.balances().iter().zip(loads).enumerate() {
                let comes = loads[receiver.left] + loads[sender.left];
                let goes = match receiver.kind {
                    Kind::In => balance.weight(q) + balance.weight(p),
                    _ => balance.weight(q),
                };
                if comes > goes {
                    place = Some(vec![p, q, i]);
                    break 'receivers;
                }
            }
        }
    }
    place
}

/// Every set is met. The place is the set's first claim.
fn rule_5(table: &Table) -> Option<Vec<usize>> {
    let set = sets(table.claims()).into_iter().find(|set| !met(table, set))?;
    Some(vec![set[0]])
}

/// The sets in the order of their first claims, each as the numbers of its
/// claims in rising order. A claim of set 0 is alone in its list.
fn sets(claims: &[Claim]) -> Vec<Vec<usize>> {
    let mut sets: Vec<Vec<usize>> = Vec::new();
    for (i, claim) in claims.iter().enumerate() {
        match sets.iter_mut().find(|set| claims[set[0]].same_set(claim)) {
            Some(set) => set.push(i),
            None => sets.push(vec![i]),
        }
    }
    sets
}

/// The least weight of a set's agents times (most + 1) exceeds the bound.
fn met(table: &Table, set: &[usize]) -> bool {
    let claims = table.claims();
    let first = claims[set[0]];
    table.balances().get(first.balance).is_some_and(|balance| {
        let weights = set.iter().map(|i| balance.weight(claims[*i].agent));
        weights.min().unwrap_or(0) * (u64::from(first.most) + 1) > balance.bound()
    })
}

/// The in and resource nodes, and the out nodes, in rising order.
pub(crate) fn agents(array: &Array) -> (Vec<usize>, Vec<usize>) {
    let nodes = array.nodes();
    let receivers = (0..nodes.len()).filter(|i| nodes[*i].is_receiver()).collect();
    let senders = (0..nodes.len()).filter(|i| nodes[*i].is_sender()).collect();
    (receivers, senders)
}
