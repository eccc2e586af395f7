//! The number and place of the first refusal of an array that is refused by 6 to 12.

use super::array::{Array, Node};
use super::{add, has, refusal, Row};

/// The names that a node binds.
fn binds(node: Node) -> impl Iterator<Item = u8> {
    let opened = (node.kind() == 1).then_some(node.name());
    let params = if node.kind() >= 5 { node.arity() } else { 0 };
    opened.into_iter().chain((0..params).map(move |k| node.arg(k)))
}

/// The names that a node uses.
fn uses(node: Node) -> impl Iterator<Item = u8> {
    let channel = node.is_agent().then_some(node.name());
    let sent = if node.kind() == 4 { node.arity() } else { 0 };
    channel.into_iter().chain((0..sent).map(move |k| node.arg(k)))
}

fn children(node: Node) -> impl Iterator<Item = usize> {
    let left = (node.kind() != 0).then_some(node.left());
    left.into_iter().chain(node.forks().then_some(node.right()))
}

/// Safety: the array is refused by 6 to 12.
pub unsafe fn first(array: &Array) -> u64 {
    let nodes: Vec<Node> = (0..array.nodes).map(|i| array.node(i)).collect();
    let below = |name: u8| usize::from(name) < array.names;
    let find = |number: u64, bad: &dyn Fn(usize, Node) -> bool| {
        let place = nodes.iter().enumerate().position(|(i, node)| bad(i, *node));
        place.map(|i| refusal(number, i))
    };
    None.or_else(|| find(6, &|_, node| !node.shape_fits()))
        .or_else(|| find(7, &|_, node| !node.unused_zero()))
        .or_else(|| find(8, &|i, node| !node.children_fit(i, array.nodes)))
        .or_else(|| parents(&nodes))
        .or_else(|| find(10, &|_, node| !binds(node).chain(uses(node)).all(below)))
        .or_else(|| binders(&nodes, array.names))
        .or_else(|| reach(&nodes))
        .expect("the array is refused")
}

/// Refusal 9.
fn parents(nodes: &[Node]) -> Option<u64> {
    let mut counts = vec![0; nodes.len()];
    nodes.iter().flat_map(|node| children(*node)).for_each(|child| counts[child] += 1);
    (1..nodes.len()).find(|i| counts[*i] != 1).map(|i| refusal(9, i))
}

/// Refusal 11.
fn binders(nodes: &[Node], names: usize) -> Option<u64> {
    let mut counts = [0; 256];
    nodes.iter().flat_map(|node| binds(*node)).for_each(|name| counts[usize::from(name)] += 1);
    (0..names).find(|v| counts[*v] != 1).map(|v| refusal(11, v))
}

/// Refusal 12.
fn reach(nodes: &[Node]) -> Option<u64> {
    let mut scopes: Vec<Row> = vec![[0; 4]; nodes.len()];
    for (i, node) in nodes.iter().enumerate() {
        let mut scope = scopes[i];
        if !uses(*node).all(|name| has(&scope, name)) {
            return Some(refusal(12, i));
        }
        binds(*node).for_each(|name| add(&mut scope, name));
        children(*node).for_each(|child| scopes[child] = scope);
    }
    None
}
