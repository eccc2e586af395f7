//! The calculus without limits: markers are trees, lists may grow.

use std::collections::{BTreeMap, BTreeSet, HashSet};
use std::fmt;
use std::rc::Rc;

use crate::array::{Array, Kind};
use crate::bytes::bit;
use crate::table::{Claim, Table};

/// A marker: empty, or (resource, out, marker, marker).
#[derive(Clone, Default)]
pub struct Marker(Option<Rc<Branch>>);

struct Branch {
    resource: usize,
    out: usize,
    first: Marker,
    second: Marker,
    height: usize,
}

impl Marker {
    pub fn empty() -> Marker {
        Marker(None)
    }

    pub fn new(resource: usize, out: usize, first: Marker, second: Marker) -> Marker {
        let height = 1 + first.height().max(second.height());
        Marker(Some(Rc::new(Branch { resource, out, first, second, height })))
    }

    /// The four parts, or none for the empty marker.
    pub fn parts(&self) -> Option<(usize, usize, &Marker, &Marker)> {
        let branch = self.0.as_ref()?;
        Some((branch.resource, branch.out, &branch.first, &branch.second))
    }

    /// 0 for the empty marker, else one more than the higher part.
    pub fn height(&self) -> usize {
        self.0.as_ref().map_or(0, |branch| branch.height)
    }
}

/// Equality of trees. It uses a list instead of recursion, because markers
/// may be high, and looks at no pair of shared branches twice.
impl PartialEq for Marker {
    fn eq(&self, other: &Marker) -> bool {
        let mut waiting = vec![(self, other)];
        let mut seen = HashSet::new();
        while let Some(pair) = waiting.pop() {
            match (&pair.0 .0, &pair.1 .0) {
                (None, None) => {}
                (Some(a), Some(b)) => {
                    if Rc::ptr_eq(a, b) || !seen.insert((Rc::as_ptr(a), Rc::as_ptr(b))) {
                        continue;
                    }
                    if a.height != b.height || a.resource != b.resource || a.out != b.out {
                        return false;
                    }
                    waiting.push((&a.first, &b.first));
                    waiting.push((&a.second, &b.second));
                }
                _ => return false,
            }
        }
        true
    }
}

impl Eq for Marker {}

/// Frees a high tree without recursion.
impl Drop for Branch {
    fn drop(&mut self) {
        let mut waiting = vec![std::mem::take(&mut self.first), std::mem::take(&mut self.second)];
        while let Some(marker) = waiting.pop() {
            if let Some(mut branch) = marker.0.and_then(Rc::into_inner) {
                waiting.push(std::mem::take(&mut branch.first));
                waiting.push(std::mem::take(&mut branch.second));
            }
        }
    }
}

/// Shows the top of the tree only.
impl fmt::Debug for Marker {
    fn fmt(&self, f: &mut fmt::Formatter) -> fmt::Result {
        match &self.0 {
            None => write!(f, "empty"),
            Some(branch) => write!(f, "({}, {}, height {})", branch.resource, branch.out, branch.height),
        }
    }
}

/// A channel: the new that opened it and its marker.
#[derive(Clone, Debug, PartialEq, Eq)]
pub struct Opening {
    pub new: usize,
    pub marker: Marker,
}

/// An agent node, a marker, and an opening for each name free in the agent.
#[derive(Clone, Debug, PartialEq, Eq)]
pub struct Thread {
    pub node: usize,
    pub marker: Marker,
    pub names: BTreeMap<usize, Opening>,
}

/// A list of threads.
#[derive(Clone, Debug, Default, PartialEq, Eq)]
pub struct Configuration {
    pub threads: Vec<Thread>,
}

/// One attempt of a list.
#[derive(Clone, Debug, PartialEq, Eq)]
pub struct Attempt {
    pub receiver: usize,
    pub sender: usize,
    pub choices: [u8; 128],
}

/// Adds the threads that a node gives under a marker.
/// One map of names serves all sides: each name has one binder, and a thread
/// keeps only the names free in its agent.
fn unfold(
    array: &Array,
    node: usize,
    marker: &Marker,
    mut names: BTreeMap<usize, Opening>,
    choices: &dyn Fn(usize) -> bool,
    threads: &mut Vec<Thread>,
) {
    let mut waiting = vec![node];
    while let Some(i) = waiting.pop() {
        let Some(node) = array.nodes().get(i) else {
            continue;
        };
        match node.kind {
            Kind::Stop => {}
            Kind::New => {
                let opening = Opening { new: node.name, marker: marker.clone() };
                names.insert(node.name, opening);
                waiting.push(node.left);
            }
            Kind::Par => {
                waiting.push(node.right);
                waiting.push(node.left);
            }
            Kind::Choice => waiting.push(if choices(i) { node.right } else { node.left }),
            Kind::Out | Kind::In | Kind::Resource => {
                let free = array.free(i);
                let kept = names.iter().filter(|(name, _)| free.has(**name));
                threads.push(Thread {
                    node: i,
                    marker: marker.clone(),
                    names: kept.map(|(name, opening)| (*name, opening.clone())).collect(),
                });
            }
        }
    }
}

/// The start: node 0 unfolded under the empty marker.
/// A choice goes to the right where `choices` says true of its node.
pub fn begin(array: &Array, choices: &dyn Fn(usize) -> bool) -> Configuration {
    let mut threads = Vec::new();
    unfold(array, 0, &Marker::empty(), BTreeMap::new(), choices, &mut threads);
    Configuration { threads }
}

/// The step of two threads, or the number (24 to 27) that refuses it.
pub fn attempt(
    array: &Array,
    configuration: &Configuration,
    receiver: usize,
    sender: usize,
    choices: &dyn Fn(usize) -> bool,
) -> Result<Configuration, u8> {
    let old = &configuration.threads;
    let (Some(p), Some(q)) = (old.get(receiver), old.get(sender)) else {
        return Err(24);
    };
    let (Some(input), Some(output)) = (array.agent(p.node), array.agent(q.node)) else {
        return Err(25);
    };
    if !input.is_receiver() || !output.is_sender() {
        return Err(25);
    }
    if input.arity() != output.arity() {
        return Err(26);
    }
    match (p.names.get(&input.name), q.names.get(&output.name)) {
        (Some(a), Some(b)) if a == b => {}
        _ => return Err(27),
    }

    let stays = input.kind == Kind::Resource;
    let mut threads = Vec::new();
    for (i, thread) in old.iter().enumerate() {
        if i != sender && (i != receiver || stays) {
            threads.push(thread.clone());
        }
    }

    let mut names = p.names.clone();
    for (parameter, sent) in input.arguments.iter().zip(&output.arguments) {
        if let Some(opening) = q.names.get(sent) {
            names.insert(*parameter, opening.clone());
        }
    }
    let marker = if stays { Marker::new(p.node, q.node, p.marker.clone(), q.marker.clone()) } else { p.marker.clone() };
    unfold(array, input.left, &marker, names, choices, &mut threads);
    unfold(array, output.left, &q.marker, q.names.clone(), choices, &mut threads);
    Ok(Configuration { threads })
}

/// What a list of attempts leaves. Refused attempts change nothing.
pub fn reached(array: &Array, first: &[u8; 128], attempts: &[Attempt]) -> Configuration {
    let mut configuration = begin(array, &|node| bit(first, node));
    for a in attempts {
        let choices = |node| bit(&a.choices, node);
        if let Ok(next) = attempt(array, &configuration, a.receiver, a.sender, &choices) {
            configuration = next;
        }
    }
    configuration
}

/// The agents of a claim's set, each once; for set 0 the claim's own agent.
fn agents(table: &Table, claim: &Claim) -> BTreeSet<usize> {
    let set = table.claims().iter().filter(|other| other.same_set(claim));
    set.chain([claim]).map(|claim| claim.agent).collect()
}

/// Whether rows, balances and claims of the table hold of a configuration.
pub fn safe(array: &Array, table: &Table, configuration: &Configuration) -> bool {
    let threads = &configuration.threads;
    let flows = threads.iter().all(|thread| {
        array.free(thread.node).iter().all(|name| match thread.names.get(&name) {
            Some(opening) => table.row(name).has(opening.new),
            None => false,
        })
    });
    let balanced = table.balances().iter().all(|balance| {
        let weights = threads.iter().map(|thread| balance.weight(thread.node));
        weights.fold(0u64, u64::saturating_add) <= balance.bound()
    });
    // Threads of each agent, counted once for all claims.
    let mut counts = vec![0usize; array.nodes().len()];
    for thread in threads {
        if let Some(count) = counts.get_mut(thread.node) {
            *count += 1;
        }
    }
    let claimed = table.claims().iter().all(|claim| {
        let set = agents(table, claim);
        let count: usize = set.iter().map(|agent| counts.get(*agent).copied().unwrap_or(0)).sum();
        count <= usize::from(claim.most)
    });
    flows && balanced && claimed
}
