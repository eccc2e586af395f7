//! Reader of array files: refusals 1 to 12, and the remark.

use crate::bytes::{number16, number32, number8, word_sum, Names};
use crate::{refuse, refuse_at, Refusal};

pub const MOST_NODES: usize = 1024;
pub const MOST_NAMES: usize = 256;
pub const MOST_REMARK: usize = 1024;
pub const LONGEST_ARRAY: usize = 17_424;
const RECORD: usize = 16;
const TRAILER: usize = 16;

#[derive(Clone, Copy, Debug, PartialEq, Eq)]
pub enum Kind {
    Stop,
    New,
    Par,
    Choice,
    Out,
    In,
    Resource,
}

/// A node of a checked array. Fields its kind doesn't use are 0 or empty.
#[derive(Clone, Debug, PartialEq, Eq)]
pub struct Node {
    pub kind: Kind,
    pub left: usize,
    pub right: usize,
    /// The name opened by a new, or the channel of an agent.
    pub name: usize,
    /// Sent names of an out, parameters of an in or resource.
    pub arguments: Vec<usize>,
}

impl Node {
    pub fn arity(&self) -> usize {
        self.arguments.len()
    }

    pub fn is_agent(&self) -> bool {
        matches!(self.kind, Kind::Out | Kind::In | Kind::Resource)
    }

    pub fn is_receiver(&self) -> bool {
        matches!(self.kind, Kind::In | Kind::Resource)
    }

    pub fn is_sender(&self) -> bool {
        self.kind == Kind::Out
    }

    /// The child fields this kind uses, left before right.
    pub fn children(&self) -> impl Iterator<Item = usize> {
        let (left, right) = match self.kind {
            Kind::Stop => (None, None),
            Kind::Par | Kind::Choice => (Some(self.left), Some(self.right)),
            _ => (Some(self.left), None),
        };
        left.into_iter().chain(right)
    }

    /// The names this node binds.
    fn binds(&self) -> &[usize] {
        match self.kind {
            Kind::New => std::slice::from_ref(&self.name),
            Kind::In | Kind::Resource => &self.arguments,
            _ => &[],
        }
    }

    /// The names this node uses: its channel and the names it sends.
    fn uses(&self) -> impl Iterator<Item = usize> + '_ {
        let channel = self.is_agent().then_some(self.name);
        let sent: &[usize] = if self.is_sender() { &self.arguments } else { &[] };
        channel.into_iter().chain(sent.iter().copied())
    }
}

/// A checked array.
#[derive(Clone, Debug, PartialEq, Eq)]
pub struct Array {
    start: usize,
    sum: u32,
    names: usize,
    nodes: Vec<Node>,
    /// The names opened by a new.
    opened: Names,
    /// Per node, the names free in it.
    free: Vec<Names>,
}

impl Array {
    /// The nodes; there are M of them.
    pub fn nodes(&self) -> &[Node] {
        &self.nodes
    }

    /// N.
    pub fn names(&self) -> usize {
        self.names
    }

    /// The word sum in the trailer.
    pub fn sum(&self) -> u32 {
        self.sum
    }

    /// Where the records start, which is the length of the remark.
    pub fn start(&self) -> usize {
        self.start
    }

    /// The names opened by a new.
    pub fn opened(&self) -> &Names {
        &self.opened
    }

    /// The names free in a node; none for a number that is no node.
    pub fn free(&self, node: usize) -> Names {
        self.free.get(node).copied().unwrap_or_default()
    }

    /// The node, if the number is that of an agent.
    pub fn agent(&self, node: usize) -> Option<&Node> {
        self.nodes.get(node).filter(|node| node.is_agent())
    }
}

/// A record as it stands in the file.
struct Record {
    kind: u8,
    arity: u8,
    left: u16,
    right: u16,
    name: u8,
    zero: u8,
    arguments: [u8; 8],
}

impl Record {
    fn read(bytes: &[u8]) -> Record {
        let mut arguments = [0; 8];
        for (to, from) in arguments.iter_mut().zip(bytes.iter().skip(8)) {
            *to = *from;
        }
        Record {
            kind: number8(bytes, 0),
            arity: number8(bytes, 1),
            left: number16(bytes, 2),
            right: number16(bytes, 4),
            name: number8(bytes, 6),
            zero: number8(bytes, 7),
            arguments,
        }
    }

    /// Refusal 6.
    fn kind_or_arity_is_wrong(&self) -> bool {
        self.kind > 6 || self.arity > 8 || (self.kind <= 3 && self.arity != 0)
    }

    /// Refusal 7.
    fn unused_field_is_set(&self) -> bool {
        let uses_left = self.kind != 0;
        let uses_right = matches!(self.kind, 2 | 3);
        let uses_name = !matches!(self.kind, 0 | 2 | 3);
        let mut past_arity = self.arguments.iter().skip(usize::from(self.arity));
        self.zero != 0
            || (!uses_left && self.left != 0)
            || (!uses_right && self.right != 0)
            || (!uses_name && self.name != 0)
            || past_arity.any(|byte| *byte != 0)
    }

    fn node(&self) -> Node {
        let kind = match self.kind {
            0 => Kind::Stop,
            1 => Kind::New,
            2 => Kind::Par,
            3 => Kind::Choice,
            4 => Kind::Out,
            5 => Kind::In,
            _ => Kind::Resource,
        };
        let arguments = self.arguments.iter().take(usize::from(self.arity));
        Node {
            kind,
            left: usize::from(self.left),
            right: usize::from(self.right),
            name: usize::from(self.name),
            arguments: arguments.map(|name| usize::from(*name)).collect(),
        }
    }
}

/// Reads and checks an array file.
pub fn read_array(file: &[u8]) -> Result<Array, Refusal> {
    let length = file.len();
    if length < TRAILER || length > LONGEST_ARRAY || length % 4 != 0 {
        return refuse(1);
    }
    let trailer = &file[length - TRAILER..];
    if trailer[12..] != *b"PIS1" {
        return refuse(2);
    }
    let count = usize::from(number16(trailer, 4));
    let names = usize::from(number16(trailer, 6));
    if count == 0 || count > MOST_NODES || names > MOST_NAMES {
        return refuse(3);
    }
    let start = number32(trailer, 0) as usize;
    if start > MOST_REMARK || start + RECORD * count + TRAILER != length {
        return refuse(4);
    }
    let sum = number32(trailer, 8);
    if word_sum(&file[..length - 8]) != sum {
        return refuse(5);
    }

    let bytes = &file[start..start + RECORD * count];
    let records: Vec<Record> = bytes.chunks_exact(RECORD).map(Record::read).collect();
    refuse_at(6, (0..count).filter(|i| records[*i].kind_or_arity_is_wrong()))?;
    refuse_at(7, (0..count).filter(|i| records[*i].unused_field_is_set()))?;
    let nodes: Vec<Node> = records.iter().map(Record::node).collect();

    check_tree(&nodes)?;
    let binders = check_names(&nodes, names)?;
    check_reach(&nodes, &binders)?;

    let mut opened = Names::default();
    for node in nodes.iter().filter(|node| node.kind == Kind::New) {
        opened.add(node.name);
    }
    let free = free_names(&nodes);
    Ok(Array { start, sum, names, nodes, opened, free })
}

/// The remark as the leading part of the file, empty if the array is refused.
pub fn remark(file: &[u8]) -> &[u8] {
    match read_array(file) {
        Ok(array) => &file[..array.start],
        Err(_) => &file[..0],
    }
}

/// Refusals 8 and 9.
fn check_tree(nodes: &[Node]) -> Result<(), Refusal> {
    let count = nodes.len();
    let wrong_child = |i: &usize| nodes[*i].children().any(|child| child <= *i || child >= count);
    refuse_at(8, (0..count).filter(wrong_child))?;

    let mut parents = vec![0; count];
    for child in nodes.iter().flat_map(Node::children) {
        parents[child] += 1;
    }
    refuse_at(9, (1..count).filter(|i| parents[*i] != 1))
}

/// Refusals 10 and 11. Gives the binding node of each name below N.
fn check_names(nodes: &[Node], names: usize) -> Result<Vec<usize>, Refusal> {
    let wrong_name = |i: &usize| {
        let node = &nodes[*i];
        node.binds().iter().copied().chain(node.uses()).any(|name| name >= names)
    };
    refuse_at(10, (0..nodes.len()).filter(wrong_name))?;

    let mut marks = [0u16; MOST_NAMES];
    let mut binders = vec![0; names];
    for (i, node) in nodes.iter().enumerate() {
        for name in node.binds() {
            marks[*name] += 1;
            binders[*name] = i;
        }
    }
    refuse_at(11, (0..names).filter(|name| marks[*name] != 1))?;
    Ok(binders)
}

/// Refusal 12. A binder reaches the nodes below it in the tree.
fn check_reach(nodes: &[Node], binders: &[usize]) -> Result<(), Refusal> {
    // Number of nodes in the tree at each node.
    let mut sizes = vec![1; nodes.len()];
    for (i, node) in nodes.iter().enumerate().rev() {
        for child in node.children() {
            sizes[i] += sizes[child];
        }
    }
    // Position of each node when a node comes before its left tree
    // and the left tree before the right tree.
    let mut positions = vec![0; nodes.len()];
    for (i, node) in nodes.iter().enumerate() {
        let mut next = positions[i] + 1;
        for child in node.children() {
            positions[child] = next;
            next += sizes[child];
        }
    }
    let reaches =
        |binder: usize, i: usize| positions[binder] < positions[i] && positions[i] < positions[binder] + sizes[binder];
    let out_of_reach = |i: &usize| nodes[*i].uses().any(|name| !reaches(binders[name], *i));
    refuse_at(12, (0..nodes.len()).filter(out_of_reach))
}

/// The free names of every node, children before parents.
fn free_names(nodes: &[Node]) -> Vec<Names> {
    let mut free = vec![Names::default(); nodes.len()];
    for (i, node) in nodes.iter().enumerate().rev() {
        let mut set = Names::default();
        for child in node.children() {
            set.add_all(&free[child]);
        }
        for name in node.binds() {
            set.remove(*name);
        }
        for name in node.uses() {
            set.add(name);
        }
        free[i] = set;
    }
    free
}
