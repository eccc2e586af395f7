//! Reads an array file. One pass decides whether the array is refused at all; only then is the number looked for.

use super::{add, has, refusal, refused, u16_at, u32_at, u64_at, word_sum, Row};
use std::mem::MaybeUninit;

/// A node's record as two words.
#[derive(Clone, Copy)]
pub struct Node {
    head: u64,
    pub args: u64,
}

/// By kind, the bits of the first word that must be zero.
const UNUSED: [u64; 7] = [
    0xffff_ffff_ffff_ff00,
    0xff00_ffff_0000_ff00,
    0xffff_0000_0000_ff00,
    0xffff_0000_0000_ff00,
    0xff00_ffff_0000_0000,
    0xff00_ffff_0000_0000,
    0xff00_ffff_0000_0000,
];

impl Node {
    pub fn kind(self) -> usize {
        (self.head & 0xff) as usize
    }

    pub fn arity(self) -> usize {
        (self.head >> 8 & 0xff) as usize
    }

    pub fn left(self) -> usize {
        (self.head >> 16 & 0xffff) as usize
    }

    pub fn right(self) -> usize {
        (self.head >> 32 & 0xffff) as usize
    }

    pub fn name(self) -> u8 {
        (self.head >> 48) as u8
    }

    pub fn arg(self, k: usize) -> u8 {
        (self.args >> (8 * k)) as u8
    }

    pub fn is_agent(self) -> bool {
        self.kind() >= 4
    }

    /// The node has a second child.
    pub fn forks(self) -> bool {
        self.kind() & !1 == 2
    }

    /// Refusal 6 passes.
    pub fn shape_fits(self) -> bool {
        self.kind() <= 6 && self.arity() <= 8 && (self.is_agent() || self.arity() == 0)
    }

    /// Refusal 7 passes. Only asked where 6 passes.
    pub fn unused_zero(self) -> bool {
        let past = if self.arity() == 8 { 0 } else { self.args >> (8 * self.arity()) };
        unsafe { self.head & UNUSED.get_unchecked(self.kind()) | past == 0 }
    }

    /// Refusal 8 passes at node i of m.
    pub fn children_fit(self, i: usize, m: usize) -> bool {
        let fits = |child: usize| i < child && child < m;
        (self.kind() == 0 || fits(self.left())) && (!self.forks() || fits(self.right()))
    }
}

/// An array file whose frame is right, so that every record lies in it.
pub struct Array<'a> {
    records: &'a [u8],
    pub nodes: usize,
    pub names: usize,
    pub start: usize,
    pub sum: u32,
    /// The names that news open.
    pub opened: Row,
}

impl Array<'_> {
    /// Safety: i is below the number of nodes.
    #[inline(always)]
    pub unsafe fn node(&self, i: usize) -> Node {
        Node { head: u64_at(self.records, 16 * i), args: u64_at(self.records, 16 * i + 8) }
    }
}

/// Refusals 1 to 12.
pub fn read(file: &[u8]) -> Result<Array<'_>, u64> {
    let mut array = frame(file)?;
    match unsafe { Scan::whole(&array) } {
        Some(opened) => array.opened = opened,
        None => return Err(unsafe { refused::first(&array) }),
    }
    Ok(array)
}

/// Refusals 1 to 5.
fn frame(file: &[u8]) -> Result<Array<'_>, u64> {
    let len = file.len();
    if !(16..=17_424).contains(&len) || !len.is_multiple_of(4) {
        return Err(refusal(1, 0));
    }
    unsafe {
        if u32_at(file, len - 4) != u32::from_le_bytes(*b"PIS1") {
            return Err(refusal(2, 0));
        }
        let nodes = usize::from(u16_at(file, len - 12));
        let names = usize::from(u16_at(file, len - 10));
        if nodes == 0 || nodes > 1024 || names > 256 {
            return Err(refusal(3, 0));
        }
        let start = u32_at(file, len - 16) as usize;
        if start > 1024 || start + 16 * nodes + 16 != len {
            return Err(refusal(4, 0));
        }
        let sum = u32_at(file, len - 8);
        if word_sum(file, len - 8) != sum {
            return Err(refusal(5, 0));
        }
        let records = file.get_unchecked(start..len - 16);
        Ok(Array { records, nodes, names, start, sum, opened: [0; 4] })
    }
}

/// What the pass has seen of the nodes so far.
struct Scan {
    /// The names in reach of a node, written when its parent is passed.
    scopes: [MaybeUninit<Row>; 1024],
    reached: [bool; 1024],
    bound: Row,
    opened: Row,
    /// How many names are still to be bound.
    missing: usize,
    names: usize,
}

impl Scan {
    /// The opened names, if nothing from 6 to 12 refuses the array. A parent comes before its children, so
    /// one pass from the root meets every node with its names in reach known. A name not below N is never
    /// bound and so never in reach.
    unsafe fn whole(array: &Array) -> Option<Row> {
        let mut scan = Scan {
            scopes: [const { MaybeUninit::uninit() }; 1024],
            reached: [false; 1024],
            bound: [0; 4],
            opened: [0; 4],
            missing: array.names,
            names: array.names,
        };
        scan.scopes[0].write([0; 4]);
        scan.reached[0] = true;
        for i in 0..array.nodes {
            let node = array.node(i);
            let shaped = node.shape_fits() && node.unused_zero() && node.children_fit(i, array.nodes);
            if !shaped || !*scan.reached.get_unchecked(i) || !scan.pass(i, node) {
                return None;
            }
        }
        (scan.missing == 0).then_some(scan.opened)
    }

    unsafe fn pass(&mut self, i: usize, node: Node) -> bool {
        let mut scope = self.scopes.get_unchecked(i).assume_init();
        let fits = match node.kind() {
            0 => return true,
            1 => {
                add(&mut self.opened, node.name());
                self.bind(&mut scope, node.name())
            }
            2 | 3 => self.hand_down(node.right(), scope),
            4 => {
                let sent = (0..node.arity()).fold(true, |fits, k| fits & has(&scope, node.arg(k)));
                sent & has(&scope, node.name())
            }
            _ => {
                let channel = has(&scope, node.name());
                (0..node.arity()).fold(channel, |fits, k| fits & self.bind(&mut scope, node.arg(k)))
            }
        };
        fits && self.hand_down(node.left(), scope)
    }

    fn bind(&mut self, scope: &mut Row, name: u8) -> bool {
        let fits = usize::from(name) < self.names && !has(&self.bound, name);
        add(&mut self.bound, name);
        add(scope, name);
        self.missing = self.missing.wrapping_sub(1);
        fits
    }

    unsafe fn hand_down(&mut self, child: usize, scope: Row) -> bool {
        self.scopes.get_unchecked_mut(child).write(scope);
        !std::mem::replace(self.reached.get_unchecked_mut(child), true)
    }
}
