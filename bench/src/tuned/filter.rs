//! Sets of senders asked at once. A receiver that passes against every set which its channel may meet breaks no rule
//! with any sender, live or not.

use super::array::Node;
use super::lanes::{lacks, Lanes};
use super::{add, all_of, has, row_of, shares, within, Row, Rows};
use std::mem::MaybeUninit;

/// How many sets there may be: none, so that no receiver passes; one for each arity; one for each channel name.
pub const NO_SETS: usize = 0;
pub const BY_ARITY: usize = 9;
pub const BY_CHANNEL: usize = 256;

/// What is kept of a set.
struct Senders<const L: usize> {
    /// The largest need.
    need: Lanes<L>,
    /// By argument, the rows that are sent.
    sent: [Row; 8],
    /// The rows of the channels.
    channels: Row,
    /// Bit a: one has arity a.
    arities: u16,
}

pub struct Filter<const L: usize, const SETS: usize> {
    sets: [MaybeUninit<Senders<L>>; SETS],
    /// The sets that have a sender.
    used: Row,
    /// By channel, the sets that its row shares a bit with, once asked for.
    met: Rows,
    asked: Row,
}

impl<const L: usize> Senders<L> {
    /// No need is as low.
    const NONE: Self = Senders { need: [-(1 << 28); L], sent: [[0; 4]; 8], channels: [0; 4], arities: 0 };

    unsafe fn add(&mut self, node: Node, need: &Lanes<L>, rows: &Rows) {
        (0..L).for_each(|k| self.need[k] = self.need[k].max(need[k]));
        (0..node.arity()).for_each(|k| unite(self.sent.get_unchecked_mut(k), row_of(rows, node.arg(k))));
        unite(&mut self.channels, row_of(rows, node.name()));
        self.arities |= 1 << node.arity();
    }

    unsafe fn let_pass(&self, node: Node, give: &Lanes<L>, rows: &Rows) -> bool {
        let fits = |k: usize| within(self.sent.get_unchecked(k), row_of(rows, node.arg(k)));
        self.arities >> node.arity() & 1 == 0 || !lacks(&self.need, give) && (0..node.arity()).all(fits)
    }
}

fn unite(row: &mut Row, other: &Row) {
    (0..4).for_each(|w| row[w] |= other[w]);
}

impl<const L: usize, const SETS: usize> Filter<L, SETS> {
    pub fn new() -> Self {
        let sets = [const { MaybeUninit::uninit() }; SETS];
        Filter { sets, used: [0; 4], met: [const { MaybeUninit::uninit() }; 256], asked: [0; 4] }
    }

    /// Adds a sender to its set.
    ///
    /// Safety: the rows of its names are there; so for the receiver below.
    pub unsafe fn add(&mut self, node: Node, need: &Lanes<L>, rows: &Rows) {
        if SETS == NO_SETS {
            return;
        }
        let at = if SETS == BY_ARITY { node.arity() as u8 } else { node.name() };
        let set = self.sets.get_unchecked_mut(usize::from(at));
        if !has(&self.used, at) {
            add(&mut self.used, at);
            set.write(Senders::NONE);
        }
        set.assume_init_mut().add(node, need, rows);
    }

    /// The receiver, which gives this much, passes.
    pub unsafe fn passes(&mut self, node: Node, give: &Lanes<L>, rows: &Rows) -> bool {
        if SETS == NO_SETS {
            return false;
        }
        let met = self.met(node.name(), rows);
        all_of(&met, |at| self.set(at).let_pass(node, give, rows))
    }

    unsafe fn set(&self, at: u8) -> &Senders<L> {
        self.sets.get_unchecked(usize::from(at)).assume_init_ref()
    }

    /// The sets that a receiver on the channel may meet.
    unsafe fn met(&mut self, channel: u8, rows: &Rows) -> Row {
        if !has(&self.asked, channel) {
            let mut met = [0; 4];
            all_of(&self.used, |at| {
                if shares(&self.set(at).channels, row_of(rows, channel)) {
                    add(&mut met, at);
                }
                true
            });
            self.met.get_unchecked_mut(usize::from(channel)).write(met);
            add(&mut self.asked, channel);
        }
        *row_of(&self.met, channel)
    }
}
