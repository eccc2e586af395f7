//! Rules 3 and 4 in one search. What the search asks of a sender is worked out before: its weights, and by
//! how much its continuation outweighs it. Senders are sets of bits by arity and by channel, so that a
//! receiver meets only those that it may be live with.

use super::array::{Array, Node};
use super::filter::Filter;
use super::lanes::{lacks, outweighs, Lanes};
use super::table::Table;
use super::{add, all_of, has, row_of, shares, within, Row, Rows};
use std::mem::MaybeUninit;

/// A broken rule and its place.
pub struct Pair {
    pub rule: u64,
    pub p: usize,
    pub q: usize,
    pub n: usize,
}

#[derive(Clone, Copy)]
struct Sender<const L: usize> {
    args: u64,
    node: usize,
    weights: [u16; L],
    need: Lanes<L>,
}

/// A set of senders, by their place in the list.
type Set = [u64; 16];

/// What a receiver asks of its senders.
struct Receiver<const L: usize> {
    node: usize,
    arity: usize,
    /// The most that a sender may weigh.
    slack: [u16; L],
    /// The most that a sender may need.
    give: Lanes<L>,
    /// Bit k of entry v: the row of name v is contained in that of parameter k.
    inside: [u8; 256],
}

struct Search<'a, const L: usize> {
    array: &'a Array<'a>,
    loads: &'a [MaybeUninit<Lanes<L>>; 1024],
    bounds: [u32; L],
    rows: Rows,
    senders: [MaybeUninit<Sender<L>>; 1024],
    of_arity: [Set; 9],
    on_channel: [Set; 256],
    /// The channels that senders have, and by arity the names that they send.
    channels: Row,
    sent: [Row; 9],
    /// The senders whose channel's row shares a bit with that of a channel, once asked for.
    partners: [MaybeUninit<Set>; 256],
    asked: Row,
}

/// The first broken rule. Rule 4's first pair is kept while rule 3 is looked for to the end, so that liveness
/// is decided once. A receiver that the filter passes is not looked at.
///
/// Safety: the table was read for the array, and the loads are those of all its nodes.
pub unsafe fn search<const L: usize, const SETS: usize>(
    array: &Array,
    table: &Table,
    loads: &[MaybeUninit<Lanes<L>>; 1024],
) -> Option<Pair> {
    let mut search = Search {
        array,
        loads,
        bounds: [u32::MAX; L],
        rows: [const { MaybeUninit::uninit() }; 256],
        senders: [const { MaybeUninit::uninit() }; 1024],
        of_arity: [[0; 16]; 9],
        on_channel: [[0; 16]; 256],
        channels: [0; 4],
        sent: [[0; 4]; 9],
        partners: [const { MaybeUninit::uninit() }; 256],
        asked: [0; 4],
    };
    (0..table.balances).for_each(|k| *search.bounds.get_unchecked_mut(k) = table.bound(k));
    (0..array.names).for_each(|v| _ = search.rows.get_unchecked_mut(v).write(table.row(v)));
    let mut filter = Filter::<L, SETS>::new();
    search.list_senders(&mut filter);
    let mut fourth = None;
    for p in 0..array.nodes {
        let node = array.node(p);
        let asks = node.kind() >= 5 && L + node.arity() > 0;
        if asks && !filter.passes(node, &search.give(p, node), &search.rows) {
            let third = search.meet(p, node, &mut fourth);
            if third.is_some() {
                return third;
            }
        }
    }
    fourth.and_then(|(p, q)| search.rule_4(p, q))
}

impl<const L: usize> Search<'_, L> {
    unsafe fn load(&self, node: usize) -> &Lanes<L> {
        self.loads.get_unchecked(node).assume_init_ref()
    }

    unsafe fn row(&self, name: u8) -> &Row {
        row_of(&self.rows, name)
    }

    unsafe fn list_senders<const SETS: usize>(&mut self, filter: &mut Filter<L, SETS>) {
        let mut count = 0;
        for q in 0..self.array.nodes {
            let node = self.array.node(q);
            if node.kind() != 4 {
                continue;
            }
            let sender = self.sender(q, node);
            filter.add(node, &sender.need, &self.rows);
            self.senders.get_unchecked_mut(count).write(sender);
            let (word, bit) = (count / 64, 1 << (count % 64));
            let arity = node.arity();
            *self.of_arity.get_unchecked_mut(arity).get_unchecked_mut(word) |= bit;
            *self.on_channel.get_unchecked_mut(usize::from(node.name())).get_unchecked_mut(word) |= bit;
            add(&mut self.channels, node.name());
            (0..arity).for_each(|k| add(self.sent.get_unchecked_mut(arity), node.arg(k)));
            count += 1;
        }
    }

    unsafe fn sender(&self, q: usize, node: Node) -> Sender<L> {
        let (own, next) = (self.load(q), self.load(node.left()));
        let mut sender = Sender { args: node.args, node: q, weights: [0; L], need: [0; L] };
        for k in 0..L {
            sender.weights[k] = own[k] as u16;
            sender.need[k] = next[k] - own[k];
        }
        sender
    }

    /// The most that a sender may need of receiver p.
    unsafe fn give(&self, p: usize, node: Node) -> Lanes<L> {
        let (own, next) = (self.load(p), self.load(node.left()));
        std::array::from_fn(|k| if node.kind() == 5 { own[k] } else { 0 } - next[k])
    }

    /// None where a balance has the receiver's own weight above its bound: it is in no live pair.
    unsafe fn receiver(&self, p: usize, node: Node) -> Option<Receiver<L>> {
        let give = self.give(p, node);
        let mut receiver = Receiver { node: p, arity: node.arity(), slack: [0; L], give, inside: [0; 256] };
        for (k, own) in self.load(p).iter().enumerate() {
            let slack = self.bounds[k].checked_sub(*own as u32)?;
            receiver.slack[k] = slack.min(0xffff) as u16;
        }
        all_of(self.sent.get_unchecked(node.arity()), |v| {
            let sent = self.row(v);
            for k in 0..node.arity() {
                let fits = within(sent, self.row(node.arg(k)));
                *receiver.inside.get_unchecked_mut(usize::from(v)) |= u8::from(fits) << k;
            }
            true
        });
        Some(receiver)
    }

    /// The senders whose channel may be that of a receiver on `channel`.
    unsafe fn partners(&mut self, channel: u8) -> Set {
        let at = usize::from(channel);
        if !has(&self.asked, channel) {
            let own = self.row(channel);
            let mut set = [0; 16];
            all_of(&self.channels, |c| {
                let senders = self.on_channel.get_unchecked(usize::from(c));
                if shares(own, self.row(c)) {
                    (0..16).for_each(|w| set[w] |= senders[w]);
                }
                true
            });
            self.partners.get_unchecked_mut(at).write(set);
            add(&mut self.asked, channel);
        }
        self.partners.get_unchecked(at).assume_init()
    }

    /// The place in a pair that breaks rule 4. The search keeps the pair alone, so that its loop has the registers.
    unsafe fn rule_4(&self, p: usize, q: usize) -> Option<Pair> {
        let (need, give) = (self.sender(q, self.array.node(q)).need, self.give(p, self.array.node(p)));
        let n = (0..L).find(|k| need[*k] > give[*k])?;
        Some(Pair { rule: 4, p, q, n })
    }

    /// The receiver with every sender of its arity that its channel shares a bit with.
    unsafe fn meet(&mut self, p: usize, node: Node, fourth: &mut Option<(usize, usize)>) -> Option<Pair> {
        let partners = self.partners(node.name());
        let same = self.of_arity.get_unchecked(node.arity());
        let receiver = self.receiver(p, node)?;
        for w in 0..16 {
            let mut rest = partners[w] & same[w];
            while rest != 0 {
                let at = 64 * w + rest.trailing_zeros() as usize;
                rest &= rest - 1;
                let sender = self.senders.get_unchecked(at).assume_init_ref();
                if outweighs(&sender.weights, &receiver.slack) {
                    continue;
                }
                if receiver.arity > 0 {
                    let third = rule_3(&receiver, sender);
                    if third.is_some() {
                        return third;
                    }
                }
                if lacks(&sender.need, &receiver.give) && fourth.is_none() {
                    *fourth = Some((p, sender.node));
                }
            }
        }
        None
    }
}

/// The bytes past the arity are looked up too, and then not asked for.
unsafe fn rule_3<const L: usize>(receiver: &Receiver<L>, sender: &Sender<L>) -> Option<Pair> {
    let mut held = 0;
    for k in 0..8 {
        held |= receiver.inside.get_unchecked((sender.args >> (8 * k) & 0xff) as usize) & 1 << k;
    }
    let n = (!held).trailing_zeros() as usize;
    (n < receiver.arity).then_some(Pair { rule: 3, p: receiver.node, q: sender.node, n: n + 1 })
}
