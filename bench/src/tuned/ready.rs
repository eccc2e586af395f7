//! The first ready pair of a walk. Receivers and senders stand in two lists, each with one number for arity
//! and channel, and what the last search has ruled out isn't looked at again.

use super::engine::Engine;

/// Threads of one side in the order of their positions; keys past the length are 0, which no thread has.
struct Side {
    keys: [u32; 264],
    positions: [u16; 256],
    len: usize,
}

pub struct Ready {
    receivers: Side,
    senders: Side,
    /// The first `ruled` receivers are ready with none of the first `known` senders.
    ruled: usize,
    known: usize,
}

impl Side {
    fn new() -> Side {
        Side { keys: [0; 264], positions: [0; 256], len: 0 }
    }

    unsafe fn push(&mut self, key: u32, position: usize) {
        *self.keys.get_unchecked_mut(self.len) = key;
        *self.positions.get_unchecked_mut(self.len) = position as u16;
        self.len += 1;
    }

    unsafe fn remove(&mut self, at: usize) {
        self.len -= 1;
        let (keys, positions) = (self.keys.as_mut_ptr().add(at), self.positions.as_mut_ptr().add(at));
        // The 0 behind the last key comes along.
        std::ptr::copy(keys.add(1), keys, self.len - at + 1);
        std::ptr::copy(positions.add(1), positions, self.len - at);
    }

    /// Every position above `gone` moves down by one.
    unsafe fn close_gap(&mut self, gone: u16) {
        for position in self.positions.get_unchecked_mut(..self.len) {
            *position -= u16::from(*position > gone);
        }
    }

    /// The first key from `from` on, and below `to`, that is equal; eight are compared at a time.
    unsafe fn find(&self, key: u32, from: usize, to: usize) -> Option<usize> {
        let mut at = from;
        while at < to {
            let eight = self.keys.as_ptr().add(at).cast::<[u32; 8]>().read_unaligned();
            let hits = eight.iter().fold(0, |hits, other| hits | u32::from(*other == key));
            if hits != 0 {
                let first = at + eight.iter().position(|other| *other == key)?;
                return (first < to).then_some(first);
            }
            at += 8;
        }
        None
    }
}

impl Ready {
    pub unsafe fn of(engine: &Engine) -> Ready {
        let mut ready = Ready { receivers: Side::new(), senders: Side::new(), ruled: 0, known: 0 };
        ready.push_from(engine, 0);
        ready
    }

    /// A channel's word takes 25 bits.
    unsafe fn push_from(&mut self, engine: &Engine, from: usize) {
        for i in from..engine.count {
            let agent = engine.agent(i);
            let key = engine.channel(i, agent) | (agent.arity() as u32) << 28;
            let side = if agent.kind() == 4 { &mut self.senders } else { &mut self.receivers };
            side.push(key, i);
        }
    }

    /// The first ready pair, as places in the two lists.
    pub unsafe fn first(&self) -> Option<(usize, usize)> {
        let mut found = None;
        let mut limit = self.ruled;
        for s in self.known..self.senders.len {
            if let Some(r) = self.receivers.find(*self.senders.keys.get_unchecked(s), 0, limit) {
                found = Some((r, s));
                limit = r;
            }
        }
        if found.is_some() {
            return found;
        }
        (self.ruled..self.receivers.len).find_map(|r| {
            let key = *self.receivers.keys.get_unchecked(r);
            Some((r, self.senders.find(key, 0, self.senders.len)?))
        })
    }

    /// The positions of a pair in the list of threads.
    pub unsafe fn positions(&self, r: usize, s: usize) -> (usize, usize) {
        let at = |side: &Side, i: usize| usize::from(*side.positions.get_unchecked(i));
        (at(&self.receivers, r), at(&self.senders, s))
    }

    /// Follows the step of pair r, s, after which threads from `kept` on are new.
    pub unsafe fn advance(&mut self, r: usize, s: usize, engine: &Engine, kept: usize) {
        let old = self.receivers.len + self.senders.len;
        let (receiver, sender) = self.positions(r, s);
        self.senders.remove(s);
        self.close_gap(sender);
        if kept + 2 == old {
            self.receivers.remove(r);
            self.close_gap(receiver - usize::from(receiver > sender));
        }
        self.ruled = r;
        self.known = self.senders.len;
        self.push_from(engine, kept);
    }

    unsafe fn close_gap(&mut self, gone: usize) {
        self.receivers.close_gap(gone as u16);
        self.senders.close_gap(gone as u16);
    }
}
