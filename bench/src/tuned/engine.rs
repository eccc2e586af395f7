//! Step and walk on lent lists.

use super::array::{self, Array, Node};
use super::formed::well_formed;
use super::index::{Index, Slots};
use super::ready::Ready;
use super::{add, all_of, refusal, remove, Row};
use handover::Lists;
use std::mem::MaybeUninit;
use std::ptr;

pub struct Engine<'a> {
    pub array: Array<'a>,
    choices: &'a [u8],
    threads: *mut u32,
    pub count: usize,
    room: usize,
    pub markers: *mut u16,
    pub listed: usize,
    marker_room: usize,
    free: &'a mut [MaybeUninit<Row>; 1024],
    /// How many threads a node unfolds to, `UNKNOWN` until asked for.
    grown: [u16; 1024],
    pub index: Index<'a>,
}

const UNKNOWN: u16 = u16::MAX;

/// Room for the tables of a call; only the parts in use are written.
struct Scratch {
    free: [MaybeUninit<Row>; 1024],
    slots: Slots,
}

impl Scratch {
    #[inline(always)]
    fn new() -> Scratch {
        Scratch { free: [const { MaybeUninit::uninit() }; 1024], slots: [const { MaybeUninit::uninit() }; 8192] }
    }
}

pub fn step(array: &[u8], choices: &[u8], lists: Lists, receiver: usize, sender: usize) -> u64 {
    let mut scratch = Scratch::new();
    let stepped = array::read(array).and_then(|array| unsafe {
        let mut engine = Engine::lent(array, choices, lists, &mut scratch, 1)?;
        if receiver >= engine.count || sender >= engine.count {
            return Err(refusal(24, 0));
        }
        engine.meets(receiver, sender)?;
        engine.fire(receiver, sender)?;
        Ok(engine.counts() + (1 << 32))
    });
    stepped.unwrap_or_else(|refusal| refusal)
}

pub fn walk(array: &[u8], choices: &[u8], lists: Lists, allowed: u32) -> u64 {
    let mut scratch = Scratch::new();
    let walked = array::read(array).and_then(|array| unsafe {
        let mut engine = Engine::lent(array, choices, lists, &mut scratch, allowed)?;
        let mut ready = Ready::of(&engine);
        let mut steps = 0;
        let ending = loop {
            let Some((r, s)) = ready.first() else { break 0 };
            if steps == allowed {
                break 1;
            }
            let (receiver, sender) = ready.positions(r, s);
            let Ok(kept) = engine.fire(receiver, sender) else {
                break 2;
            };
            ready.advance(r, s, &engine, kept);
            steps += 1;
        };
        Ok(ending + engine.counts() + (u64::from(steps) << 32))
    });
    walked.unwrap_or_else(|refusal| refusal)
}

impl<'a> Engine<'a> {
    /// Refusals 22 and 23. At most `steps` steps will be made.
    #[inline(always)]
    unsafe fn lent(
        array: Array<'a>,
        choices: &'a [u8],
        lists: Lists,
        scratch: &'a mut Scratch,
        steps: u32,
    ) -> Result<Engine<'a>, u64> {
        if choices.len() != 128 {
            return Err(refusal(22, 0));
        }
        let room = (lists.threads.len() / (2 + array.names)).min(256);
        let marker_room = (lists.markers.len() / 4).min(4096);
        if lists.thread_count > room || lists.marker_count > marker_room {
            return Err(refusal(23, 0));
        }
        let mut engine = Engine {
            array,
            choices,
            threads: lists.threads.as_mut_ptr(),
            count: lists.thread_count,
            room,
            markers: lists.markers.as_mut_ptr(),
            listed: lists.marker_count,
            marker_room,
            free: &mut scratch.free,
            grown: [UNKNOWN; 1024],
            index: Index::new(&mut scratch.slots, lists.marker_count + steps as usize),
        };
        engine.fill_free();
        if !well_formed(&mut engine) {
            return Err(refusal(23, 0));
        }
        Ok(engine)
    }

    /// The free names of all nodes, from the last to the first.
    unsafe fn fill_free(&mut self) {
        for i in (0..self.array.nodes).rev() {
            let node = self.array.node(i);
            let mut row = if node.kind() == 0 { [0; 4] } else { self.free_of(node.left()) };
            match node.kind() {
                0 => {}
                1 => remove(&mut row, node.name()),
                2 | 3 => {
                    let right = self.free_of(node.right());
                    (0..4).for_each(|w| row[w] |= right[w]);
                }
                4 => {
                    add(&mut row, node.name());
                    (0..node.arity()).for_each(|k| add(&mut row, node.arg(k)));
                }
                _ => {
                    (0..node.arity()).for_each(|k| remove(&mut row, node.arg(k)));
                    add(&mut row, node.name());
                }
            }
            self.free.get_unchecked_mut(i).write(row);
        }
    }

    pub unsafe fn free_of(&self, node: usize) -> Row {
        self.free.get_unchecked(node).assume_init()
    }

    /// The words of thread i.
    pub unsafe fn thread(&self, i: usize) -> *mut u32 {
        self.threads.add(i * (2 + self.array.names))
    }

    pub unsafe fn agent(&self, i: usize) -> Node {
        self.array.node(*self.thread(i) as usize)
    }

    /// The word of the channel of thread i.
    pub unsafe fn channel(&self, i: usize, agent: Node) -> u32 {
        *self.thread(i).add(2 + usize::from(agent.name()))
    }

    fn counts(&self) -> u64 {
        ((self.count as u64) << 8) + ((self.listed as u64) << 18)
    }

    /// Refusals 25 to 27.
    unsafe fn meets(&self, r: usize, s: usize) -> Result<(), u64> {
        let (input, output) = (self.agent(r), self.agent(s));
        if input.kind() < 5 || output.kind() != 4 {
            return Err(refusal(25, 0));
        }
        if input.arity() != output.arity() {
            return Err(refusal(26, 0));
        }
        if self.channel(r, input) != self.channel(s, output) {
            return Err(refusal(27, 0));
        }
        Ok(())
    }

    /// Makes the step of a ready pair, or refuses it by 28 or 29; gives the number of old threads kept.
    pub unsafe fn fire(&mut self, r: usize, s: usize) -> Result<usize, u64> {
        let (input, output) = (self.agent(r), self.agent(s));
        let stays = input.kind() == 6;
        let kept = self.count - 2 + usize::from(stays);
        let total = kept + self.grown(input.left()) + self.grown(output.left());
        if total > self.room {
            return Err(refusal(28, 0));
        }
        let (p, q) = (self.thread(r), self.thread(s));
        let other = *q.add(1);
        let marker = if stays { self.marker(p, q)? } else { *p.add(1) };
        let mut near = [const { MaybeUninit::<u32>::uninit() }; 256];
        let mut far = [const { MaybeUninit::<u32>::uninit() }; 256];
        let (near, far) = (near.as_mut_ptr().cast::<u32>(), far.as_mut_ptr().cast::<u32>());
        ptr::copy_nonoverlapping(p.add(2), near, self.array.names);
        ptr::copy_nonoverlapping(q.add(2), far, self.array.names);
        for k in 0..input.arity() {
            *near.add(usize::from(input.arg(k))) = *far.add(usize::from(output.arg(k)));
        }
        if stays {
            self.close_gap(s, self.count - s - 1, 1);
        } else {
            let (low, high) = (r.min(s), r.max(s));
            self.close_gap(low, high - low - 1, 1);
            self.close_gap(high - 1, self.count - high - 1, 2);
        }
        let middle = self.unfold(input.left(), marker, near, self.thread(kept));
        self.unfold(output.left(), other, far, middle);
        self.count = total;
        Ok(kept)
    }

    /// Moves `count` threads down by `by` places, to place `to`.
    unsafe fn close_gap(&self, to: usize, count: usize, by: usize) {
        let width = 2 + self.array.names;
        ptr::copy(self.thread(to + by), self.thread(to), count * width);
    }

    /// The number of a resource's new marker, appended unless it is listed; refusal 29.
    unsafe fn marker(&mut self, p: *const u32, q: *const u32) -> Result<u32, u64> {
        let numbers = [*p, *q, *p.add(1), *q.add(1)];
        let word = (0..4).fold(0, |word, k| word | u64::from(numbers[k]) << (16 * k));
        if self.listed == self.marker_room {
            return match self.index.number_of(self.markers, word) {
                0 => Err(refusal(29, 0)),
                number => Ok(number as u32),
            };
        }
        let number = self.index.note(self.markers, word, self.listed + 1);
        if number != 0 {
            return Ok(number as u32);
        }
        self.markers.add(4 * self.listed).cast::<u64>().write_unaligned(word);
        self.listed += 1;
        Ok(self.listed as u32)
    }

    unsafe fn goes_right(&self, i: usize) -> bool {
        self.choices.get_unchecked(i / 8) >> (i % 8) & 1 == 1
    }

    /// How many threads a node unfolds to.
    unsafe fn grown(&mut self, root: usize) -> usize {
        let known = *self.grown.get_unchecked(root);
        if known != UNKNOWN {
            return usize::from(known);
        }
        let mut count = 0;
        self.agents_of(root, |_, node, _| count += u16::from(node.is_agent()));
        *self.grown.get_unchecked_mut(root) = count;
        usize::from(count)
    }

    /// Writes the threads of a node from `at` on and gives the place behind them.
    unsafe fn unfold(&self, root: usize, marker: u32, env: *mut u32, mut at: *mut u32) -> *mut u32 {
        self.agents_of(root, |engine, node, i| {
            if node.kind() == 1 {
                *env.add(usize::from(node.name())) = 1 + (u32::from(node.name()) << 16) + marker;
                return;
            }
            *at = i as u32;
            *at.add(1) = marker;
            let names = at.add(2);
            ptr::write_bytes(names, 0, engine.array.names);
            all_of(&engine.free_of(i), |v| {
                *names.add(usize::from(v)) = *env.add(usize::from(v));
                true
            });
            at = names.add(engine.array.names);
        });
        at
    }

    /// Calls `each` for the news and agents that a node unfolds to, in order. A name has one binder, so the
    /// environment needs no putting back between the sides of a par.
    #[inline(always)]
    unsafe fn agents_of(&self, root: usize, mut each: impl FnMut(&Self, Node, usize)) {
        let mut waiting = [const { MaybeUninit::<u16>::uninit() }; 1024];
        let mut depth = 0;
        let mut i = root;
        loop {
            let node = self.array.node(i);
            match node.kind() {
                0 => {}
                1 => {
                    each(self, node, i);
                    i = node.left();
                    continue;
                }
                2 => {
                    waiting.get_unchecked_mut(depth).write(node.right() as u16);
                    depth += 1;
                    i = node.left();
                    continue;
                }
                3 => {
                    i = if self.goes_right(i) { node.right() } else { node.left() };
                    continue;
                }
                _ => each(self, node, i),
            }
            if depth == 0 {
                return;
            }
            depth -= 1;
            i = usize::from(waiting.get_unchecked(depth).assume_init());
        }
    }
}
