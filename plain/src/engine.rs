//! The step engine on lent lists of words: start, step, stride and walk,
//! with refusals 22 to 29. A refused call changes no lent word.

use std::collections::HashSet;

use crate::array::{read_array, Array, Kind, Node};
use crate::bytes::bit;
use crate::{refuse, Refusal};

pub const MOST_THREADS: usize = 256;
pub const MOST_MARKERS: usize = 4096;
const CHOICE_BYTES: usize = 128;

/// How many threads and markers are in use.
#[derive(Clone, Copy, Debug, PartialEq, Eq)]
pub struct Counts {
    pub threads: usize,
    pub markers: usize,
}

#[derive(Clone, Copy, Debug, PartialEq, Eq)]
pub enum Ending {
    Quiet,
    Spent,
    Full,
}

/// How a walk ended, the steps it made and the counts it left.
#[derive(Clone, Copy, Debug, PartialEq, Eq)]
pub struct Walked {
    pub ending: Ending,
    pub steps: u32,
    pub counts: Counts,
}

/// A step that a walk made: the two agents, and the marker number
/// of the receiver's continuation.
#[derive(Clone, Copy, Debug, PartialEq, Eq)]
pub struct Made {
    pub receiver: usize,
    pub sender: usize,
    pub marker: u32,
}

/// Words of a thread.
fn width(array: &Array) -> usize {
    2 + array.names()
}

/// How many threads fit.
fn thread_room(array: &Array, threads: &[u32]) -> usize {
    MOST_THREADS.min(threads.len() / width(array))
}

/// How many markers fit.
fn marker_room(markers: &[u16]) -> usize {
    MOST_MARKERS.min(markers.len() / 4)
}

/// The words of thread i, which must be below the count.
fn thread<'a>(array: &Array, threads: &'a [u32], i: usize) -> &'a [u32] {
    let width = width(array);
    &threads[i * width..(i + 1) * width]
}

/// The agent of a thread of a well-formed configuration.
fn agent_of<'a>(array: &'a Array, thread: &[u32]) -> &'a Node {
    &array.nodes()[thread[0] as usize]
}

fn check_choices(choices: &[u8]) -> Result<(), Refusal> {
    if choices.len() != CHOICE_BYTES {
        return refuse(22);
    }
    Ok(())
}

/// The number of words is right, and so is each of them.
fn well_formed(array: &Array, threads: &[u32], thread_count: usize, markers: &[u16], marker_count: usize) -> bool {
    if thread_count > thread_room(array, threads) || marker_count > marker_room(markers) {
        return false;
    }
    let thread_is_right = |i: usize| {
        let words = thread(array, threads, i);
        let node = words[0] as usize;
        let free = array.free(node);
        array.agent(node).is_some()
            && words[1] as usize <= marker_count
            && words[2..].iter().enumerate().all(|(name, word)| match word.checked_sub(1) {
                None => !free.has(name),
                Some(opening) => {
                    let new = (opening / 65_536) as usize;
                    let marker = (opening % 65_536) as usize;
                    free.has(name) && array.opened().has(new) && marker <= marker_count
                }
            })
    };
    let is_kind = |node: u16, kind: Kind| array.nodes().get(usize::from(node)).is_some_and(|node| node.kind == kind);
    let entries = || markers.chunks_exact(4).take(marker_count);
    let entry_is_right = |(i, entry): (usize, &[u16])| {
        // Entry i is marker i + 1.
        is_kind(entry[0], Kind::Resource)
            && is_kind(entry[1], Kind::Out)
            && usize::from(entry[2]) <= i
            && usize::from(entry[3]) <= i
    };
    let mut seen = HashSet::new();
    (0..thread_count).all(thread_is_right)
        && entries().enumerate().all(entry_is_right)
        && entries().all(|entry| seen.insert(entry))
}

/// Adds the threads that a node gives under a marker. `names` has a word
/// per name, as in a thread. Each name has one binder and a thread keeps
/// only the names free in its agent, so one list serves all sides.
fn unfold(array: &Array, choices: &[u8], node: usize, marker: u32, mut names: Vec<u32>, threads: &mut Vec<u32>) {
    let mut waiting = vec![node];
    while let Some(i) = waiting.pop() {
        let node = &array.nodes()[i];
        match node.kind {
            Kind::Stop => {}
            Kind::New => {
                names[node.name] = 1 + 65_536 * node.name as u32 + marker;
                waiting.push(node.left);
            }
            Kind::Par => {
                waiting.push(node.right);
                waiting.push(node.left);
            }
            Kind::Choice => waiting.push(if bit(choices, i) { node.right } else { node.left }),
            Kind::Out | Kind::In | Kind::Resource => {
                let free = array.free(i);
                threads.push(i as u32);
                threads.push(marker);
                for (name, word) in names.iter().enumerate() {
                    threads.push(if free.has(name) { *word } else { 0 });
                }
            }
        }
    }
}

/// The refusal (25 to 27) of two threads, none if they are ready.
fn pair_refusal(array: &Array, threads: &[u32], receiver: usize, sender: usize) -> Option<u8> {
    let p = thread(array, threads, receiver);
    let q = thread(array, threads, sender);
    let input = agent_of(array, p);
    let output = agent_of(array, q);
    if !input.is_receiver() || !output.is_sender() {
        Some(25)
    } else if input.arity() != output.arity() {
        Some(26)
    } else if p[2 + input.name] != q[2 + output.name] {
        // No two entries are equal, so equal markers have equal numbers.
        Some(27)
    } else {
        None
    }
}

/// The first ready pair: lowest receiver, then lowest sender.
fn first_ready(array: &Array, threads: &[u32], thread_count: usize) -> Option<(usize, usize)> {
    for receiver in 0..thread_count {
        for sender in 0..thread_count {
            if pair_refusal(array, threads, receiver, sender).is_none() {
                return Some((receiver, sender));
            }
        }
    }
    None
}

/// Makes the step of a ready pair in a well-formed configuration,
/// or refuses it with 28 or 29.
#[allow(clippy::too_many_arguments)]
fn make_step(
    array: &Array,
    choices: &[u8],
    threads: &mut [u32],
    thread_count: usize,
    markers: &mut [u16],
    marker_count: usize,
    receiver: usize,
    sender: usize,
) -> Result<(Counts, Made), Refusal> {
    let p = thread(array, threads, receiver);
    let q = thread(array, threads, sender);
    let input = agent_of(array, p);
    let output = agent_of(array, q);
    let stays = input.kind == Kind::Resource;

    // The marker of the receiver's continuation, and the entry to append.
    let mut marker = p[1];
    let mut added = None;
    if stays {
        let entry = [p[0] as u16, q[0] as u16, p[1] as u16, q[1] as u16];
        let listed = markers.chunks_exact(4).take(marker_count).position(|old| old == entry);
        match listed {
            Some(i) => marker = i as u32 + 1,
            None => {
                marker = marker_count as u32 + 1;
                added = Some(entry);
            }
        }
    }

    let mut next = Vec::new();
    for i in 0..thread_count {
        if i != sender && (i != receiver || stays) {
            next.extend_from_slice(thread(array, threads, i));
        }
    }
    let mut names = p[2..].to_vec();
    for (parameter, sent) in input.arguments.iter().zip(&output.arguments) {
        names[*parameter] = q[2 + *sent];
    }
    unfold(array, choices, input.left, marker, names, &mut next);
    unfold(array, choices, output.left, q[1], q[2..].to_vec(), &mut next);

    let next_count = next.len() / width(array);
    if next_count > thread_room(array, threads) {
        return refuse(28);
    }
    if added.is_some() && marker_count >= marker_room(markers) {
        return refuse(29);
    }

    let made = Made { receiver: p[0] as usize, sender: q[0] as usize, marker };
    let mut counts = Counts { threads: next_count, markers: marker_count };
    threads[..next.len()].copy_from_slice(&next);
    if let Some(entry) = added {
        markers[4 * marker_count..4 * marker_count + 4].copy_from_slice(&entry);
        counts.markers += 1;
    }
    Ok((counts, made))
}

/// Writes the start and gives its thread count.
pub fn start(array: &[u8], choices: &[u8], threads: &mut [u32]) -> Result<usize, Refusal> {
    let array = read_array(array)?;
    check_choices(choices)?;
    let mut next = Vec::new();
    unfold(&array, choices, 0, 0, vec![0; array.names()], &mut next);
    let count = next.len() / width(&array);
    if count > thread_room(&array, threads) {
        return refuse(28);
    }
    threads[..next.len()].copy_from_slice(&next);
    Ok(count)
}

/// Makes one step and gives the counts after it.
#[allow(clippy::too_many_arguments)]
pub fn step(
    array: &[u8],
    choices: &[u8],
    threads: &mut [u32],
    thread_count: usize,
    markers: &mut [u16],
    marker_count: usize,
    receiver: usize,
    sender: usize,
) -> Result<Counts, Refusal> {
    let array = read_array(array)?;
    check_choices(choices)?;
    if !well_formed(&array, threads, thread_count, markers, marker_count) {
        return refuse(23);
    }
    if receiver >= thread_count || sender >= thread_count {
        return refuse(24);
    }
    if let Some(number) = pair_refusal(&array, threads, receiver, sender) {
        return refuse(number);
    }
    let (counts, _) = make_step(&array, choices, threads, thread_count, markers, marker_count, receiver, sender)?;
    Ok(counts)
}

/// The number of steps a walk is allowed, and how many of them are left.
#[derive(Clone, Copy, Debug, PartialEq, Eq)]
pub struct Allowance {
    pub allowed: u32,
    pub left: u32,
}

impl Allowance {
    /// That of a walk that begins.
    pub fn whole(allowed: u32) -> Allowance {
        Allowance { allowed, left: allowed }
    }

    pub fn is_spent(self) -> bool {
        self.left == 0
    }

    /// The allowance after one more step.
    pub fn lessened(self) -> Allowance {
        Allowance { left: self.left.saturating_sub(1), ..self }
    }

    /// The steps made under it, none if more are left than were allowed.
    pub fn steps_made(self) -> u32 {
        self.allowed.saturating_sub(self.left)
    }
}

/// What came of one step of a walk: the ending and the steps made, or the
/// step, the counts after it and the allowance it left.
#[derive(Clone, Copy, Debug, PartialEq, Eq)]
pub enum Stride {
    Ended(Ending, u32),
    Made(Made, Counts, Allowance),
}

/// Ends the walk, or makes the step of the first ready pair and tells it.
pub fn stride(
    array: &[u8],
    choices: &[u8],
    threads: &mut [u32],
    thread_count: usize,
    markers: &mut [u16],
    marker_count: usize,
    allowance: Allowance,
) -> Result<Stride, Refusal> {
    let array = read_array(array)?;
    check_choices(choices)?;
    if !well_formed(&array, threads, thread_count, markers, marker_count) {
        return refuse(23);
    }
    let ended = |ending| Ok(Stride::Ended(ending, allowance.steps_made()));
    let Some((receiver, sender)) = first_ready(&array, threads, thread_count) else {
        return ended(Ending::Quiet);
    };
    if allowance.is_spent() {
        return ended(Ending::Spent);
    }
    let result = make_step(&array, choices, threads, thread_count, markers, marker_count, receiver, sender);
    let Ok((counts, made)) = result else {
        return ended(Ending::Full);
    };
    Ok(Stride::Made(made, counts, allowance.lessened()))
}

/// Takes the first ready pair again and again.
pub fn walk(
    array: &[u8],
    choices: &[u8],
    threads: &mut [u32],
    thread_count: usize,
    markers: &mut [u16],
    marker_count: usize,
    allowed: u32,
) -> Result<Walked, Refusal> {
    let ignore = &mut |_: Made| {};
    walk_telling(array, choices, threads, thread_count, markers, marker_count, allowed, ignore)
}

/// The walk, telling each step it made.
#[allow(clippy::too_many_arguments)]
pub fn walk_telling(
    array: &[u8],
    choices: &[u8],
    threads: &mut [u32],
    thread_count: usize,
    markers: &mut [u16],
    marker_count: usize,
    allowed: u32,
    tell: &mut dyn FnMut(Made),
) -> Result<Walked, Refusal> {
    let array = read_array(array)?;
    check_choices(choices)?;
    if !well_formed(&array, threads, thread_count, markers, marker_count) {
        return refuse(23);
    }
    let mut counts = Counts { threads: thread_count, markers: marker_count };
    let mut allowance = Allowance::whole(allowed);
    let mut steps = 0;
    let ending = loop {
        let Some((receiver, sender)) = first_ready(&array, threads, counts.threads) else {
            break Ending::Quiet;
        };
        if allowance.is_spent() {
            break Ending::Spent;
        }
        let result = make_step(&array, choices, threads, counts.threads, markers, counts.markers, receiver, sender);
        let Ok((next, made)) = result else {
            break Ending::Full;
        };
        counts = next;
        allowance = allowance.lessened();
        steps += 1;
        tell(made);
    };
    Ok(Walked { ending, steps, counts })
}
