//! Lent lists: filled with noise, well formed at random, and damaged in each way that refusal 23 names.

use plain::{Array, Kind};

use crate::random::Random;
use crate::tables::agents;

#[derive(Clone, Debug, PartialEq, Eq)]
pub struct Lists {
    pub threads: Vec<u32>,
    pub thread_count: usize,
    pub markers: Vec<u16>,
    pub marker_count: usize,
}

/// How many threads and markers the lists are to have room for.
#[derive(Clone, Copy)]
pub struct Room {
    pub threads: usize,
    pub markers: usize,
}

/// The ways of `damage`.
pub const WAYS: usize = 14;

impl Lists {
    /// Lists in no use, of random words. Now and then some words more than the room takes.
    pub fn noise(random: &mut Random, array: &Array, room: Room) -> Lists {
        let width = 2 + array.names();
        let words = room.threads * width + if random.once_in(3) { random.below(width) } else { 0 };
        let numbers = room.markers * 4 + if random.once_in(3) { random.below(4) } else { 0 };
        Lists {
            threads: (0..words).map(|_| random.word() as u32).collect(),
            thread_count: 0,
            markers: (0..numbers).map(|_| random.word() as u16).collect(),
            marker_count: 0,
        }
    }

    /// Well-formed lists that no start needs to reach. Openings come from a small pool, so that channels meet.
    pub fn formed(random: &mut Random, array: &Array, threads: usize, markers: usize, spare: usize) -> Lists {
        let room = |random: &mut Random, count| count + if spare == 0 { 0 } else { random.below(spare) };
        let rooms = Room { threads: room(random, threads), markers: room(random, markers) };
        let mut lists = Lists::noise(random, array, rooms);
        lists.add_markers(random, array, markers);
        let marker_count = lists.marker_count;
        let opened: Vec<usize> = array.opened().iter().collect();
        let pool: Vec<u32> = (0..random.between(1, 4))
            .filter_map(|_| random.any(&opened).map(|o| opening(o, random.between(0, marker_count))))
            .collect();
        let agents = agents(array);
        for i in 0..threads {
            if let (Some(agent), false) = (random.any(&agents), pool.is_empty()) {
                lists.put_thread(random, array, i, agent, &pool);
                lists.thread_count = i + 1;
            }
        }
        lists
    }

    fn put_thread(&mut self, random: &mut Random, array: &Array, i: usize, agent: usize, pool: &[u32]) {
        let marker = random.between(0, self.marker_count) as u32;
        let words = self.thread(array, i);
        words[0] = agent as u32;
        words[1] = marker;
        let free = array.free(agent);
        for (name, word) in words[2..].iter_mut().enumerate() {
            *word = if free.has(name) { random.pick(pool) } else { 0 };
        }
    }

    /// Adds entries, as long as different ones are found.
    fn add_markers(&mut self, random: &mut Random, array: &Array, count: usize) {
        let (resources, outs) = (of_kind(array, Kind::Resource), of_kind(array, Kind::Out));
        let mut seen = std::collections::HashSet::new();
        for _ in 0..2 * count {
            let (Some(resource), Some(out)) = (random.any(&resources), random.any(&outs)) else {
                return;
            };
            let i = self.marker_count;
            let (first, second) = (random.between(0, i), random.between(0, i));
            let entry = [resource as u16, out as u16, first as u16, second as u16];
            if i < count && seen.insert(entry) {
                self.markers[4 * i..4 * i + 4].copy_from_slice(&entry);
                self.marker_count += 1;
            }
        }
    }

    /// The words of thread i.
    pub fn thread(&mut self, array: &Array, i: usize) -> &mut [u32] {
        let width = 2 + array.names();
        &mut self.threads[i * width..(i + 1) * width]
    }

    /// The pairs that 25 to 27 do not refuse, of well-formed lists.
    pub fn ready(&self, array: &Array) -> Vec<(usize, usize)> {
        let width = 2 + array.names();
        let threads: Vec<&[u32]> = self.threads.chunks_exact(width).take(self.thread_count).collect();
        let mut pairs = Vec::new();
        for (i, p) in threads.iter().enumerate() {
            let receiver = &array.nodes()[p[0] as usize];
            for (j, q) in threads.iter().enumerate() {
                let sender = &array.nodes()[q[0] as usize];
                let kinds = receiver.is_receiver() && sender.is_sender() && receiver.arity() == sender.arity();
                if kinds && p[2 + receiver.name] == q[2 + sender.name] {
                    pairs.push((i, j));
                }
            }
        }
        pairs
    }

    /// One fault, if the lists have the part; the way is below `WAYS`.
    pub fn damage(&mut self, random: &mut Random, array: &Array, way: usize) {
        match way {
            0..=3 => self.damage_length(random, array, way),
            4..=9 if self.thread_count > 0 => self.damage_thread(random, array, way),
            10..=12 if self.marker_count > 0 => self.damage_marker(random, array, way),
            13 if self.marker_count > 1 => {
                let i = random.between(1, self.marker_count - 1);
                let from = 4 * random.below(i);
                self.markers.copy_within(from..from + 4, 4 * i);
            }
            _ => {}
        }
    }

    /// Counts too large, lists too short.
    fn damage_length(&mut self, random: &mut Random, array: &Array, way: usize) {
        let width = 2 + array.names();
        let beyond = |random: &mut Random, fit: usize, most: usize, size: usize| {
            let wrapped = usize::MAX / size + 1;
            random.pick(&[fit + 1, fit + 2, most + 1, 1 << 16, 1 << 32, (1 << 32) + fit, wrapped, usize::MAX, 1 << 63])
        };
        match way {
            0 => self.thread_count = beyond(random, self.threads.len() / width, 256, width),
            1 => self.marker_count = beyond(random, self.markers.len() / 4, 4096, 4),
            2 => self.threads.truncate((self.thread_count * width).saturating_sub(random.between(1, width))),
            _ => self.markers.truncate((self.marker_count * 4).saturating_sub(random.between(1, 4))),
        }
    }

    /// A word of a thread in use: node, marker, or a name's word.
    fn damage_thread(&mut self, random: &mut Random, array: &Array, way: usize) {
        let count = array.nodes().len();
        let others: Vec<usize> = (0..count).filter(|i| array.agent(*i).is_none()).collect();
        let above = random.pick(&[self.marker_count + 1, self.marker_count + 2, 4097, 65_535]);
        let i = random.below(self.thread_count);
        let words = self.thread(array, i);
        let free = array.free(words[0] as usize);
        let names = |is_free: bool| (0..array.names()).filter(|name| free.has(*name) == is_free).collect::<Vec<_>>();
        let closed: Vec<usize> = (0..array.names() + 2).filter(|name| !array.opened().has(*name)).collect();
        let free_word = random.any(&names(true)).map(|name| 2 + name);
        match (way, free_word, random.any(&names(false))) {
            (4, _, _) if random.once_in(2) => words[0] = random.pick(&[count as u32, words[0] + 65_536, u32::MAX]),
            (4, _, _) => words[0] = random.any(&others).unwrap_or(count) as u32,
            (5, _, _) => words[1] = random.pick(&[above as u32, words[1] + 65_536, u32::MAX]),
            (6, Some(at), _) => words[at] = 0,
            (7, _, Some(name)) => words[2 + name] = opening(random.any(&closed).unwrap_or(0), 0),
            (7, _, None) => {}
            (8, Some(at), _) if random.once_in(2) => words[at] = opening(random.pick(&closed), 0),
            (8, Some(at), _) => words[at] = words[at].wrapping_add(256 * 65_536),
            (9, Some(at), _) => words[at] = opening((words[at] as usize - 1) >> 16, above),
            _ => {}
        }
    }

    /// A number of an entry in use.
    fn damage_marker(&mut self, random: &mut Random, array: &Array, way: usize) {
        let nodes = array.nodes();
        let is = |i: usize, kind: Kind| nodes.get(i).is_some_and(|node| node.kind == kind);
        let wrong = |kind: Kind| (0..nodes.len() + 2).filter(|i| !is(*i, kind)).collect::<Vec<_>>();
        let i = random.below(self.marker_count);
        let entry = &mut self.markers[4 * i..4 * i + 4];
        match way {
            10 => entry[0] = random.pick(&wrong(Kind::Resource)) as u16,
            11 => entry[1] = random.pick(&wrong(Kind::Out)) as u16,
            _ => entry[random.pick(&[2, 3])] = random.pick(&[i + 1, i + 2, 65_535]) as u16,
        }
    }
}

/// The word of a free name.
pub fn opening(new: usize, marker: usize) -> u32 {
    (1 + 65_536 * new + marker) as u32
}

fn of_kind(array: &Array, kind: Kind) -> Vec<usize> {
    (0..array.nodes().len()).filter(|i| array.nodes()[*i].kind == kind).collect()
}
