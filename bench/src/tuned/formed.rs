//! Refusal 23: whether the lent lists are well formed.

use super::engine::Engine;
use super::index::entry;
use super::{has, Row};
use std::arch::x86_64::{
    _mm_cmpeq_epi32, _mm_loadu_si128, _mm_movemask_epi8, _mm_packs_epi16, _mm_packs_epi32, _mm_setzero_si128,
};

/// Safety: the counts fit the lists, and the free names are filled in.
pub unsafe fn well_formed(engine: &mut Engine) -> bool {
    (0..engine.count).all(|i| thread_formed(engine, i)) && markers_formed(engine)
}

unsafe fn thread_formed(engine: &Engine, i: usize) -> bool {
    let words = engine.thread(i);
    let node = *words as usize;
    if node >= engine.array.nodes || !engine.array.node(node).is_agent() || *words.add(1) as usize > engine.listed {
        return false;
    }
    let free = engine.free_of(node);
    let names = words.add(2);
    let mut at = 0;
    while at < engine.array.names {
        let count = (engine.array.names - at).min(64);
        let marks = *free.get_unchecked(at / 64);
        if used(names.add(at), count) != marks || !openings(engine, names.add(at), marks) {
            return false;
        }
        at += 64;
    }
    true
}

/// The openings of the marked names.
unsafe fn openings(engine: &Engine, words: *const u32, mut marks: u64) -> bool {
    let opened: &Row = &engine.array.opened;
    let mut fits = true;
    while marks != 0 {
        let opening = (*words.add(marks.trailing_zeros() as usize)).wrapping_sub(1);
        fits &=
            opening < 0x100_0000 && has(opened, (opening >> 16) as u8) && (opening & 0xffff) as usize <= engine.listed;
        marks &= marks - 1;
    }
    fits
}

/// Bit v: word v isn't zero. At most 64 words.
unsafe fn used(words: *const u32, count: usize) -> u64 {
    let mut bits = 0;
    let mut at = 0;
    while at + 16 <= count {
        bits |= (u64::from(!zeros(words.add(at))) & 0xffff) << at;
        at += 16;
    }
    while at < count {
        bits |= u64::from(*words.add(at) != 0) << at;
        at += 1;
    }
    bits
}

/// Bit v: word v of 16 is zero.
unsafe fn zeros(words: *const u32) -> u32 {
    let zero = _mm_setzero_si128();
    let four = |k: usize| _mm_cmpeq_epi32(_mm_loadu_si128(words.add(4 * k).cast()), zero);
    let low = _mm_packs_epi32(four(0), four(1));
    let high = _mm_packs_epi32(four(2), four(3));
    _mm_movemask_epi8(_mm_packs_epi16(low, high)) as u32
}

/// Every entry has a resource, an out and two numbers below its own, and no two are equal.
unsafe fn markers_formed(engine: &mut Engine) -> bool {
    let is_kind =
        |engine: &Engine, i: usize, kind: usize| i < engine.array.nodes && engine.array.node(i).kind() == kind;
    for k in 0..engine.listed {
        let word = entry(engine.markers, k);
        let [resource, out, left, right] = [0, 16, 32, 48].map(|at| (word >> at & 0xffff) as usize);
        let fits = left <= k && right <= k && is_kind(engine, resource, 6) && is_kind(engine, out, 4);
        if !fits || engine.index.note(engine.markers, word, k + 1) != 0 {
            return false;
        }
    }
    true
}
