//! All balances of a pair at once, in the 128-bit registers that every x86-64 has.

use std::arch::x86_64::{
    __m128i, _mm_castsi128_ps, _mm_cmpeq_epi16, _mm_loadu_si128, _mm_movemask_epi8, _mm_movemask_ps, _mm_or_si128,
    _mm_setzero_si128, _mm_sub_epi32, _mm_subs_epu16,
};

/// Loads of a node in L balances, a multiple of 8; those from K on are 0. They stay below 2^26.
pub type Lanes<const L: usize> = [i32; L];

fn load<T>(from: &T) -> __m128i {
    unsafe { _mm_loadu_si128((from as *const T).cast()) }
}

/// A weight is above its slack.
#[inline(always)]
pub fn outweighs<const L: usize>(weights: &[u16; L], slack: &[u16; L]) -> bool {
    let (weights, slack) = (weights.as_chunks::<8>().0, slack.as_chunks::<8>().0);
    unsafe {
        let zero = _mm_setzero_si128();
        let above =
            (0..L / 8).fold(zero, |above, k| _mm_or_si128(above, _mm_subs_epu16(load(&weights[k]), load(&slack[k]))));
        _mm_movemask_epi8(_mm_cmpeq_epi16(above, zero)) != 0xffff
    }
}

/// More is needed than given: the sign of a difference, as the numbers stay far from the ends of their type.
#[inline(always)]
pub fn lacks<const L: usize>(need: &Lanes<L>, give: &Lanes<L>) -> bool {
    let (need, give) = (need.as_chunks::<4>().0, give.as_chunks::<4>().0);
    unsafe {
        let signs = (0..L / 4)
            .fold(_mm_setzero_si128(), |signs, k| _mm_or_si128(signs, _mm_sub_epi32(load(&give[k]), load(&need[k]))));
        _mm_movemask_ps(_mm_castsi128_ps(signs)) != 0
    }
}
