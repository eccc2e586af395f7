//! The marker entries by content: open addressing, so that an entry is found or known to be new in about one probe.

use std::mem::MaybeUninit;

/// Room for marker numbers, 0 where free.
pub type Slots = [MaybeUninit<u16>; 8192];

pub struct Index<'a> {
    slots: &'a mut Slots,
    shift: u32,
}

/// Entry k as one word.
///
/// Safety: the list has entry k.
pub unsafe fn entry(markers: *const u16, k: usize) -> u64 {
    markers.add(4 * k).cast::<u64>().read_unaligned()
}

impl Index<'_> {
    /// For at most `most` entries; at least half the slots in use stay free.
    pub fn new(slots: &mut Slots, most: usize) -> Index<'_> {
        let size = (2 * most).next_power_of_two().clamp(64, 8192);
        slots[..size].fill(MaybeUninit::new(0));
        Index { slots, shift: 64 - size.trailing_zeros() }
    }

    /// The number of an equal entry, or else 0 after `number` was noted.
    ///
    /// Safety: the numbers noted so far are of entries in the list, and fewer than there is room for.
    pub unsafe fn note(&mut self, markers: *const u16, wanted: u64, number: usize) -> usize {
        let slot = self.find(markers, wanted);
        let found = self.slots.get_unchecked_mut(slot).assume_init_mut();
        if *found != 0 {
            return usize::from(*found);
        }
        *found = number as u16;
        0
    }

    /// The number of an equal entry, or 0.
    pub unsafe fn number_of(&self, markers: *const u16, wanted: u64) -> usize {
        let slot = self.find(markers, wanted);
        usize::from(self.slots.get_unchecked(slot).assume_init())
    }

    /// The slot of an equal entry, or the free one where it would go.
    unsafe fn find(&self, markers: *const u16, wanted: u64) -> usize {
        let last = (1 << (64 - self.shift)) - 1;
        let mut slot = (wanted.wrapping_mul(0x9e37_79b9_7f4a_7c15) >> self.shift) as usize;
        loop {
            let number = usize::from(self.slots.get_unchecked(slot).assume_init());
            if number == 0 || entry(markers, number - 1) == wanted {
                return slot;
            }
            slot = (slot + 1) & last;
        }
    }
}
