//! Little-endian numbers, word sums, bits and sets of names.

/// The byte at a position, 0 past the end.
pub(crate) fn number8(bytes: &[u8], at: usize) -> u8 {
    bytes.get(at).copied().unwrap_or(0)
}

/// The 16-bit number at a position.
pub(crate) fn number16(bytes: &[u8], at: usize) -> u16 {
    u16::from_le_bytes([number8(bytes, at), number8(bytes, at + 1)])
}

/// The 32-bit number at a position.
pub(crate) fn number32(bytes: &[u8], at: usize) -> u32 {
    u32::from_le_bytes([number8(bytes, at), number8(bytes, at + 1), number8(bytes, at + 2), number8(bytes, at + 3)])
}

/// The sum of all 32-bit words, wrapping at 2^32.
pub(crate) fn word_sum(bytes: &[u8]) -> u32 {
    bytes.chunks_exact(4).fold(0u32, |sum, word| sum.wrapping_add(number32(word, 0)))
}

/// Bit n: byte n / 8, weight 2^(n mod 8). Past the end there are no bits.
pub(crate) fn bit(bytes: &[u8], n: usize) -> bool {
    number8(bytes, n / 8) >> (n % 8) & 1 == 1
}

/// A set of numbers below 256, laid out as a flow row.
#[derive(Clone, Copy, Debug, Default, PartialEq, Eq)]
pub struct Names([u8; 32]);

impl Names {
    /// The set in the first 32 bytes.
    pub fn read(bytes: &[u8]) -> Names {
        let mut set = Names::default();
        for (to, from) in set.0.iter_mut().zip(bytes) {
            *to = *from;
        }
        set
    }

    /// The set as the bytes of a flow row.
    pub fn bytes(&self) -> &[u8; 32] {
        &self.0
    }

    pub fn has(&self, name: usize) -> bool {
        bit(&self.0, name)
    }

    pub fn add(&mut self, name: usize) {
        if let Some(byte) = self.0.get_mut(name / 8) {
            *byte |= 1 << (name % 8);
        }
    }

    pub fn remove(&mut self, name: usize) {
        if let Some(byte) = self.0.get_mut(name / 8) {
            *byte &= !(1 << (name % 8));
        }
    }

    pub fn add_all(&mut self, other: &Names) {
        for (to, from) in self.0.iter_mut().zip(other.0) {
            *to |= from;
        }
    }

    /// Both sets have a number in common.
    pub fn shares(&self, other: &Names) -> bool {
        self.0.iter().zip(other.0).fold(0, |common, (a, b)| common | a & b) != 0
    }

    /// Every number of this set is in the other one.
    pub fn within(&self, other: &Names) -> bool {
        self.0.iter().zip(other.0).all(|(a, b)| a & !b == 0)
    }

    /// How many numbers the set has.
    pub fn count(&self) -> usize {
        self.0.iter().map(|byte| byte.count_ones() as usize).sum()
    }

    /// The numbers in rising order.
    pub fn iter(&self) -> impl Iterator<Item = usize> + '_ {
        (0..256).filter(|name| self.has(*name))
    }
}
