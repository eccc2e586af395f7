//! Reads an input from its front. What it lacks reads as zeros.

pub struct Input<'a>(pub &'a [u8]);

impl Input<'_> {
    pub fn is_empty(&self) -> bool {
        self.0.is_empty()
    }

    pub fn byte(&mut self) -> u8 {
        let Some((first, rest)) = self.0.split_first() else { return 0 };
        self.0 = rest;
        *first
    }

    pub fn short(&mut self) -> u16 {
        u16::from_le_bytes([self.byte(), self.byte()])
    }

    pub fn word(&mut self) -> u32 {
        u32::from(self.short()) | u32::from(self.short()) << 16
    }

    /// A length and as many bytes, or what is left. A boxed slice has no room to spare, so that a read past its end is seen.
    pub fn file(&mut self) -> Box<[u8]> {
        let length = usize::from(self.short()).min(self.0.len());
        let (file, rest) = self.0.split_at(length);
        self.0 = rest;
        file.into()
    }
}
