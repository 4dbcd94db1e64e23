//! "All stored numbers are little-endian."

/// Takes fields from the front of a slice, one after the other. Whoever makes one has checked that
/// the slice is long enough.
pub struct Source<'a> {
    rest: &'a [u8],
}

impl<'a> Source<'a> {
    pub fn new(bytes: &'a [u8]) -> Source<'a> {
        Source { rest: bytes }
    }

    pub fn take(&mut self, count: usize) -> &'a [u8] {
        let (front, rest) = self.rest.split_at(count);
        self.rest = rest;
        front
    }

    fn array<const COUNT: usize>(&mut self) -> [u8; COUNT] {
        let mut bytes = [0; COUNT];
        bytes.copy_from_slice(self.take(COUNT));
        bytes
    }

    pub fn u8(&mut self) -> u8 {
        u8::from_le_bytes(self.array())
    }

    pub fn u16(&mut self) -> u16 {
        u16::from_le_bytes(self.array())
    }

    pub fn u32(&mut self) -> u32 {
        u32::from_le_bytes(self.array())
    }
}
