//! Bytes that are read or written from the front on.

/// Reads bytes from the front on.
#[derive(Debug)]
pub struct ReadCursor<'a>(&'a [u8]);

impl<'a> ReadCursor<'a> {
    pub fn new(bytes: &'a [u8]) -> Self {
        Self(bytes)
    }

    /// How many bytes are left.
    pub fn len(&self) -> usize {
        self.0.len()
    }

    pub fn is_empty(&self) -> bool {
        self.0.is_empty()
    }

    /// The bytes that are left.
    pub fn remaining(&self) -> &'a [u8] {
        self.0
    }

    /// A cursor over the next so many bytes, and one over the rest.
    ///
    /// # Panics
    ///
    /// Panics if fewer are left.
    pub fn split_at(&self, count: usize) -> (Self, Self) {
        let (front, rest) = self.0.split_at(count);
        (Self(front), Self(rest))
    }

    pub fn read_u8(&mut self) -> u8 {
        u8::from_le_bytes(self.next())
    }

    pub fn read_u16(&mut self) -> u16 {
        u16::from_le_bytes(self.next())
    }

    pub fn read_u32(&mut self) -> u32 {
        u32::from_le_bytes(self.next())
    }

    fn next<const N: usize>(&mut self) -> [u8; N] {
        let (front, rest) = self.0.split_first_chunk().expect("fewer bytes are left than are read");
        self.0 = rest;
        *front
    }
}

/// Writes bytes from the front on.
#[derive(Debug)]
pub struct WriteCursor<'a> {
    bytes: &'a mut [u8],
    at: usize,
}

impl<'a> WriteCursor<'a> {
    pub fn new(bytes: &'a mut [u8]) -> Self {
        Self { bytes, at: 0 }
    }

    /// How many bytes are left.
    pub fn len(&self) -> usize {
        self.bytes.len() - self.at
    }

    pub fn is_empty(&self) -> bool {
        self.len() == 0
    }

    /// How many bytes were written.
    pub fn pos(&self) -> usize {
        self.at
    }

    pub fn write_u8(&mut self, number: u8) {
        self.write_slice(&[number]);
    }

    pub fn write_u16(&mut self, number: u16) {
        self.write_slice(&number.to_le_bytes());
    }

    pub fn write_u32(&mut self, number: u32) {
        self.write_slice(&number.to_le_bytes());
    }

    /// # Panics
    ///
    /// Panics if fewer bytes are left, and writes none of them then.
    pub fn write_slice(&mut self, slice: &[u8]) {
        let end = self.at + slice.len();
        self.bytes[self.at..end].copy_from_slice(slice);
        self.at = end;
    }
}
