//! How a call on lent buffers ends: its number, its count, and every byte that it left.

use std::ops::Range;

use crate::answer::{beginning, first_difference, picked, Answer};

/// Guard bytes on each side of a lent buffer.
const GUARD: usize = 16;

/// A buffer to lend, between guard bytes.
#[derive(Clone)]
pub struct Lent {
    bytes: Vec<u8>,
    lent: Range<usize>,
}

impl Lent {
    /// A buffer of so many bytes, each other than its neighbours.
    pub fn new(length: usize) -> Self {
        let bytes = (0..length + 2 * GUARD).map(|place| 0xA5 ^ place as u8).collect();
        Self { bytes, lent: GUARD..GUARD + length }
    }

    /// A buffer of these bytes.
    pub fn holding(bytes: &[u8]) -> Self {
        let guard = |first: u8| (first..).take(GUARD);
        Self {
            bytes: guard(0xA5).chain(bytes.iter().copied()).chain(guard(0x5A)).collect(),
            lent: GUARD..GUARD + bytes.len(),
        }
    }

    /// What is lent: all but the guard bytes.
    pub fn lent(&mut self) -> &mut [u8] {
        &mut self.bytes[self.lent.clone()]
    }

    /// Every byte, with the guard bytes.
    pub fn whole(self) -> Vec<u8> {
        self.bytes
    }
}

/// What a call answered, and what it left in each buffer that was lent to be written, guard bytes included.
#[derive(PartialEq, Eq)]
pub struct Outcome {
    pub number: u32,
    pub count: usize,
    pub buffers: Vec<Vec<u8>>,
}

impl Outcome {
    /// How a call ends that writes these bytes to the front of an output: one that is too short is refused with 6.
    pub fn written(bytes: &[u8], mut output: Lent) -> Self {
        match output.lent().get_mut(..bytes.len()) {
            Some(front) => {
                front.copy_from_slice(bytes);
                Self { number: 0, count: bytes.len(), buffers: vec![output.whole()] }
            }
            None => Self::unwritten(6, vec![output.whole()]),
        }
    }

    /// How a call ends that is refused with a number: all that was lent is as it was.
    pub fn unwritten(number: u32, buffers: Vec<Vec<u8>>) -> Self {
        Self { number, count: 0, buffers }
    }
}

impl Answer for Outcome {
    fn size(&self) -> usize {
        self.number.size() + self.count.size() + self.buffers.iter().map(Vec::len).sum::<usize>()
    }

    /// The number, the count, or a byte of a buffer.
    fn alter(&mut self, choice: u64) {
        let (part, choice) = (picked(choice, 2 + self.buffers.len()), choice / 16);
        match part {
            0 => self.number.alter(choice),
            1 => self.count.alter(choice),
            _ => {
                let buffer = &mut self.buffers[part - 2];
                let place = picked(choice, buffer.len());
                buffer[place].alter(choice);
            }
        }
    }

    fn shown(&self) -> String {
        let mut shown = format!("number {}, count {}", self.number, self.count);
        for buffer in &self.buffers {
            let lent = &buffer[GUARD..buffer.len() - GUARD];
            shown += &format!(", {} between {GUARD} guard bytes on each side", beginning(lent));
        }
        shown
    }

    fn differs_at(&self, theirs: &Self) -> String {
        if self.number != theirs.number {
            return format!("in the number: {}", self.number.differs_at(&theirs.number));
        }
        if self.count != theirs.count {
            return format!("in the count: {}", self.count.differs_at(&theirs.count));
        }
        match self.buffers.iter().zip(&theirs.buffers).position(|(ours, theirs)| ours != theirs) {
            Some(at) => {
                let place = first_difference(&self.buffers[at], &theirs.buffers[at]);
                format!("in buffer {at}, whose byte {GUARD} is the first lent one, {place}")
            }
            None => "nowhere".to_owned(),
        }
    }
}
