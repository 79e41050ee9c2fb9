//! A payload to write: what is lent to the library, the same for the original, and how the original's `encode` ends.

use std::panic::{catch_unwind, set_hook, take_hook, AssertUnwindSafe};

use original::pdu::{Avc420BitmapStream, Avc444BitmapStream, Encoding, QuantQuality};
use original::{Encode as _, Error, WriteCursor};

use super::carried::unreserved;
use crate::ours::Given;
use crate::outcome::Lent;
use crate::random::Random;
use crate::suites::lists;

/// How many numbers, bytes of pairs and H.264 bytes are lent for a stream.
#[derive(Debug, Clone, Copy, PartialEq, Eq)]
pub struct Sizes {
    pub rects: usize,
    pub pairs: usize,
    pub data: usize,
}

impl Sizes {
    /// The bytes of the stream, if the numbers are whole fours.
    pub fn bytes(&self) -> usize {
        4 + 2 * self.rects + self.pairs + self.data
    }

    /// Whether the numbers are in fours, and there is one pair for each four.
    pub fn even(&self) -> bool {
        self.rects % 4 == 0 && self.pairs == self.rects / 2
    }

    /// The size that the original says: it has one pair for each rectangle in mind.
    pub fn their_size(&self) -> usize {
        4 + self.rects / 4 * 10 + self.data
    }
}

/// A case. The seed decides the numbers and bytes that are lent.
#[derive(Debug, Clone, Copy, PartialEq, Eq)]
pub struct Case {
    pub kind: u32,
    /// Whether quantiser bytes may have bit 6.
    pub reserved: bool,
    pub luma: Sizes,
    pub chroma: Sizes,
    pub output: usize,
    pub seed: u64,
}

/// The most numbers or bytes of a case: the longest stream that matters has 2^32 bytes.
const LONGEST: u64 = 1 << 33;

impl Case {
    pub fn of_words(words: &[u64]) -> Result<Self, String> {
        match *words {
            [kind, reserved @ 0..=1, luma_rects, luma_pairs, luma_data, chroma_rects, chroma_pairs, chroma_data, output, seed]
                if kind <= u32::MAX.into() && words[2..9].iter().all(|&word| word <= LONGEST) =>
            {
                let sizes =
                    |rects, pairs, data| Sizes { rects: rects as usize, pairs: pairs as usize, data: data as usize };
                Ok(Self {
                    kind: kind as u32,
                    reserved: reserved == 1,
                    luma: sizes(luma_rects, luma_pairs, luma_data),
                    chroma: sizes(chroma_rects, chroma_pairs, chroma_data),
                    output: output as usize,
                    seed,
                })
            }
            _ => Err("a case is the kind, whether bit 6 of a quantiser byte may be set (1 or 0), of luma and then of chroma the numbers \
                      of the list, the bytes of the pairs and the H.264 bytes, then the output's length and a seed"
                .to_owned()),
        }
    }

    pub fn words(&self) -> String {
        let Self { kind, reserved, luma, chroma, output, seed } = self;
        let sizes = |sizes: &Sizes| format!("{} {} {}", sizes.rects, sizes.pairs, sizes.data);
        format!("{kind} {} {} {} {output} {seed}", u8::from(*reserved), sizes(luma), sizes(chroma))
    }

    pub fn carries_luma(&self) -> bool {
        self.kind != 2
    }

    pub fn carries_chroma(&self) -> bool {
        matches!(self.kind, 0 | 2)
    }

    /// The streams that are carried, the first one first. A kind above 2 is taken to carry luma.
    pub fn carried(&self) -> Vec<Sizes> {
        let luma = self.carries_luma().then_some(self.luma);
        luma.into_iter().chain(self.carries_chroma().then_some(self.chroma)).collect()
    }

    /// The bytes of the payload.
    pub fn bytes(&self) -> usize {
        4 + self.carried().iter().map(Sizes::bytes).sum::<usize>()
    }

    /// The less, the smaller the case.
    pub fn weight(&self) -> u64 {
        (self.luma.bytes() + self.chroma.bytes() + self.output) as u64
    }
}

/// What is lent for a stream.
pub struct Stream {
    pub rects: Vec<u16>,
    pub pairs: Vec<u8>,
    pub data: Vec<u8>,
}

impl Stream {
    fn new(sizes: Sizes, reserved: bool, random: &mut Random) -> Self {
        /// From here on all bytes are 0, and take no memory before they are written.
        const LONG: usize = 1 << 20;
        let rects = (0..sizes.rects).map(|_| random.number() as u16).collect();
        let mut pairs: Vec<u8> = (0..sizes.pairs).map(|_| random.number() as u8).collect();
        if !reserved {
            pairs.iter_mut().step_by(2).for_each(|quantiser| *quantiser = unreserved(*quantiser));
        }
        let data = if sizes.data < LONG {
            (0..sizes.data).map(|_| random.number() as u8).collect()
        } else {
            vec![0; sizes.data]
        };
        Self { rects, pairs, data }
    }

    pub fn given(&self) -> Given<'_> {
        Given { rects: &self.rects, pairs: &self.pairs, data: &self.data }
    }

    /// Where its first pair with bit 6 starts, from the stream's first byte on.
    pub fn first_reserved(&self) -> Option<usize> {
        let pair = self.pairs.chunks(2).position(|pair| pair[0] != unreserved(pair[0]))?;
        Some(4 + 2 * self.rects.len() + 2 * pair)
    }

    /// The original's stream, if there is such a one: rectangles and pairs are whole there. A quantiser has the six low bits of its byte,
    /// and, if so wanted, bit 6 as well.
    fn original(&self, sevenths: bool) -> Option<Avc420BitmapStream<'_>> {
        let bits = if sevenths { 0x7F } else { 0x3F };
        let pairs = self.pairs.chunks_exact(2);
        pairs.remainder().is_empty().then_some(())?;
        Some(Avc420BitmapStream {
            rectangles: lists::originals_of(&self.rects)?,
            quant_qual_vals: pairs
                .map(|pair| QuantQuality {
                    quantization_parameter: pair[0] & bits,
                    progressive: pair[0] >> 7 == 1,
                    quality: pair[1],
                })
                .collect(),
            data: &self.data,
        })
    }
}

/// What is lent for both streams of a case.
pub struct Streams {
    pub luma: Stream,
    pub chroma: Stream,
}

/// How the original is called.
#[derive(Debug, Clone, Copy, PartialEq, Eq)]
pub enum Way {
    /// As the kind wants it, and quantisers of six bits.
    Plain,
    /// With a second stream where the kind wants none, and without one where it wants one.
    OtherSecond,
    /// With bit 6 of a quantiser byte in the quantiser.
    SevenBits,
}

impl Streams {
    pub fn new(case: &Case) -> Self {
        let mut random = Random::new(case.seed, "avc444");
        let luma = Stream::new(case.luma, case.reserved, &mut random);
        Self { luma, chroma: Stream::new(case.chroma, case.reserved, &mut random) }
    }

    /// The streams that are carried, the first one first.
    pub fn carried(&self, case: &Case) -> Vec<&Stream> {
        let luma = case.carries_luma().then_some(&self.luma);
        luma.into_iter().chain(case.carries_chroma().then_some(&self.chroma)).collect()
    }

    /// Runs the original's `encode`, if it has such an input: its kind is a byte.
    pub fn encoded(&self, case: &Case, way: Way) -> Option<Encoded> {
        let (first, second) = if case.kind == 2 { (&self.chroma, &self.luma) } else { (&self.luma, &self.chroma) };
        let bits = way == Way::SevenBits;
        let payload = Avc444BitmapStream {
            encoding: Encoding::from_bits_retain(u8::try_from(case.kind).ok()?),
            stream1: first.original(bits)?,
            stream2: if (case.kind == 0) != (way == Way::OtherSecond) { Some(second.original(bits)?) } else { None },
        };
        let mut output = Lent::new(case.output);
        let mut cursor = WriteCursor::new(output.lent());
        let ending = match quietly(|| payload.encode(&mut cursor)) {
            Some(Ok(())) => Ending::Wrote,
            Some(Err(Error::NotEnoughBytes { .. })) => Ending::NoRoom,
            Some(Err(Error::InvalidField { field, .. })) => Ending::Field(field),
            None => Ending::Panicked,
        };
        let at = cursor.pos();
        Some(Encoded { ending, at, output })
    }
}

/// How the original's `encode` ends.
#[derive(Debug, Clone, Copy, PartialEq, Eq)]
pub enum Ending {
    Wrote,
    NoRoom,
    /// The error of a field.
    Field(&'static str),
    Panicked,
}

/// What the original's `encode` did: how it ended, how far its cursor went, and what is in the output.
pub struct Encoded {
    pub ending: Ending,
    pub at: usize,
    pub output: Lent,
}

/// What a call answers, or none if it panics, without a word.
fn quietly<A>(call: impl FnOnce() -> A) -> Option<A> {
    let hook = take_hook();
    set_hook(Box::new(|_| {}));
    let answer = catch_unwind(AssertUnwindSafe(call)).ok();
    set_hook(hook);
    answer
}

#[cfg(test)]
mod tests {
    use super::*;

    #[test]
    fn words_are_read_back() {
        let sizes = |first| Sizes { rects: first, pairs: first + 1, data: first + 2 };
        let case = Case { kind: 2, reserved: true, luma: sizes(3), chroma: sizes(6), output: 9, seed: 10 };
        let words: Vec<u64> = case.words().split(' ').map(|word| word.parse().unwrap()).collect();
        assert_eq!((words.as_slice(), Case::of_words(&words)), (&[2, 1, 3, 4, 5, 6, 7, 8, 9, 10][..], Ok(case)));
    }

    #[test]
    fn a_panic_is_no_answer() {
        assert_eq!(quietly(|| 3), Some(3));
        assert_eq!(quietly(|| -> u8 { panic!("never printed") }), None);
    }
}
