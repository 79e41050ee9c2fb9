//! What a payload carries, as far as both sides say it.

use original::pdu::{Avc420BitmapStream, Avc444BitmapStream, Encoding};

use crate::answer::{beginning, first_difference, picked, Answer};
use crate::ours::{self, Given, Pair, Places, Rectangle};

/// The number of a refusal, or the kind, and of luma and then of chroma the rectangles (left, top, right, bottom, little-endian), the
/// pairs and the H.264 bytes; empty where a stream is not carried. Bit 6 of a quantiser byte is 0: the original drops it.
#[derive(Debug, PartialEq, Eq)]
pub struct Carried {
    pub number: u32,
    pub kind: u32,
    pub parts: [Vec<u8>; 6],
}

const PARTS: [&str; 6] =
    ["luma rectangles", "luma pairs", "luma H.264", "chroma rectangles", "chroma pairs", "chroma H.264"];

/// A quantiser byte without its bit 6.
pub fn unreserved(quantiser: u8) -> u8 {
    quantiser & !0x40
}

impl Carried {
    pub fn refused(number: u32) -> Self {
        Self { number, kind: 0, parts: Default::default() }
    }

    fn of(kind: u32, [luma_rects, luma_pairs, luma_data]: [Vec<u8>; 3], chroma: [Vec<u8>; 3]) -> Self {
        let [chroma_rects, chroma_pairs, chroma_data] = chroma;
        Self { number: 0, kind, parts: [luma_rects, luma_pairs, luma_data, chroma_rects, chroma_pairs, chroma_data] }
    }

    /// What was lent to be written.
    pub fn lent(kind: u32, luma: Given<'_>, chroma: Given<'_>) -> Self {
        let parts = |is: bool, stream: Given<'_>| {
            if !is {
                return Default::default();
            }
            let pairs = stream.pairs.chunks(2).flat_map(|pair| [unreserved(pair[0]), pair[1]]).collect();
            [little_endian(stream.rects), pairs, stream.data.to_vec()]
        };
        Self::of(kind, parts(kind != 2, luma), parts(kind != 1, chroma))
    }

    /// What the library reads.
    pub fn ours(payload: &[u8]) -> Self {
        let read = ours::avc444_read(payload);
        if read.number != 0 {
            return Self::refused(read.number);
        }
        Self::of(
            read.kind,
            our_parts(payload, read.luma, ours::avc444_luma_rectangle, ours::avc444_luma_pair),
            our_parts(payload, read.chroma, ours::avc444_chroma_rectangle, ours::avc444_chroma_pair),
        )
    }

    /// What the original decoded.
    pub fn decoded(stream: &Avc444BitmapStream<'_>) -> Self {
        let kind = stream.encoding.bits().into();
        let first = their_parts(&stream.stream1);
        assert_eq!(stream.stream2.is_some(), kind == 0, "the original has a second stream in kind 0 alone");
        match &stream.stream2 {
            Some(second) => Self::of(kind, first, their_parts(second)),
            None if stream.encoding == Encoding::CHROMA => Self::of(kind, Default::default(), first),
            None => Self::of(kind, first, Default::default()),
        }
    }
}

/// Numbers of 16 bits, each as its two bytes.
pub fn little_endian(numbers: &[u16]) -> Vec<u8> {
    numbers.iter().flat_map(|number| number.to_le_bytes()).collect()
}

fn our_parts(
    payload: &[u8],
    stream: Places,
    rectangle: fn(&[u8], usize) -> Rectangle,
    pair: fn(&[u8], usize) -> Pair,
) -> [Vec<u8>; 3] {
    let rects = (0..stream.count).flat_map(|i| {
        let Rectangle { number, present, left, top, right, bottom } = rectangle(payload, i);
        assert!(number == 0 && present, "rectangle {i} of {} is there", stream.count);
        little_endian(&[left, top, right, bottom])
    });
    let pairs = (0..stream.count).flat_map(|i| {
        let Pair { number, present, value, reserved: _, progressive, quality } = pair(payload, i);
        assert!(number == 0 && present, "pair {i} of {} is there", stream.count);
        [value | u8::from(progressive) << 7, quality]
    });
    [rects.collect(), pairs.collect(), payload[stream.data..][..stream.length].to_vec()]
}

fn their_parts(stream: &Avc420BitmapStream<'_>) -> [Vec<u8>; 3] {
    let rects = stream.rectangles.iter();
    let pairs = stream.quant_qual_vals.iter();
    [
        rects.flat_map(|rect| little_endian(&[rect.left, rect.top, rect.right, rect.bottom])).collect(),
        pairs.flat_map(|pair| [pair.quantization_parameter | u8::from(pair.progressive) << 7, pair.quality]).collect(),
        stream.data.to_vec(),
    ]
}

impl Answer for Carried {
    fn size(&self) -> usize {
        self.number.size() + self.kind.size() + self.parts.iter().map(Vec::len).sum::<usize>()
    }

    /// The number, the kind, or a byte of a part; the number where that part is empty.
    fn alter(&mut self, choice: u64) {
        let (part, choice) = (picked(choice, 2 + PARTS.len()), choice / 16);
        match part {
            0 => self.number.alter(choice),
            1 => self.kind.alter(choice),
            _ => match self.parts[part - 2].as_mut_slice() {
                [] => self.number.alter(choice),
                bytes => bytes[picked(choice, bytes.len())].alter(choice),
            },
        }
    }

    fn shown(&self) -> String {
        let parts = PARTS.iter().zip(&self.parts).filter(|(_, part)| !part.is_empty());
        let parts: String = parts.map(|(name, part)| format!(", {name} {}", beginning(part))).collect();
        format!("number {}, kind {}{parts}", self.number, self.kind)
    }

    fn differs_at(&self, theirs: &Self) -> String {
        if self.number != theirs.number {
            return format!("in the number: {}", self.number.differs_at(&theirs.number));
        }
        if self.kind != theirs.kind {
            return format!("in the kind: {}", self.kind.differs_at(&theirs.kind));
        }
        match (0..PARTS.len()).find(|&part| self.parts[part] != theirs.parts[part]) {
            Some(part) => {
                format!("in the {}, {}", PARTS[part], first_difference(&self.parts[part], &theirs.parts[part]))
            }
            None => "nowhere".to_owned(),
        }
    }
}
