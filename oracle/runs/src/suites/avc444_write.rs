//! The writer of the AVC444 payload timed. The original's stands on stand-ins here, whose times say nothing, so a plain copy is beside it,
//! which reads and writes as many bytes as the payload has, all at once.

use std::hint::black_box;

use crate::bench::{Pass, Weighing};
use crate::ours::{self, Given};
use crate::random::Random;

pub const DATA: Weighing = Weighing {
    name: "avc444_write",
    input: "two streams of 1,000 rectangles and 100,000 H.264 bytes, against a copy of as many bytes",
    bound: Some(1.15),
    passes: || passes(100, 1000, 100_000),
};

pub const RECTS: Weighing = Weighing {
    name: "avc444_write",
    input: "two streams of 10,000 rectangles and no H.264 bytes, against a copy of as many bytes",
    bound: None,
    passes: || passes(100, 10_000, 0),
};

pub const SMALL: Weighing = Weighing {
    name: "avc444_write",
    input: "two streams of one rectangle and 100 H.264 bytes, against a copy of as many bytes",
    bound: None,
    passes: || passes(10_000, 1, 100),
};

/// So many calls, and as many copies of what they write.
fn passes(calls: u64, rectangles: usize, data: usize) -> [Pass; 2] {
    let (luma, chroma) = (Stream::new("luma", rectangles, data), Stream::new("chroma", rectangles, data));
    let length = 4 + 2 * (4 + 10 * rectangles + data);
    let (mut out, mut copy) = (vec![0; length], vec![0; length]);
    write(&luma, &chroma, &mut out);
    let payload = out.clone();
    [
        Pass::new(calls, move || {
            (0..calls)
                .map(|_| write(black_box(&luma), black_box(&chroma), black_box(&mut out)))
                .fold(0, u64::wrapping_add)
        }),
        Pass::new(calls, move || {
            (0..calls).map(|_| copied(black_box(&payload), black_box(&mut copy))).fold(0, u64::wrapping_add)
        }),
    ]
}

/// What is lent for a stream.
struct Stream {
    rects: Vec<u16>,
    pairs: Vec<u8>,
    data: Vec<u8>,
}

impl Stream {
    fn new(name: &str, rectangles: usize, data: usize) -> Self {
        let mut random = Random::new(1, name);
        Self {
            rects: (0..4 * rectangles).map(|_| random.number() as u16).collect(),
            pairs: (0..2 * rectangles).map(|_| random.number() as u8).collect(),
            data: (0..data).map(|_| random.number() as u8).collect(),
        }
    }

    fn given(&self) -> Given<'_> {
        Given { rects: &self.rects, pairs: &self.pairs, data: &self.data }
    }
}

#[inline(never)]
fn write(luma: &Stream, chroma: &Stream, out: &mut [u8]) -> u64 {
    let answer = ours::avc444_write(0, luma.given(), chroma.given(), out);
    assert!(answer.number == 0 && answer.count == out.len(), "the parts are good, and there is room");
    u64::from(out[out.len() - 1])
}

#[inline(never)]
fn copied(payload: &[u8], out: &mut [u8]) -> u64 {
    out.copy_from_slice(payload);
    u64::from(out[out.len() - 1])
}
