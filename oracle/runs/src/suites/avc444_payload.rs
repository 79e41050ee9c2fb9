//! The reader of the AVC444 payload timed. The original's stands on stand-ins here, whose times say nothing, so a plain sum is beside it,
//! which reads each byte of the payload once: byte by byte, as one writes it, and in words of eight, which is the cheapest.

use std::hint::black_box;

use crate::bench::{Pass, Weighing};
use crate::ours;
use crate::random::Random;

/// What is read, in words.
pub const INPUT: &str = "two streams of 1,000 rectangles and 60,000 H.264 bytes";

const RECTANGLES: usize = 1000;
const DATA: usize = 60_000;

pub const READ: Weighing = Weighing {
    name: "avc444_read",
    input: "both streams found, against the sum of all bytes",
    bound: Some(0.1),
    passes: || [pass(1000, read), pass(20, sum)],
};

pub const READ_WORDS: Weighing = Weighing {
    name: "avc444_read",
    input: "both streams found, against the sum of all bytes in words of eight",
    bound: Some(0.1),
    passes: || [pass(1000, read), pass(200, sum_of_words)],
};

pub const RECTS: Weighing = Weighing {
    name: "avc444_luma_rects",
    input: "1,000 rectangles copied, against the sum of all bytes",
    bound: None,
    passes: || [rects_pass(), pass(20, sum)],
};

pub const RECTS_WORDS: Weighing = Weighing {
    name: "avc444_luma_rects",
    input: "1,000 rectangles copied, against the sum of all bytes in words of eight",
    bound: None,
    passes: || [rects_pass(), pass(200, sum_of_words)],
};

pub const RECTANGLE: Weighing = Weighing {
    name: "avc444_luma_rectangle",
    input: "1,000 rectangles one by one, against the sum of all bytes",
    bound: None,
    passes: || [pass(20, each_rectangle), pass(20, sum)],
};

pub const RECTANGLE_WORDS: Weighing = Weighing {
    name: "avc444_luma_rectangle",
    input: "1,000 rectangles one by one, against the sum of all bytes in words of eight",
    bound: None,
    passes: || [pass(20, each_rectangle), pass(200, sum_of_words)],
};

fn rects_pass() -> Pass {
    let mut out = vec![0; 4 * RECTANGLES];
    pass(200, move |payload| rects(payload, &mut out))
}

/// So many calls over the same payload.
fn pass(calls: u64, mut call: impl FnMut(&[u8]) -> u64 + 'static) -> Pass {
    let payload = payload();
    Pass::new(calls, move || (0..calls).map(|_| call(black_box(&payload))).fold(0, u64::wrapping_add))
}

/// Both streams: a count, rectangles, pairs and H.264 bytes each.
fn payload() -> Vec<u8> {
    let mut random = Random::new(1, "avc444_payload");
    let mut stream = || {
        let mut bytes = (RECTANGLES as u32).to_le_bytes().to_vec();
        bytes.extend((0..10 * RECTANGLES + DATA).map(|_| random.number() as u8));
        bytes
    };
    let (luma, chroma) = (stream(), stream());
    [(luma.len() as u32).to_le_bytes().to_vec(), luma, chroma].concat()
}

#[inline(never)]
fn read(payload: &[u8]) -> u64 {
    let answer = ours::avc444_read(payload);
    assert!(answer.number == 0 && answer.chroma.count == RECTANGLES, "the payload is good");
    (answer.luma.data + answer.chroma.data) as u64
}

#[inline(never)]
fn rects(payload: &[u8], out: &mut [u16]) -> u64 {
    let answer = ours::avc444_luma_rects(payload, out);
    assert!(answer.count == 4 * RECTANGLES, "the payload is good");
    u64::from(out[4 * RECTANGLES - 1])
}

#[inline(never)]
fn each_rectangle(payload: &[u8]) -> u64 {
    (0..RECTANGLES)
        .map(|i| {
            let one = ours::avc444_luma_rectangle(payload, i);
            assert!(one.present, "the payload is good");
            u64::from(one.left) + u64::from(one.bottom)
        })
        .sum()
}

#[inline(never)]
fn sum(payload: &[u8]) -> u64 {
    payload.iter().map(|&byte| u64::from(byte)).sum()
}

#[inline(never)]
fn sum_of_words(payload: &[u8]) -> u64 {
    let words = payload.chunks_exact(8);
    let rest = sum(words.remainder());
    words.map(|word| u64::from_le_bytes(word.try_into().expect("eight bytes"))).fold(rest, u64::wrapping_add)
}
