//! `haythaw_avc444_read`, and the calls for one rectangle and one pair, beside `Avc444BitmapStream::decode`.
//!
//! Where the original has no number of its own, its errors are: 9 where the payload has no first number, or the size runs past it; 8 where
//! it says that the kind is reserved; 10 in a stream, and where kind 0 has the size 0.
//!
//! The intended differences are those of docs/DIFFERENCES.md, "The AVC444 payload". In kinds 1 and 2 a size from 1 to less than what
//! follows ends the original's stream there, and is not used here. So the original is asked about the same payload with the size 0, for
//! which both let the stream run to the end; and what it makes of the payload itself has to be what it makes of the payload cut after the
//! size.

use std::collections::BTreeSet;

use original::pdu::Avc444BitmapStream;
use original::{Decode as _, Error, ReadCursor};

use super::carried::Carried;
use crate::answer::Answer as _;
use crate::random::Random;
use crate::run::Run;
use crate::suites::bytes;

/// All bits of a size.
const SIZES: u32 = (1 << 30) - 1;

/// What is stated of the original where it differs, beside bit 6 of a quantiser byte, which it drops.
#[derive(Debug, Clone, Copy, PartialEq, Eq, PartialOrd, Ord)]
enum Row {
    /// A size of 1 to 3 in kinds 1 and 2: refused.
    TinySize,
    /// A size that ends the stream early in kinds 1 and 2: the rest is dropped.
    CutStream,
    /// The same, and a count that needs the rest: refused.
    CutCount,
    /// Kind 0 with the size 0: refused as an encoding that is invalid.
    NoSize,
}

/// Every payload that is compared.
pub fn every(run: &mut Run) {
    let mut met = BTreeSet::new();
    let mut each = |run: &mut Run, payload: &[u8]| met.extend(check(run, payload));
    for (luma, chroma) in [(0, 0), (1, 0), (0, 2), (2, 1)] {
        let (luma, chroma) = (stream(&mut run.random, luma, 3), stream(&mut run.random, chroma, 2));
        let first = luma.len();
        let payload = [vec![0; 4], luma, chroma].concat();
        let rest = payload.len() as u32 - 4;
        for kind in 0..4 {
            for size in (0..=rest + 2).chain([SIZES]) {
                each(run, &with_info(&payload, kind, size));
            }
            for size in [0, first as u32, rest] {
                let payload = with_info(&payload, kind, size);
                for kept in 0..=payload.len() {
                    each(run, &payload[..kept]);
                }
                for at in [4, 4 + first] {
                    for count in (0..6).chain([1 << 31, u32::MAX]) {
                        let mut payload = payload.clone();
                        payload[at..at + 4].copy_from_slice(&u32::to_le_bytes(count));
                        each(run, &payload);
                    }
                }
            }
        }
    }
    while run.more() {
        let (payload, sizes) = anyhow(&mut run.random);
        for kind in 0..4 {
            for size in sizes {
                each(run, &with_info(&payload, kind, size));
            }
        }
    }
    let all = [Row::TinySize, Row::CutStream, Row::CutCount, Row::NoSize];
    assert!(all.iter().all(|row| met.contains(row)), "of what is stated the cases show {met:?} alone");
}

pub fn replay(run: &mut Run, words: &[u64]) -> Result<(), String> {
    let payload = bytes::all(words)?;
    println!("stated of the original: {:?}", check(run, &payload));
    println!("the original itself: {}", decoded(&payload).shown());
    Ok(())
}

/// A stream of so many rectangles and H.264 bytes.
fn stream(random: &mut Random, rectangles: u32, data: u64) -> Vec<u8> {
    let mut bytes = rectangles.to_le_bytes().to_vec();
    bytes.extend((0..u64::from(10 * rectangles) + data).map(|_| random.number() as u8));
    bytes
}

/// A payload with this first number.
fn with_info(payload: &[u8], kind: u32, size: u32) -> Vec<u8> {
    let mut payload = payload.to_vec();
    payload[..4].copy_from_slice(&(kind << 30 | size).to_le_bytes());
    payload
}

/// Two streams with counts that are mostly right, cut or longer, after room for the first number; and sizes for that.
fn anyhow(random: &mut Random) -> (Vec<u8>, [u32; 5]) {
    let mut one = || {
        let (rectangles, data) = (random.between(0, 5) as u32, random.between(0, 300));
        stream(random, rectangles, data)
    };
    let (luma, chroma) = (one(), one());
    let first = luma.len();
    let mut payload = [vec![0; 4], luma, chroma].concat();
    if random.between(0, 3) == 0 {
        let at = [4, 4 + first][random.between(0, 1) as usize];
        payload[at] = payload[at].wrapping_add(random.between(0, 20) as u8);
    }
    match random.between(0, 5) {
        0 => payload.truncate(random.between(4, payload.len() as u64) as usize),
        1 => payload.extend((0..random.between(0, 20)).map(|_| random.number() as u8)),
        _ => {}
    }
    let rest = payload.len() as u64 - 4;
    let sizes = [0, first as u64, rest, random.between(0, rest + 8), random.between(0, SIZES.into())];
    (payload, sizes.map(|size| size as u32))
}

/// Compares a payload, and says what was stated of the original.
fn check(run: &mut Run, payload: &[u8]) -> Option<Row> {
    let ours = run.ours(Carried::ours(payload));
    run.refused(ours.number);
    let itself = decoded(payload);
    let (row, theirs) = match info(payload) {
        Some((1 | 2, size @ 1..)) if (size as usize) < payload.len() - 4 => {
            let cut = decoded(&payload[..4 + size as usize]);
            assert_eq!(itself, cut, "the original uses the size of {payload:?}");
            let sizeless = decoded(&with_info(payload, payload[3] as u32 >> 6, 0));
            match size {
                1..4 => {
                    assert_eq!(itself.number, 10, "the original refuses the size of {payload:?}");
                    (Some(Row::TinySize), sizeless)
                }
                _ if itself.number == 0 => (Some(Row::CutStream), sizeless),
                _ => (Some(Row::CutCount).filter(|_| sizeless.number == 0), sizeless),
            }
        }
        Some((0, 0)) => (Some(Row::NoSize), itself),
        _ => (None, itself),
    };
    run.compare(&ours, &theirs, payload.len() as u64, || {
        payload.iter().map(u8::to_string).collect::<Vec<_>>().join(" ")
    });
    row
}

/// Kind and size.
fn info(payload: &[u8]) -> Option<(u32, u32)> {
    let number = u32::from_le_bytes(*payload.first_chunk()?);
    Some((number >> 30, number & SIZES))
}

/// What the original makes of a payload.
pub fn decoded(payload: &[u8]) -> Carried {
    match Avc444BitmapStream::decode(&mut ReadCursor::new(payload)) {
        Ok(stream) => Carried::decoded(&stream),
        Err(error) => Carried::refused(number_of(&error, payload)),
    }
}

/// The number that the original's error stands for.
fn number_of(error: &Error, payload: &[u8]) -> u32 {
    match (error, info(payload)) {
        (Error::NotEnoughBytes { .. }, None) => 9,
        (Error::InvalidField { field: "encoding", reason: "reserved encoding value" }, Some((3, _))) => 8,
        (Error::NotEnoughBytes { .. }, Some((_, size))) if payload.len() - 4 < size as usize => 9,
        (Error::InvalidField { field: "encoding", reason: "invalid encoding" }, Some((0, 0))) => 10,
        (Error::NotEnoughBytes { .. }, Some(_)) => 10,
        _ => panic!("the original refuses {payload:?} in other words: {error:?}"),
    }
}
