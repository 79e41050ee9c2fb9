//! The intended differences of docs/DIFFERENCES.md, "The AVC444 payload written", one by one: what the original does where they show.

use super::carried::{little_endian, unreserved};
use super::case::{Case, Ending, Stream, Streams};

/// A difference, in the order of the table.
#[derive(Debug, Clone, Copy, PartialEq, Eq, PartialOrd, Ord)]
pub enum Row {
    /// None: both write the same.
    Same,
    /// The original has no such input: a kind above 255, a list that is not in fours, half a pair.
    NoInput,
    /// Kind 3 is written.
    Kind3,
    /// A kind from 4 on panics.
    KindFrom4,
    /// A second stream that the kind does not carry is refused.
    SecondUnasked,
    /// Kind 0 without a second stream is refused.
    SecondMissing,
    /// A first stream of 2^30 bytes or more panics; from 2^32 bytes on it is refused.
    FirstLong,
    /// In kind 2 it is written, or lacks room alone.
    FirstLongOfKind2,
    /// Too few pairs are written, where there is room for all; with debug assertions they panic.
    PairsFew,
    /// Too many pairs are written. Where they lack room, those that have room are; where what is behind them lacks room, it panics. With
    /// debug assertions they panic.
    PairsMany,
    /// Bit 6 of a quantiser byte is 0, and a quantiser above 63 is refused after what precedes its pair was written.
    Reserved,
    /// Too little room for a stream is refused after what precedes the stream was written.
    Room,
    /// Too little room for the first number is refused, whatever else is wrong.
    RoomForNumber,
}

impl Row {
    /// All of them: every run meets each.
    pub const ALL: [Self; 13] = [
        Self::Same,
        Self::NoInput,
        Self::Kind3,
        Self::KindFrom4,
        Self::SecondUnasked,
        Self::SecondMissing,
        Self::FirstLong,
        Self::FirstLongOfKind2,
        Self::PairsFew,
        Self::PairsMany,
        Self::Reserved,
        Self::Room,
        Self::RoomForNumber,
    ];
}

/// What is stated of the original: the row, how it ends, and how far its cursor goes.
pub struct Stated {
    pub row: Row,
    pub ending: Ending,
    pub at: usize,
}

/// What is stated where the original has the second stream that its kind wants, and quantisers of six bits. The order is that in which the
/// original meets what is wrong.
pub fn plain(case: &Case, streams: &Streams) -> Stated {
    let stated = |row, ending, at| Stated { row, ending, at };
    if case.output < 4 {
        return stated(Row::RoomForNumber, Ending::NoRoom, 0);
    }
    let size = size_said(case);
    if size >= 1 << 32 {
        return stated(Row::FirstLong, Ending::Field("stream1size"), 0);
    }
    if size >= 1 << 30 {
        return stated(Row::FirstLong, Ending::Panicked, 0);
    }
    if case.kind > 3 {
        return stated(Row::KindFrom4, Ending::Panicked, 0);
    }
    let long = case.kind == 2 && case.chroma.their_size() >= 1 << 30;
    let mut row = match case.kind {
        3 => Row::Kind3,
        _ if long => Row::FirstLongOfKind2,
        _ if streams.carried(case).iter().any(|stream| stream.first_reserved().is_some()) => Row::Reserved,
        _ => Row::Same,
    };
    let mut at = 4;
    for sizes in case.carried() {
        if case.output - at < sizes.their_size() {
            return stated(if long { row } else { Row::Room }, Ending::NoRoom, at);
        }
        if !sizes.even() {
            row = if sizes.pairs < sizes.rects / 2 { Row::PairsFew } else { Row::PairsMany };
            if cfg!(debug_assertions) {
                return stated(row, Ending::Panicked, at);
            }
        }
        at += 4 + 2 * sizes.rects;
        let room = (case.output - at) / 2 * 2;
        if room < sizes.pairs {
            return stated(row, Ending::NoRoom, at + room);
        }
        at += sizes.pairs;
        if case.output - at < sizes.data {
            return stated(row, Ending::Panicked, at);
        }
        at += sizes.data;
    }
    stated(row, Ending::Wrote, at)
}

/// What is stated where the second stream is not as the kind wants it: it is refused before anything is written.
pub fn other_second(case: &Case) -> Stated {
    match case.kind {
        _ if case.output < 4 => Stated { row: Row::RoomForNumber, ending: Ending::NoRoom, at: 0 },
        0 => Stated { row: Row::SecondMissing, ending: Ending::Field("stream2"), at: 0 },
        _ => Stated { row: Row::SecondUnasked, ending: Ending::Field("stream2"), at: 0 },
    }
}

/// What is stated where a quantiser may be above 63: all before its pair is written, and then it is refused. None if there is no such
/// quantiser, or `plain` ends before it.
pub fn seven_bits(case: &Case, streams: &Streams, plain: &Stated) -> Option<Stated> {
    let mut start = 4;
    for stream in streams.carried(case) {
        if let Some(place) = stream.first_reserved() {
            let at = start + place;
            // A pair has to have room before it is refused.
            return (at + 2 <= plain.at).then_some(Stated {
                row: Row::Reserved,
                ending: Ending::Field("quantization_parameter"),
                at,
            });
        }
        start += 4 + 2 * stream.rects.len() + stream.pairs.len() + stream.data.len();
    }
    None
}

/// The first `count` of the bytes that the original writes one after the other: the first number with the size that it says, and the
/// streams as they are lent, without bit 6 of a quantiser byte.
pub fn bytes(case: &Case, streams: &Streams, count: usize) -> Vec<u8> {
    let info = case.kind << 30 | size_said(case) as u32;
    let mut bytes = info.to_le_bytes().to_vec();
    for Stream { rects, pairs, data } in streams.carried(case) {
        bytes.extend((rects.len() as u32 / 4).to_le_bytes());
        bytes.extend(little_endian(rects));
        bytes.extend(pairs.chunks_exact(2).flat_map(|pair| [unreserved(pair[0]), pair[1]]));
        // A long stream is not copied where no byte of it is wanted.
        bytes.extend(&data[..data.len().min(count.saturating_sub(bytes.len()))]);
        if bytes.len() >= count {
            break;
        }
    }
    bytes.truncate(count);
    bytes
}

/// The size in the original's first number.
fn size_said(case: &Case) -> usize {
    if case.kind == 2 {
        0
    } else {
        case.luma.their_size()
    }
}
