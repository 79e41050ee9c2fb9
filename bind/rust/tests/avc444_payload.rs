//! The AVC444 payload through this crate's calls: all kinds, each refusal at its edge, the iterators, and whose memory a part is.
//! What is to come out stands beside each payload by hand, or is what the payload was put together from.

use std::iter::FusedIterator;
use std::ops::Range;

use haythaw::avc444_payload::Each;
use haythaw::{
    Avc444Layout, Avc444Payload, ExclusiveRectangle, PayloadKind, QuantQuality, ReadError, Stream, Yuv420Frame,
    Yuv444Frame,
};

/// Kind 0. Luma from 4 to 31, with two rectangles and three H.264 bytes; chroma from 31 to 47, with one and two.
const BOTH: [u8; 47] = [
    27, 0, 0, 0, //
    2, 0, 0, 0, 1, 0, 2, 0, 3, 0, 4, 0, 0, 1, 255, 255, 0, 128, 128, 0, 22, 100, 255, 0, 7, 8, 9, //
    1, 0, 0, 0, 5, 0, 6, 0, 7, 0, 8, 1, 0x85, 255, 11, 12,
];
const LUMA_RECTS: [[u16; 4]; 2] = [[1, 2, 3, 4], [256, 65_535, 32_768, 128]];
const CHROMA_RECTS: [[u16; 4]; 1] = [[5, 6, 7, 264]];
const LUMA_PAIRS: [QuantQuality; 2] = [pair(22, false, false, 100), pair(63, true, true, 0)];
const CHROMA_PAIRS: [QuantQuality; 1] = [pair(5, false, true, 255)];

const fn pair(value: u8, reserved: bool, progressive: bool, quality: u8) -> QuantQuality {
    match QuantQuality::new(value, quality) {
        Some(pair) => pair.with_reserved(reserved).with_progressive(progressive),
        None => panic!("a value above 63"),
    }
}

fn rect([left, top, right, bottom]: [u16; 4]) -> ExclusiveRectangle {
    ExclusiveRectangle { left, top, right, bottom }
}

fn read(bytes: &[u8]) -> Avc444Payload<'_> {
    Avc444Payload::read(bytes).unwrap_or_else(|error| panic!("{bytes:?}: {error}"))
}

fn luma(bytes: &[u8]) -> Stream<'_> {
    read(bytes).luma().expect("a luma stream")
}

fn chroma(bytes: &[u8]) -> Stream<'_> {
    read(bytes).chroma().expect("a chroma stream")
}

/// A payload with this kind and size, and these bytes after them.
fn payload(kind: u32, size: usize, rest: &[u8]) -> Vec<u8> {
    let size = u32::try_from(size).expect("a size of 30 bits");
    [&(kind << 30 | size).to_le_bytes(), rest].concat()
}

/// A stream with a rectangle and a pair for each of these, all different, and H.264 bytes.
fn numbered(all: Range<u16>, h264: &[u8]) -> Vec<u8> {
    let count = u32::try_from(all.len()).expect("a count of 32 bits").to_le_bytes();
    let rects = all.clone().flat_map(|i| numbers(i).map(u16::to_le_bytes)).flatten();
    let pairs = all.flat_map(u16::to_le_bytes);
    count.into_iter().chain(rects).chain(pairs).chain(h264.iter().copied()).collect()
}

fn numbers(i: u16) -> [u16; 4] {
    [i, 65_535 - i, i.wrapping_mul(257), i ^ 0x5A5A]
}

fn numbered_pair(i: u16) -> QuantQuality {
    let (quantiser, quality) = (i % 256, i / 256);
    let [value, quality] = [quantiser % 64, quality].map(|n| u8::try_from(n).expect("a byte"));
    pair(value, quantiser / 64 % 2 == 1, quantiser / 128 == 1, quality)
}

/// Everything that a stream has.
#[track_caller]
fn assert_stream(stream: Stream<'_>, rects: &[[u16; 4]], pairs: &[QuantQuality], h264: &[u8]) {
    assert_eq!(stream.count(), rects.len());
    assert_eq!(stream.rectangles().collect::<Vec<_>>(), rects.iter().copied().map(rect).collect::<Vec<_>>());
    assert_eq!(stream.pairs().collect::<Vec<_>>(), pairs);
    assert_eq!(stream.h264(), h264);
    assert_eq!(stream.rectangle_bytes(), rects.as_flattened().iter().flat_map(|n| n.to_le_bytes()).collect::<Vec<_>>());
    assert_eq!(stream.pair_bytes().len(), 2 * pairs.len());
    let mut out = vec![9; 4 * rects.len() + 1];
    assert_eq!(stream.copy_rectangles(&mut out), Ok(4 * rects.len()));
    assert_eq!(out, [rects.as_flattened(), &[9]].concat());
    assert_eq!(stream.pair_list(), pairs);
    let mut list = vec![rect([9; 4]); rects.len() + 1];
    assert_eq!(stream.copy_rectangle_list(&mut list), Ok(rects.len()));
    assert_eq!(list, rects.iter().copied().chain([[9; 4]]).map(ExclusiveRectangle::from).collect::<Vec<_>>());
    if let Some(fewer) = rects.len().checked_sub(1) {
        let mut short = vec![rect([9; 4]); fewer];
        assert_eq!(stream.copy_rectangle_list(&mut short), Err(ReadError::OutputShort));
        assert!(short.iter().all(|found| *found == rect([9; 4])));
    }
}

#[test]
fn both_streams() {
    let payload = read(&BOTH);
    assert_eq!(payload.kind(), PayloadKind::Both);
    assert_stream(luma(&BOTH), &LUMA_RECTS, &LUMA_PAIRS, &[7, 8, 9]);
    assert_stream(chroma(&BOTH), &CHROMA_RECTS, &CHROMA_PAIRS, &[11, 12]);
}

#[test]
fn one_stream_runs_to_the_end_whatever_the_size_says() {
    for size in [0, 1, 4, 26, 27, 42, 43] {
        let bytes = payload(1, size, &BOTH[4..]);
        assert_eq!((read(&bytes).kind(), read(&bytes).chroma().is_none()), (PayloadKind::Luma, true));
        assert_stream(luma(&bytes), &LUMA_RECTS, &LUMA_PAIRS, &BOTH[28..]);

        let bytes = payload(2, size, &BOTH[4..]);
        assert_eq!((read(&bytes).kind(), read(&bytes).luma().is_none()), (PayloadKind::Chroma, true));
        assert_stream(chroma(&bytes), &LUMA_RECTS, &LUMA_PAIRS, &BOTH[28..]);
    }
    for kind in [1, 2] {
        assert_eq!(Avc444Payload::read(&payload(kind, 44, &BOTH[4..])).unwrap_err(), ReadError::PayloadShort);
    }
}

#[test]
fn streams_without_rectangles_or_bytes() {
    let bytes = payload(0, 4, &[0; 8]);
    assert_stream(luma(&bytes), &[], &[], &[]);
    assert_stream(chroma(&bytes), &[], &[], &[]);
    assert_eq!(luma(&bytes).copy_rectangles(&mut []), Ok(0));
    assert!(luma(&bytes).rectangles().next().is_none() && chroma(&bytes).pairs().next_back().is_none());
}

#[test]
fn each_refusal_at_its_edge() {
    use ReadError::{KindUnknown, PayloadShort, StreamShort};
    let refused = |bytes: &[u8]| Avc444Payload::read(bytes).err();
    // Below 4 bytes, whatever they are; then kind 3, whatever follows.
    assert_eq!([&[][..], &[0], &[0xC0; 3]].map(refused), [Some(PayloadShort); 3]);
    for (size, rest) in [(0, &[][..]), (1, &[]), ((1 << 30) - 1, &[]), (4, &[255; 4]), (27, &BOTH[4..31])] {
        assert_eq!(refused(&payload(3, size, rest)), Some(KindUnknown), "{size}");
    }
    // A size that runs past is refused before a count that does.
    for kind in 0..3 {
        assert_eq!(refused(&payload(kind, 1, &[])), Some(PayloadShort));
        assert_eq!(refused(&payload(kind, 13, &[255; 12])), Some(PayloadShort));
        assert_eq!(refused(&payload(kind, 12, &[255; 12])), Some(StreamShort));
        assert_eq!(refused(&payload(kind, (1 << 30) - 1, &[0; 12])), Some(PayloadShort));
        assert_eq!(refused(&payload(kind, 0, &[])), Some(StreamShort));
    }
    // A count, a rectangle, a pair.
    for kind in [1, 2] {
        assert_eq!(refused(&payload(kind, 0, &[0; 3])), Some(StreamShort));
        assert_eq!(refused(&payload(kind, 0, &[0; 4])), None);
        let one = [1, 0, 0, 0, 0, 0, 0, 0, 0, 0, 0, 0, 0, 0];
        assert_eq!([5, 11, 12, 13].map(|end| refused(&payload(kind, 0, &one[..end]))), [Some(StreamShort); 4]);
        assert_eq!(refused(&payload(kind, 0, &one)), None);
    }
    // In kind 0 a stream ends where the size says, though the payload goes on.
    let sizes = [0, 3, 4, 5, 8].map(|size| refused(&payload(0, size, &[0; 8])));
    assert_eq!(sizes, [Some(StreamShort), Some(StreamShort), None, Some(StreamShort), Some(StreamShort)]);
    let sizes = [23, 24, 27, 28].map(|size| refused(&payload(0, size, &BOTH[4..])));
    // 23 bytes are one too few for luma. From byte 28 the count of chroma would be 7, 8, 9, 1, and from byte 32 it would be 0, 0, 0, 5.
    assert_eq!(sizes, [Some(StreamShort), Some(StreamShort), None, Some(StreamShort)]);
}

/// The size needs 31 bytes, the second pair 45. Of what is left, the H.264 bytes are as many as there are.
#[test]
fn every_prefix() {
    for end in 0..=BOTH.len() {
        let h264 = Avc444Payload::read(&BOTH[..end]).map(|payload| payload.chroma().expect("kind 0 has it").h264());
        let wanted = match end {
            0..31 => Err(ReadError::PayloadShort),
            31..45 => Err(ReadError::StreamShort),
            _ => Ok(&BOTH[45..end]),
        };
        assert_eq!(h264, wanted, "{end} bytes");
    }
}

/// 10 x 429,496,730 is 4 in 32 bits, 8 x 2^29 is 0.
#[test]
fn counts_too_large_for_the_payload() {
    for count in [3_u32, 429_496_730, 1 << 29, 1 << 31, u32::MAX] {
        let stream = [&count.to_le_bytes()[..], &BOTH[8..31]].concat();
        for bytes in [payload(1, 0, &stream), payload(2, 27, &stream), payload(0, 27, &[&stream[..], &[0; 4]].concat())]
        {
            assert_eq!(Avc444Payload::read(&bytes).unwrap_err(), ReadError::StreamShort, "{count}");
        }
        assert_eq!(
            Avc444Payload::read(&payload(0, 4, &[&[0; 4], &stream[..]].concat())).unwrap_err(),
            ReadError::StreamShort
        );
    }
}

#[test]
fn errors_have_a_number_and_a_text() {
    let short = luma(&BOTH).copy_rectangles(&mut [0; 7]).unwrap_err();
    let errors = [&[0; 4][..], &[0, 0, 0, 0xC0], &[1, 0, 0, 0]].map(|bytes| Avc444Payload::read(bytes).unwrap_err());
    let [stream, kind, payload] = errors;
    assert_eq!([short, kind, payload, stream].map(ReadError::number), [6, 8, 9, 10]);
    for (error, text) in [
        (short, "output shorter than four numbers for each rectangle"),
        (kind, "AVC444 payload of the unknown kind 3"),
        (payload, "AVC444 payload shorter than its first number, or than the size in it says"),
        (stream, "AVC444 stream shorter than its count, rectangles and pairs"),
    ] {
        let error: Box<dyn std::error::Error + Send + Sync> = error.into();
        assert_eq!(error.to_string(), text);
    }
}

/// Every part of both streams, taken from readers that are gone by then.
fn parts(bytes: &[u8]) -> [&[u8]; 6] {
    let (luma, chroma) = (luma(bytes), chroma(bytes));
    [
        luma.rectangle_bytes(),
        luma.pair_bytes(),
        luma.h264(),
        chroma.rectangle_bytes(),
        chroma.pair_bytes(),
        chroma.h264(),
    ]
}

#[test]
fn parts_are_the_callers_own_bytes() {
    let bytes = BOTH.to_vec();
    let places: [Range<usize>; 6] = [8..24, 24..28, 28..31, 35..43, 43..45, 45..47];
    for (part, place) in parts(&bytes).into_iter().zip(places) {
        assert_eq!(part.as_ptr_range(), bytes[place.clone()].as_ptr_range(), "{place:?}");
    }
    // An empty part stands where it would begin.
    let empty = payload(0, 4, &[0; 8]);
    for (part, place) in parts(&empty).into_iter().zip([8, 8, 8, 12, 12, 12]) {
        assert_eq!(part.as_ptr_range(), empty[place..place].as_ptr_range());
    }
}

#[test]
fn many_rectangles_in_both_streams() {
    let (first, second) = (numbered(0..1_000, &[1; 5]), numbered(2_000..2_301, &[2; 70]));
    let bytes = payload(0, first.len(), &[&first[..], &second].concat());
    for (stream, all, h264) in [(luma(&bytes), 0..1_000, &[1; 5][..]), (chroma(&bytes), 2_000..2_301, &[2; 70])] {
        let rects: Vec<_> = all.clone().map(numbers).collect();
        let pairs: Vec<_> = all.map(numbered_pair).collect();
        assert_stream(stream, &rects, &pairs, h264);
    }
}

#[test]
fn every_quantiser_byte() {
    let all: Vec<u8> = (0..=255).flat_map(|byte| [byte, 255 - byte]).collect();
    let stream = [&256_u32.to_le_bytes()[..], &[0; 8 * 256], &all].concat();
    let bytes = payload(1, 0, &stream);
    assert_eq!(luma(&bytes).count(), 256);
    for (byte, found) in (0..=255_u8).zip(luma(&bytes).pairs()) {
        assert_eq!(found, pair(byte & 63, byte & 64 != 0, byte & 128 != 0, 255 - byte));
    }
}

/// An iterator against the standard library's over the same things, in every way that it can be walked.
#[track_caller]
fn assert_walks<T: Copy + PartialEq + std::fmt::Debug>(each: Each<'_, T>, all: &[T]) {
    fn taken<I: DoubleEndedIterator + ExactSizeIterator>(
        mut items: I,
        ways: &[(bool, usize)],
    ) -> Vec<(Option<I::Item>, usize)> {
        let mut step = |&(back, n)| (if back { items.nth_back(n) } else { items.nth(n) }, items.len());
        ways.iter().map(&mut step).collect()
    }
    let same = all.iter().copied();
    assert_eq!((each.len(), each.size_hint()), (all.len(), (all.len(), Some(all.len()))));
    assert_eq!((each.clone().count(), each.clone().last()), (all.len(), all.last().copied()));
    assert_eq!(each.clone().rev().collect::<Vec<_>>(), same.clone().rev().collect::<Vec<_>>());
    assert_eq!(each.clone().step_by(3).collect::<Vec<_>>(), same.clone().step_by(3).collect::<Vec<_>>());
    assert_eq!(format!("{each:?}"), format!("{all:?}"));
    let steps = [0, 1, 2, all.len(), usize::MAX].into_iter().flat_map(|n| [(false, n), (true, n)]);
    let ways: Vec<_> = steps.collect();
    for first in &ways {
        for second in &ways {
            for third in &ways {
                let ways = [*first, *second, *third, (false, 0), (true, 0)];
                assert_eq!(taken(each.clone(), &ways), taken(same.clone(), &ways), "{ways:?}");
            }
        }
    }
}

#[test]
fn iterators_walk_as_the_standard_ones_do() {
    for count in [0, 1, 2, 7] {
        let (first, second) = (numbered(0..count, &[1]), numbered(300..301 + count, &[]));
        let bytes = payload(0, first.len(), &[&first[..], &second].concat());
        for (stream, all) in [(luma(&bytes), 0..count), (chroma(&bytes), 300..301 + count)] {
            assert_walks(stream.rectangles(), &all.clone().map(numbers).map(rect).collect::<Vec<_>>());
            assert_walks(stream.pairs(), &all.map(numbered_pair).collect::<Vec<_>>());
        }
    }
}

/// A clone goes on by itself, and an iterator that is over stays so.
#[test]
fn iterators_are_cloned_and_end() {
    fn fused<I: FusedIterator>(items: I) -> I {
        items
    }
    let mut rects = fused(luma(&BOTH).rectangles());
    assert_eq!(rects.next(), Some(rect(LUMA_RECTS[0])));
    let mut other = rects.clone();
    assert_eq!(
        (other.next(), other.next(), other.next(), other.next_back()),
        (Some(rect(LUMA_RECTS[1])), None, None, None)
    );
    assert_eq!((rects.len(), rects.next(), rects.len(), rects.next()), (1, Some(rect(LUMA_RECTS[1])), 0, None));
}

#[test]
fn rectangles_are_copied_where_there_is_room() {
    for (stream, wanted) in [(luma(&BOTH), LUMA_RECTS.as_flattened()), (chroma(&BOTH), CHROMA_RECTS.as_flattened())] {
        for room in 0..12 {
            let mut out = vec![777; room];
            let copied = stream.copy_rectangles(&mut out);
            if room < wanted.len() {
                assert_eq!((copied, out), (Err(ReadError::OutputShort), vec![777; room]));
            } else {
                assert_eq!(copied, Ok(wanted.len()));
                assert_eq!(out, [wanted, &vec![777; room - wanted.len()]].concat());
            }
        }
    }
}

/// What the rectangles are for: the streams' views go into a picture within them.
#[test]
fn rectangles_go_to_the_picture() {
    let one = [1, 0, 0, 0, 2, 0, 2, 0, 6, 0, 4, 0, 22, 100];
    let bytes = payload(0, one.len(), &[one, one].concat());
    let red = [255, 0, 0, 255].repeat(8 * 8);
    let (main, auxiliary): (Yuv420Frame, Yuv420Frame) =
        Yuv444Frame::from_rgba(&red, 8, 8).expect("8 x 8 pixels").split(Avc444Layout::V2).expect("no large side");
    let mut picture = Yuv444Frame::new(8, 8);
    picture.apply_main_view(&main, &luma(&bytes).rectangles().collect::<Vec<_>>());
    picture.apply_auxiliary_view(Avc444Layout::V2, &auxiliary, &chroma(&bytes).rectangles().collect::<Vec<_>>());
    let shown = picture.to_rgba(&rect([0, 0, 8, 8]));
    let inside = |at: usize| (2..6).contains(&(at % 8)) && (2..4).contains(&(at / 8));
    for (at, pixel) in shown.chunks_exact(4).enumerate() {
        assert_eq!(pixel, if inside(at) { [252, 0, 0, 255] } else { [0, 0, 0, 255] }, "{at}");
    }
}

#[test]
fn debug_says_what_is_carried_and_not_its_bytes() {
    assert_eq!(
        format!("{:?}", read(&BOTH)),
        "Avc444Payload { luma: Some(Stream { count: 2, h264_len: 3, .. }), chroma: Some(Stream { count: 1, h264_len: 2, .. }) }"
    );
}

/// Readers and iterators may go to other threads, as the slices that they hold may.
#[test]
fn readers_go_to_threads() {
    let (stream, mut rects) = (luma(&BOTH), luma(&BOTH).rectangles());
    let (bytes, first) = std::thread::scope(|scope| {
        let bytes = scope.spawn(move || stream.h264());
        let first = scope.spawn(move || rects.next_back());
        (bytes.join().expect("its end"), first.join().expect("its end"))
    });
    assert_eq!((bytes, first), (&[7, 8, 9][..], Some(rect(LUMA_RECTS[1]))));
}
