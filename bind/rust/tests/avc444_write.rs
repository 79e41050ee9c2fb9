//! The AVC444 payload written through this crate's calls: all kinds, each refusal at its edge, every length of the output, and what was
//! written read back. What is to come out stands beside the parts by hand, or is put together again from the words of the request.

use haythaw::{
    Avc444Payload, ExclusiveRectangle, PayloadKind, PayloadParts, QuantQuality, Stream, StreamParts, WriteError,
};

const RECTS: [ExclusiveRectangle; 3] = [rect([1, 2, 3, 4]), rect([256, 65_535, 32_768, 128]), rect([5, 6, 7, 264])];
const TWO: StreamParts<'static> =
    StreamParts { rectangles: RECTS.split_at(2).0, pairs: &[pair(22, 100), pair(255, 0)], h264: &[7, 8, 9] };
const ONE: StreamParts<'static> =
    StreamParts { rectangles: RECTS.split_at(2).1, pairs: &[pair(0x85, 255)], h264: &[11, 12] };
const NONE: StreamParts<'static> = StreamParts { rectangles: &[], pairs: &[], h264: &[] };

const fn pair(quantiser: u8, quality: u8) -> QuantQuality {
    QuantQuality::from_bytes([quantiser, quality])
}

const TWO_BYTES: [u8; 27] =
    [2, 0, 0, 0, 1, 0, 2, 0, 3, 0, 4, 0, 0, 1, 255, 255, 0, 128, 128, 0, 22, 100, 255, 0, 7, 8, 9];
const ONE_BYTES: [u8; 16] = [1, 0, 0, 0, 5, 0, 6, 0, 7, 0, 8, 1, 0x85, 255, 11, 12];

/// What the first stream has to be shorter than.
const LIMIT: usize = 1 << 30;

const fn rect([left, top, right, bottom]: [u16; 4]) -> ExclusiveRectangle {
    ExclusiveRectangle { left, top, right, bottom }
}

/// Parts by hand, and the payload.
fn by_hand() -> [(PayloadParts<'static>, Vec<u8>); 9] {
    use PayloadParts::{Both, Chroma, Luma};
    [
        (Both { luma: TWO, chroma: ONE }, [&[27, 0, 0, 0][..], &TWO_BYTES, &ONE_BYTES].concat()),
        (Both { luma: ONE, chroma: TWO }, [&[16, 0, 0, 0][..], &ONE_BYTES, &TWO_BYTES].concat()),
        (Both { luma: NONE, chroma: TWO }, [&[4, 0, 0, 0, 0, 0, 0, 0][..], &TWO_BYTES].concat()),
        (Both { luma: ONE, chroma: NONE }, [&[16, 0, 0, 0][..], &ONE_BYTES, &[0; 4]].concat()),
        (Both { luma: NONE, chroma: NONE }, vec![4, 0, 0, 0, 0, 0, 0, 0, 0, 0, 0, 0]),
        (Luma(TWO), [&[27, 0, 0, 0x40][..], &TWO_BYTES].concat()),
        (Luma(NONE), vec![4, 0, 0, 0x40, 0, 0, 0, 0]),
        (Chroma(TWO), [&[0, 0, 0, 0x80][..], &TWO_BYTES].concat()),
        (Chroma(NONE), vec![0, 0, 0, 0x80, 0, 0, 0, 0]),
    ]
}

/// A stream's rectangles and pairs as a writer takes them.
fn lists(stream: Stream<'_>) -> (Vec<ExclusiveRectangle>, Vec<QuantQuality>) {
    (stream.rectangles().collect(), stream.pairs().collect())
}

#[track_caller]
fn assert_reads_back(bytes: &[u8], parts: PayloadParts<'_>) {
    let payload = Avc444Payload::read(bytes).expect("what was written is read");
    assert_eq!(payload.kind(), parts.kind());
    let (luma, chroma) = match parts {
        PayloadParts::Both { luma, chroma } => (Some(luma), Some(chroma)),
        PayloadParts::Luma(luma) => (Some(luma), None),
        PayloadParts::Chroma(chroma) => (None, Some(chroma)),
    };
    for (found, wanted) in [(payload.luma(), luma), (payload.chroma(), chroma)] {
        assert_eq!(found.is_some(), wanted.is_some());
        let (Some(found), Some(wanted)) = (found, wanted) else { continue };
        let (rectangles, pairs) = lists(found);
        assert_eq!(StreamParts { rectangles: &rectangles, pairs: &pairs, h264: found.h264() }, wanted);
    }
}

#[test]
fn payloads_by_hand() {
    for (parts, bytes) in by_hand() {
        assert_eq!(parts.write().as_ref(), Ok(&bytes), "{parts:?}");
        assert_eq!(parts.size(), Some(bytes.len()));
        assert_reads_back(&bytes, parts);
    }
}

/// Every length of the output from nothing to more than enough; before the call every byte is another one than is wanted there.
#[test]
fn outputs_of_every_length() {
    for (parts, bytes) in by_hand() {
        for room in 0..bytes.len() + 9 {
            let before: Vec<u8> = bytes.iter().map(|byte| !byte).chain([77; 9]).take(room).collect();
            let mut out = before.clone();
            let written = parts.write_into(&mut out);
            if room < bytes.len() {
                assert_eq!((written, out), (Err(WriteError::OutputShort), before), "{parts:?}, {room}");
            } else {
                assert_eq!((written, &out[..bytes.len()]), (Ok(bytes.len()), &bytes[..]), "{parts:?}, {room}");
                assert_eq!(out[bytes.len()..], before[bytes.len()..]);
            }
        }
    }
}

/// A stream by the request's words.
fn stream(parts: &StreamParts<'_>) -> Vec<u8> {
    let mut bytes = u32::try_from(parts.rectangles.len()).expect("a count of 32 bits").to_le_bytes().to_vec();
    for rect in parts.rectangles {
        bytes.extend([rect.left, rect.top, rect.right, rect.bottom].map(u16::to_le_bytes).as_flattened());
    }
    bytes.extend(parts.pairs.iter().flat_map(|pair| pair.to_bytes()));
    bytes.extend(parts.h264);
    bytes
}

#[test]
fn many_rectangles_and_bytes() {
    let rectangles: Vec<_> = (0..3_000_u16).map(|i| rect([i, 65_535 - i, i.wrapping_mul(257), i ^ 0x5A5A])).collect();
    let pairs: Vec<_> = (0..3_000_u16).map(|i| QuantQuality::from(i.to_be_bytes())).collect();
    let h264: Vec<_> = (0..70_000_u32).map(|i| (i.wrapping_mul(2_654_435_761) >> 23).to_le_bytes()[0]).collect();
    for (count, length) in [(1, 65_536), (255, 0), (256, 1), (257, 300), (3_000, 70_000)] {
        let luma = StreamParts { rectangles: &rectangles[..count], pairs: &pairs[..count], h264: &h264[..length] };
        let chroma = StreamParts { rectangles: &rectangles[3_000 - count..], pairs: &pairs[..count], h264: &h264[9..] };
        for (parts, kind, size, streams) in [
            (PayloadParts::Both { luma, chroma }, 0, stream(&luma).len(), [stream(&luma), stream(&chroma)].concat()),
            (PayloadParts::Luma(luma), 1, stream(&luma).len(), stream(&luma)),
            (PayloadParts::Chroma(luma), 2, 0, stream(&luma)),
        ] {
            let first = kind << 30 | u32::try_from(size).expect("a size of 30 bits");
            let bytes = [&first.to_le_bytes()[..], &streams].concat();
            assert_eq!(parts.size(), Some(bytes.len()));
            assert!(parts.write().as_ref() == Ok(&bytes), "{parts:?}");
            assert_reads_back(&bytes, parts);
        }
    }
}

/// A payload whose size is the standard's is written back to the same bytes from what was read of it.
#[test]
fn what_was_read_is_written_back() {
    for (_, bytes) in by_hand() {
        let payload = Avc444Payload::read(&bytes).expect("a payload");
        let [luma, chroma] = [payload.luma(), payload.chroma()].map(|stream| stream.map(lists).unwrap_or_default());
        let [luma, chroma] =
            [(&luma, payload.luma()), (&chroma, payload.chroma())].map(|((rectangles, pairs), stream)| StreamParts {
                rectangles,
                pairs,
                h264: stream.map_or(&[], |stream| stream.h264()),
            });
        let parts = match payload.kind() {
            PayloadKind::Both => PayloadParts::Both { luma, chroma },
            PayloadKind::Luma => PayloadParts::Luma(luma),
            PayloadKind::Chroma => PayloadParts::Chroma(chroma),
        };
        assert_eq!(parts.write(), Ok(bytes));
    }
}

/// Pairs are refused before a stream that is too long, and that before an output that is too short.
#[test]
fn each_refusal_in_its_order() {
    use PayloadParts::{Both, Chroma, Luma};
    use WriteError::{OutputShort, PairsUneven, StreamLong};
    let zeros = vec![0; LIMIT]; // never read, so that the system need not provide it
    let refused = |parts: PayloadParts<'_>, room: usize| {
        let mut out = vec![9; room];
        let error = parts.write_into(&mut out).expect_err("a refusal");
        assert_eq!(out, vec![9; room]);
        assert_eq!(parts.write(), Err(error));
        error
    };
    for long in [NONE, StreamParts { h264: &zeros, ..NONE }] {
        for pairs in [&[pair(1, 2)][..], &[pair(1, 2); 3], &[]] {
            let uneven = StreamParts { pairs, ..if pairs.is_empty() { ONE } else { TWO } };
            for parts in [
                Both { luma: uneven, chroma: long },
                Both { luma: long, chroma: uneven },
                Luma(StreamParts { h264: long.h264, ..uneven }),
                Chroma(StreamParts { h264: long.h264, ..uneven }),
            ] {
                assert_eq!([0, 200].map(|room| refused(parts, room)), [PairsUneven; 2], "{parts:?}");
            }
        }
    }
    // As many pairs as rectangles in all, but not in each stream.
    let (luma, chroma) = (StreamParts { pairs: ONE.pairs, ..TWO }, StreamParts { pairs: TWO.pairs, ..ONE });
    assert_eq!(refused(Both { luma, chroma }, 200), PairsUneven);
    // 4 + 8 x 2 + 2 x 2 bytes stand before the H.264 bytes of TWO, and 4 before those of NONE.
    for (stream, before) in [(TWO, 24), (NONE, 4)] {
        let long = StreamParts { h264: &zeros[..LIMIT - before], ..stream };
        for parts in [Both { luma: long, chroma: long }, Luma(long), Chroma(long)] {
            assert_eq!([0, 200].map(|room| refused(parts, room)), [StreamLong; 2], "{parts:?}");
        }
        let most = StreamParts { h264: &zeros[..LIMIT - before - 1], ..stream };
        for (parts, size) in [
            (Both { luma: most, chroma: ONE }, LIMIT + 3 + 16),
            (Both { luma: ONE, chroma: long }, LIMIT + 4 + 16),
            (Luma(most), LIMIT + 3),
            (Chroma(most), LIMIT + 3),
        ] {
            assert_eq!(parts.write_into(&mut [0; 200]), Err(OutputShort), "{parts:?}");
            assert_eq!(parts.size(), Some(size), "{parts:?}");
        }
    }
}

#[test]
fn errors_have_a_number_and_a_text() {
    use WriteError::{OutputShort, PairsUneven, StreamLong};
    for (error, number, text) in [
        (OutputShort, 6, "output shorter than the AVC444 payload"),
        (PairsUneven, 7, "AVC444 stream without one pair for each rectangle"),
        (StreamLong, 11, "first AVC444 stream of 2^30 bytes or more, or 2^32 rectangles or more"),
    ] {
        assert_eq!(error.number(), number);
        let error: Box<dyn std::error::Error + Send + Sync> = error.into();
        assert_eq!(error.to_string(), text);
    }
}

/// Every quantiser byte is made again from what is read of it, and a value that six bits cannot have is none.
#[test]
fn every_quantiser_byte() {
    for byte in 0..=255_u8 {
        let quality = byte.wrapping_mul(7);
        let pair = QuantQuality::new(byte % 64, quality).expect("six bits of value");
        let pair = pair.with_reserved(byte / 64 % 2 == 1).with_progressive(byte / 128 == 1);
        assert_eq!(pair.to_bytes(), [byte, quality]);
        assert_eq!(
            (pair.value(), pair.reserved(), pair.progressive(), pair.quality()),
            (byte % 64, byte / 64 % 2 == 1, byte / 128 == 1, quality)
        );
        assert_eq!((QuantQuality::from([byte, quality]), <[u8; 2]>::from(pair)), (pair, [byte, quality]));
        assert_eq!(pair.with_reserved(false).with_progressive(false).to_bytes(), [byte % 64, quality]);
        let pairs = [pair];
        let parts = PayloadParts::Luma(StreamParts { rectangles: &RECTS[..1], pairs: &pairs, h264: &[] });
        let bytes = parts.write().expect("a pair for its rectangle");
        let luma = Avc444Payload::read(&bytes).expect("it was written").luma().expect("kind 1");
        assert!(luma.pairs().eq([pair]));
        assert_eq!(luma.pair_list(), [pair]);
        assert_eq!(QuantQuality::new(byte, quality).is_some(), byte < 64);
    }
}

#[test]
fn debug_says_what_is_carried_and_not_its_bytes() {
    assert_eq!(format!("{:?}", PayloadParts::Luma(TWO)), "Luma(StreamParts { rectangles: 2, pairs: 2, h264_len: 3 })");
}
