//! The AVC444 payload: which streams it carries, and their parts as slices of it; and the payload written from such parts.
//!
//! `RFX_AVC444_BITMAP_STREAM` (MS-RDPEGFX 2.2.4.5; V2 has the same frame) is a number with a size and a kind, then one or two AVC420
//! streams. A stream is a count, that many rectangles, that many pairs of quantiser and quality, and its H.264 bytes. All numbers are
//! little-endian. The library finds every part and reads every number; nothing is copied or allocated. It also writes every byte of a
//! payload, into a slice that the caller lends or into a `Vec` ([`PayloadParts`]).
//!
//! This is not the original's `Avc444BitmapStream`: it borrows where that one collects, and has names of its own.

use core::fmt;
use core::iter::FusedIterator;
use core::ops::Range;

use crate::geometry::ExclusiveRectangle;
use crate::library::{self, Given, Pair, Places, Rectangle};

/// An AVC444 payload that was read: its kind, and the streams that it carries.
///
/// ```
/// use haythaw::avc444_payload::{Avc444Payload, PayloadKind};
///
/// // Kind 0. The luma stream has 4 + 10 + 3 = 17 bytes and one rectangle; the chroma stream is what follows, and has none.
/// let bytes = [
///     17, 0, 0, 0, // size and kind
///     1, 0, 0, 0, 0, 0, 0, 0, 64, 0, 32, 0, 22, 100, 0x67, 0x42, 0x1F, // luma
///     0, 0, 0, 0, 0x68, 0xCE, // chroma
/// ];
/// let payload = Avc444Payload::read(&bytes)?;
/// assert_eq!(payload.kind(), PayloadKind::Both);
///
/// let luma = payload.luma().expect("kind 0 has it");
/// let rect = luma.rectangles().next().expect("one rectangle");
/// assert_eq!((rect.left, rect.top, rect.right, rect.bottom), (0, 0, 64, 32));
/// assert_eq!(luma.h264(), [0x67, 0x42, 0x1F]);
///
/// let chroma = payload.chroma().expect("kind 0 has it");
/// assert_eq!((chroma.count(), chroma.h264()), (0, &[0x68, 0xCE][..]));
/// # Ok::<(), haythaw::avc444_payload::ReadError>(())
/// ```
#[derive(Clone, Copy)]
pub struct Avc444Payload<'a> {
    kind: PayloadKind,
    luma: Option<Stream<'a>>,
    chroma: Option<Stream<'a>>,
}

impl<'a> Avc444Payload<'a> {
    /// Reads a payload. It looks at the counts and not at what is counted, so that a count costs no time, however large it is.
    ///
    /// In kind 0 the size says where the luma stream ends and the chroma stream starts. In the other kinds the one stream runs to the
    /// payload's end, and the size has to lie within the payload and says nothing else.
    ///
    /// # Errors
    ///
    /// The first of these that holds: [`ReadError::PayloadShort`] when the payload is below 4 bytes, [`ReadError::KindUnknown`],
    /// [`ReadError::PayloadShort`] when the size runs past the payload, [`ReadError::StreamShort`].
    ///
    /// ```
    /// use haythaw::avc444_payload::{Avc444Payload, ReadError};
    ///
    /// assert!(Avc444Payload::read(&[4, 0, 0, 0x40, 0, 0, 0, 0]).is_ok()); // luma alone, no rectangle, no H.264 byte
    /// assert_eq!(Avc444Payload::read(&[4, 0, 0]).unwrap_err(), ReadError::PayloadShort);
    /// assert_eq!(Avc444Payload::read(&[4, 0, 0, 0xC0, 0, 0, 0, 0]).unwrap_err(), ReadError::KindUnknown);
    /// assert_eq!(Avc444Payload::read(&[5, 0, 0, 0x40, 0, 0, 0, 0]).unwrap_err(), ReadError::PayloadShort);
    /// assert_eq!(Avc444Payload::read(&[4, 0, 0, 0x40, 1, 0, 0, 0]).unwrap_err(), ReadError::StreamShort);
    /// ```
    pub fn read(payload: &'a [u8]) -> Result<Self, ReadError> {
        let read = library::avc444_read(payload);
        ReadError::of("avc444_read", read.number)?;
        let luma = Some(Stream { payload, which: Which::Luma, places: read.luma });
        let chroma = Some(Stream { payload, which: Which::Chroma, places: read.chroma });
        Ok(match read.kind {
            0 => Self { kind: PayloadKind::Both, luma, chroma },
            1 => Self { kind: PayloadKind::Luma, luma, chroma: None },
            2 => Self { kind: PayloadKind::Chroma, luma: None, chroma },
            kind => panic!("haythaw: avc444_read answered kind {kind}"),
        })
    }

    /// What the payload carries.
    pub fn kind(&self) -> PayloadKind {
        self.kind
    }

    /// The luma stream, which holds the main view, or `None` if the payload does not carry it.
    pub fn luma(&self) -> Option<Stream<'a>> {
        self.luma
    }

    /// The chroma stream, which holds the auxiliary view, or `None` if the payload does not carry it.
    pub fn chroma(&self) -> Option<Stream<'a>> {
        self.chroma
    }
}

impl fmt::Debug for Avc444Payload<'_> {
    fn fmt(&self, f: &mut fmt::Formatter<'_>) -> fmt::Result {
        f.debug_struct("Avc444Payload").field("luma", &self.luma).field("chroma", &self.chroma).finish()
    }
}

/// Which streams a payload carries.
#[derive(Debug, Clone, Copy, PartialEq, Eq)]
pub enum PayloadKind {
    /// Kind 0: luma, then chroma.
    Both,
    /// Kind 1: luma alone.
    Luma,
    /// Kind 2: chroma alone.
    Chroma,
}

/// Which of the two streams, and so which calls of the library read it.
#[derive(Clone, Copy)]
enum Which {
    Luma,
    Chroma,
}

/// A stream of a payload. Its parts are slices of that payload, and live as long as it does.
///
/// ```
/// use haythaw::avc444_payload::Avc444Payload;
///
/// fn h264_of_luma(bytes: &[u8]) -> Option<&[u8]> {
///     Some(Avc444Payload::read(bytes).ok()?.luma()?.h264())
/// }
/// let bytes = [0, 0, 0, 0x40, 0, 0, 0, 0, 0x67, 0x42];
/// assert!(std::ptr::eq(h264_of_luma(&bytes).expect("luma alone"), &bytes[8..]));
/// ```
#[derive(Clone, Copy)]
pub struct Stream<'a> {
    // INVARIANT: the library read `payload`, found it to carry this stream, and answered these places.
    payload: &'a [u8],
    which: Which,
    places: Places,
}

impl<'a> Stream<'a> {
    /// How many rectangles there are, and as many pairs.
    pub fn count(&self) -> usize {
        self.places.count
    }

    /// The rectangles as they stand in the payload, eight bytes each.
    pub fn rectangle_bytes(&self) -> &'a [u8] {
        &self.payload[self.places.rects..self.places.pairs]
    }

    /// The pairs as they stand in the payload, a quantiser byte and a quality byte each.
    pub fn pair_bytes(&self) -> &'a [u8] {
        &self.payload[self.places.pairs..self.places.data]
    }

    /// The pairs where they stand in the payload, as [`StreamParts`] takes them.
    ///
    /// ```
    /// use haythaw::{Avc444Payload, PayloadParts, QuantQuality, StreamParts};
    ///
    /// // What was read is written again, with no rectangle changed and other H.264 bytes.
    /// let bytes = [14, 0, 0, 0x40, 1, 0, 0, 0, 0, 0, 0, 0, 16, 0, 16, 0, 0x96, 100];
    /// let luma = Avc444Payload::read(&bytes)?.luma().expect("kind 1 has it");
    /// assert_eq!(luma.pair_list(), [QuantQuality::from_bytes([0x96, 100])]);
    /// let rectangles: Vec<_> = luma.rectangles().collect();
    /// let parts = StreamParts { rectangles: &rectangles, pairs: luma.pair_list(), h264: luma.h264() };
    /// assert_eq!(PayloadParts::Luma(parts).write()?, bytes);
    /// # Ok::<(), Box<dyn std::error::Error>>(())
    /// ```
    pub fn pair_list(&self) -> &'a [QuantQuality] {
        library::pairs_of(self.pair_bytes())
    }

    /// The H.264 bytes.
    pub fn h264(&self) -> &'a [u8] {
        &self.payload[self.places.data..self.places.data + self.places.length]
    }

    /// The rectangles. Any four numbers are one: they are not compared with each other or with a picture.
    ///
    /// ```
    /// use haythaw::avc444_payload::Avc444Payload;
    ///
    /// let bytes = [0, 0, 0, 0x80, 2, 0, 0, 0, 1, 0, 2, 0, 3, 0, 4, 0, 0, 1, 6, 0, 7, 0, 8, 0, 22, 100, 22, 100];
    /// let chroma = Avc444Payload::read(&bytes)?.chroma().expect("kind 2 has it");
    /// assert_eq!(chroma.rectangles().len(), 2);
    /// assert_eq!(chroma.rectangles().map(|rect| rect.left).collect::<Vec<_>>(), [1, 256]);
    /// assert_eq!(chroma.rectangles().rev().map(|rect| rect.top).collect::<Vec<_>>(), [6, 2]);
    /// # Ok::<(), haythaw::avc444_payload::ReadError>(())
    /// ```
    pub fn rectangles(&self) -> Each<'a, ExclusiveRectangle> {
        self.each(match self.which {
            Which::Luma => |payload, i| rectangle(library::avc444_luma_rectangle(payload, i)),
            Which::Chroma => |payload, i| rectangle(library::avc444_chroma_rectangle(payload, i)),
        })
    }

    /// The pairs of quantiser and quality, one for each rectangle.
    ///
    /// ```
    /// use haythaw::avc444_payload::{Avc444Payload, QuantQuality};
    ///
    /// let bytes = [0, 0, 0, 0x40, 1, 0, 0, 0, 0, 0, 0, 0, 16, 0, 16, 0, 0x96, 100];
    /// let luma = Avc444Payload::read(&bytes)?.luma().expect("kind 1 has it");
    /// let pair = QuantQuality::new(22, 100).expect("at most 63").with_progressive(true);
    /// assert!(luma.pairs().eq([pair]));
    /// # Ok::<(), haythaw::avc444_payload::ReadError>(())
    /// ```
    pub fn pairs(&self) -> Each<'a, QuantQuality> {
        self.each(match self.which {
            Which::Luma => |payload, i| pair(library::avc444_luma_pair(payload, i)),
            Which::Chroma => |payload, i| pair(library::avc444_chroma_pair(payload, i)),
        })
    }

    /// Copies the rectangles into `out`, and gives how many they are. What `out` has after them stays.
    ///
    /// # Errors
    ///
    /// [`ReadError::OutputShort`] when `out` has room for fewer. Then nothing is written.
    ///
    /// ```
    /// use haythaw::avc444_payload::{Avc444Payload, ReadError};
    /// use haythaw::geometry::ExclusiveRectangle;
    ///
    /// let bytes = [0, 0, 0, 0x40, 1, 0, 0, 0, 0, 0, 0, 0, 16, 0, 0, 1, 22, 100];
    /// let luma = Avc444Payload::read(&bytes)?.luma().expect("kind 1 has it");
    /// let mut list = [ExclusiveRectangle::from([9; 4]); 2];
    /// assert_eq!(luma.copy_rectangle_list(&mut list)?, 1);
    /// assert_eq!(list.map(<[u16; 4]>::from), [[0, 0, 16, 256], [9; 4]]);
    /// assert_eq!(luma.copy_rectangle_list(&mut []), Err(ReadError::OutputShort));
    /// # Ok::<(), ReadError>(())
    /// ```
    pub fn copy_rectangle_list(&self, out: &mut [ExclusiveRectangle]) -> Result<usize, ReadError> {
        Ok(self.copy_rectangles(library::numbers_of_mut(out))? / 4)
    }

    /// The same into numbers, four for each rectangle (left, top, right, bottom); gives how many numbers that are.
    ///
    /// # Errors
    ///
    /// [`ReadError::OutputShort`] when `out` is shorter than four numbers for each rectangle. Then nothing is written.
    ///
    /// ```
    /// use haythaw::avc444_payload::{Avc444Payload, ReadError};
    ///
    /// let bytes = [0, 0, 0, 0x40, 1, 0, 0, 0, 0, 0, 0, 0, 16, 0, 0, 1, 22, 100];
    /// let luma = Avc444Payload::read(&bytes)?.luma().expect("kind 1 has it");
    /// let mut numbers = [9; 5];
    /// assert_eq!(luma.copy_rectangles(&mut numbers)?, 4);
    /// assert_eq!(numbers, [0, 0, 16, 256, 9]);
    /// assert_eq!(luma.copy_rectangles(&mut numbers[..3]), Err(ReadError::OutputShort));
    /// # Ok::<(), ReadError>(())
    /// ```
    pub fn copy_rectangles(&self, out: &mut [u16]) -> Result<usize, ReadError> {
        let answer = match self.which {
            Which::Luma => library::avc444_luma_rects(self.payload, out),
            Which::Chroma => library::avc444_chroma_rects(self.payload, out),
        };
        ReadError::of("avc444_rects", answer.number)?;
        Ok(answer.count)
    }

    fn each<T>(&self, at: fn(&[u8], usize) -> T) -> Each<'a, T> {
        Each { payload: self.payload, at, left: 0..self.places.count }
    }
}

impl fmt::Debug for Stream<'_> {
    fn fmt(&self, f: &mut fmt::Formatter<'_>) -> fmt::Result {
        f.debug_struct("Stream")
            .field("count", &self.count())
            .field("h264_len", &self.h264().len())
            .finish_non_exhaustive()
    }
}

/// The rectangle that the library read.
fn rectangle(found: Rectangle) -> ExclusiveRectangle {
    counted("avc444_rectangle", found.number, found.present);
    ExclusiveRectangle { left: found.left, top: found.top, right: found.right, bottom: found.bottom }
}

/// The pair that the library read.
fn pair(found: Pair) -> QuantQuality {
    counted("avc444_pair", found.number, found.present);
    let pair = QuantQuality::new(found.value, found.quality).expect("haythaw: avc444_pair answered a value above 63");
    pair.with_reserved(found.reserved).with_progressive(found.progressive)
}

/// Goes on after a call for what the library itself has counted.
#[track_caller]
fn counted(call: &str, number: u32, present: bool) {
    library::done(call, number);
    assert!(present, "haythaw: {call} did not find what avc444_read counted");
}

/// How one rectangle's part of the picture was coded: a quantiser and a quality, for the reader and for the writer.
///
/// ```
/// use haythaw::avc444_payload::QuantQuality;
///
/// let pair = QuantQuality::new(22, 100).expect("at most 63").with_progressive(true);
/// assert_eq!((pair.value(), pair.reserved(), pair.progressive(), pair.quality()), (22, false, true, 100));
/// assert_eq!(pair.to_bytes(), [0x96, 100]);
/// assert_eq!(QuantQuality::from_bytes([0x96, 100]), pair);
/// assert_eq!(QuantQuality::new(64, 100), None);
/// ```
// The library takes a list of pairs as bytes in twos, in this order: `library::bytes_of` counts on it.
#[repr(transparent)]
#[derive(Clone, Copy, PartialEq, Eq, Hash)]
pub struct QuantQuality([u8; 2]);

impl QuantQuality {
    const VALUE: u8 = 0x3F;
    const RESERVED: u8 = 0x40;
    const PROGRESSIVE: u8 = 0x80;

    /// A pair that is not progressive, or `None` where `value` is above 63 and has no room in its byte.
    pub const fn new(value: u8, quality: u8) -> Option<Self> {
        if value <= Self::VALUE {
            Some(Self([value, quality]))
        } else {
            None
        }
    }

    /// The pair that a payload has these two bytes for: quantiser and quality. Any two are one.
    pub const fn from_bytes(bytes: [u8; 2]) -> Self {
        Self(bytes)
    }

    /// The two bytes that a payload has for it: quantiser and quality.
    pub const fn to_bytes(self) -> [u8; 2] {
        self.0
    }

    /// The pairs of a list of bytes, which is lent and not copied.
    ///
    /// ```
    /// use haythaw::avc444_payload::QuantQuality;
    ///
    /// assert_eq!(QuantQuality::list(&[[22, 100], [0x96, 50]])[1].value(), 22);
    /// ```
    pub fn list(bytes: &[[u8; 2]]) -> &[Self] {
        library::pairs_of(bytes.as_flattened())
    }

    /// The quantiser: the low six bits of its byte, 0 to 63.
    pub const fn value(self) -> u8 {
        self.0[0] & Self::VALUE
    }

    /// Bit 6 of the quantiser byte, which the standard reserves.
    pub const fn reserved(self) -> bool {
        self.0[0] & Self::RESERVED != 0
    }

    /// Bit 7 of the quantiser byte: the part is coded progressively.
    pub const fn progressive(self) -> bool {
        self.0[0] & Self::PROGRESSIVE != 0
    }

    /// The quality byte.
    pub const fn quality(self) -> u8 {
        self.0[1]
    }

    /// The same pair with bit 6 of the quantiser byte so.
    pub const fn with_reserved(self, reserved: bool) -> Self {
        self.with(Self::RESERVED, reserved)
    }

    /// The same pair, coded progressively or not.
    pub const fn with_progressive(self, progressive: bool) -> Self {
        self.with(Self::PROGRESSIVE, progressive)
    }

    const fn with(self, bit: u8, set: bool) -> Self {
        let [quantiser, quality] = self.0;
        Self([if set { quantiser | bit } else { quantiser & !bit }, quality])
    }
}

impl From<[u8; 2]> for QuantQuality {
    fn from(bytes: [u8; 2]) -> Self {
        Self::from_bytes(bytes)
    }
}

impl From<QuantQuality> for [u8; 2] {
    fn from(pair: QuantQuality) -> Self {
        pair.to_bytes()
    }
}

impl fmt::Debug for QuantQuality {
    fn fmt(&self, f: &mut fmt::Formatter<'_>) -> fmt::Result {
        f.debug_struct("QuantQuality")
            .field("value", &self.value())
            .field("reserved", &self.reserved())
            .field("progressive", &self.progressive())
            .field("quality", &self.quality())
            .finish()
    }
}

/// The rectangles or the pairs of a stream, each read by the library when it is asked for.
///
/// From both ends, and any of them at once with `nth`.
#[derive(Clone)]
pub struct Each<'a, T> {
    payload: &'a [u8],
    at: fn(&[u8], usize) -> T,
    left: Range<usize>,
}

impl<T> Iterator for Each<'_, T> {
    type Item = T;

    fn next(&mut self) -> Option<T> {
        self.left.next().map(|i| (self.at)(self.payload, i))
    }

    fn nth(&mut self, n: usize) -> Option<T> {
        self.left.nth(n).map(|i| (self.at)(self.payload, i))
    }

    fn size_hint(&self) -> (usize, Option<usize>) {
        self.left.size_hint()
    }

    fn count(self) -> usize {
        self.left.len()
    }

    fn last(mut self) -> Option<T> {
        self.next_back()
    }
}

impl<T> DoubleEndedIterator for Each<'_, T> {
    fn next_back(&mut self) -> Option<T> {
        self.left.next_back().map(|i| (self.at)(self.payload, i))
    }

    fn nth_back(&mut self, n: usize) -> Option<T> {
        self.left.nth_back(n).map(|i| (self.at)(self.payload, i))
    }
}

impl<T> ExactSizeIterator for Each<'_, T> {}

impl<T> FusedIterator for Each<'_, T> {}

impl<T: Clone + fmt::Debug> fmt::Debug for Each<'_, T> {
    fn fmt(&self, f: &mut fmt::Formatter<'_>) -> fmt::Result {
        f.debug_list().entries(self.clone()).finish()
    }
}

/// Why a payload was not read, or its rectangles not copied.
///
/// ```
/// use haythaw::avc444_payload::{Avc444Payload, ReadError};
///
/// let error = Avc444Payload::read(&[0, 0, 0, 0xC0]).unwrap_err();
/// assert_eq!((error, error.number()), (ReadError::KindUnknown, 8));
/// assert_eq!(error.to_string(), "AVC444 payload of the unknown kind 3");
/// ```
#[derive(Debug, Clone, Copy, PartialEq, Eq)]
#[non_exhaustive]
pub enum ReadError {
    /// The output is shorter than four numbers for each rectangle.
    OutputShort,
    /// The kind is 3.
    KindUnknown,
    /// The payload is below 4 bytes, or its size runs past it.
    PayloadShort,
    /// The count, a rectangle or a pair of a stream runs past that stream.
    StreamShort,
}

impl ReadError {
    /// The library's number for it: 6, 8, 9 or 10.
    pub fn number(self) -> u32 {
        match self {
            Self::OutputShort => 6,
            Self::KindUnknown => 8,
            Self::PayloadShort => 9,
            Self::StreamShort => 10,
        }
    }

    /// Goes on after a call that answered 0.
    #[track_caller]
    fn of(call: &str, number: u32) -> Result<(), Self> {
        let all = [Self::OutputShort, Self::KindUnknown, Self::PayloadShort, Self::StreamShort];
        if let Some(error) = all.into_iter().find(|error| error.number() == number) {
            return Err(error);
        }
        library::done(call, number);
        Ok(())
    }
}

impl fmt::Display for ReadError {
    fn fmt(&self, f: &mut fmt::Formatter<'_>) -> fmt::Result {
        f.write_str(match self {
            Self::OutputShort => "output shorter than four numbers for each rectangle",
            Self::KindUnknown => "AVC444 payload of the unknown kind 3",
            Self::PayloadShort => "AVC444 payload shorter than its first number, or than the size in it says",
            Self::StreamShort => "AVC444 stream shorter than its count, rectangles and pairs",
        })
    }
}

impl core::error::Error for ReadError {}

/// What a stream is written from. The default has no rectangle and no H.264 byte.
#[derive(Clone, Copy, Default, PartialEq, Eq)]
pub struct StreamParts<'a> {
    /// The rectangles. Any four numbers are one.
    pub rectangles: &'a [ExclusiveRectangle],
    /// A pair for each rectangle; [`QuantQuality::list`] makes them of bytes.
    pub pairs: &'a [QuantQuality],
    /// The H.264 bytes.
    pub h264: &'a [u8],
}

impl<'a> StreamParts<'a> {
    /// As the library takes them, uncopied.
    fn given(self) -> Given<'a> {
        Given { rects: library::numbers_of(self.rectangles), pairs: library::bytes_of(self.pairs), data: self.h264 }
    }

    /// The stream's bytes, or `None` where `usize` has no such number.
    fn size(self) -> Option<usize> {
        let Given { rects, pairs, data } = self.given();
        rects.len().checked_mul(2)?.checked_add(4)?.checked_add(pairs.len())?.checked_add(data.len())
    }
}

impl fmt::Debug for StreamParts<'_> {
    fn fmt(&self, f: &mut fmt::Formatter<'_>) -> fmt::Result {
        f.debug_struct("StreamParts")
            .field("rectangles", &self.rectangles.len())
            .field("pairs", &self.pairs.len())
            .field("h264_len", &self.h264.len())
            .finish()
    }
}

/// What a payload is written from: the streams that it is to carry.
///
/// ```
/// use haythaw::avc444_payload::{Avc444Payload, PayloadParts, QuantQuality, StreamParts};
/// use haythaw::geometry::ExclusiveRectangle;
///
/// let rectangles = [ExclusiveRectangle { left: 0, top: 0, right: 64, bottom: 32 }];
/// let pairs = [QuantQuality::new(22, 100).expect("at most 63")];
/// let luma = StreamParts { rectangles: &rectangles, pairs: &pairs, h264: &[0x67, 0x42, 0x1F] };
/// let chroma = StreamParts { h264: &[0x68, 0xCE], ..StreamParts::default() };
/// let bytes = PayloadParts::Both { luma, chroma }.write()?;
/// assert_eq!(
///     bytes,
///     [
///         17, 0, 0, 0, // size and kind
///         1, 0, 0, 0, 0, 0, 0, 0, 64, 0, 32, 0, 22, 100, 0x67, 0x42, 0x1F, // luma
///         0, 0, 0, 0, 0x68, 0xCE, // chroma
///     ]
/// );
///
/// let payload = Avc444Payload::read(&bytes).expect("what was written is read");
/// assert!(payload.luma().expect("it is carried").rectangles().eq(rectangles));
/// # Ok::<(), haythaw::avc444_payload::WriteError>(())
/// ```
#[derive(Debug, Clone, Copy, PartialEq, Eq)]
pub enum PayloadParts<'a> {
    /// Kind 0: luma, then chroma.
    Both {
        /// The stream that holds the main view. It has to be shorter than 2^30 bytes.
        luma: StreamParts<'a>,
        /// The stream that holds the auxiliary view, of any length.
        chroma: StreamParts<'a>,
    },
    /// Kind 1: luma alone.
    Luma(StreamParts<'a>),
    /// Kind 2: chroma alone.
    Chroma(StreamParts<'a>),
}

impl PayloadParts<'_> {
    /// What the payload is to carry.
    pub fn kind(&self) -> PayloadKind {
        match self {
            Self::Both { .. } => PayloadKind::Both,
            Self::Luma(_) => PayloadKind::Luma,
            Self::Chroma(_) => PayloadKind::Chroma,
        }
    }

    /// How many bytes the payload has, or `None` where `usize` has no such number.
    ///
    /// ```
    /// use haythaw::avc444_payload::{PayloadParts, StreamParts};
    ///
    /// let parts = PayloadParts::Luma(StreamParts { h264: &[7; 100], ..StreamParts::default() });
    /// assert_eq!(parts.size(), Some(108)); // the first number, a count, and the H.264 bytes
    /// ```
    pub fn size(&self) -> Option<usize> {
        match self {
            Self::Both { luma, chroma } => luma.size()?.checked_add(chroma.size()?)?.checked_add(4),
            Self::Luma(stream) | Self::Chroma(stream) => stream.size()?.checked_add(4),
        }
    }

    /// Writes the payload to the start of `out`, and gives how many bytes that are. What `out` has after them stays.
    ///
    /// The size in the payload is the one that the standard wants: the luma stream's bytes, or 0 where luma is not carried.
    ///
    /// # Errors
    ///
    /// The first of these that holds: [`WriteError::PairsUneven`], [`WriteError::StreamLong`], [`WriteError::OutputShort`]. Then
    /// nothing is written.
    ///
    /// ```
    /// use haythaw::avc444_payload::{PayloadParts, StreamParts, WriteError};
    ///
    /// let mut out = [9; 12];
    /// let parts = PayloadParts::Chroma(StreamParts { h264: &[0x67, 0x42], ..StreamParts::default() });
    /// assert_eq!(parts.write_into(&mut out)?, 10);
    /// assert_eq!(out, [0, 0, 0, 0x80, 0, 0, 0, 0, 0x67, 0x42, 9, 9]);
    /// assert_eq!(parts.write_into(&mut out[..9]), Err(WriteError::OutputShort));
    /// # Ok::<(), WriteError>(())
    /// ```
    pub fn write_into(&self, out: &mut [u8]) -> Result<usize, WriteError> {
        let none = StreamParts::default();
        let (kind, luma, chroma) = match *self {
            Self::Both { luma, chroma } => (0, luma, chroma),
            Self::Luma(luma) => (1, luma, none),
            Self::Chroma(chroma) => (2, none, chroma),
        };
        let answer = library::avc444_write(kind, luma.given(), chroma.given(), out);
        WriteError::of("avc444_write", answer.number)?;
        Ok(answer.count)
    }

    /// The payload in a `Vec` of its own, which is made only where it can be written.
    ///
    /// # Errors
    ///
    /// As for [`write_into`](Self::write_into); [`WriteError::OutputShort`] only where the payload is longer than `usize` has numbers for.
    ///
    /// ```
    /// use haythaw::avc444_payload::{PayloadParts, QuantQuality, StreamParts, WriteError};
    ///
    /// let parts = StreamParts { h264: &[0x67, 0x42], ..StreamParts::default() };
    /// assert_eq!(PayloadParts::Luma(parts).write()?, [6, 0, 0, 0x40, 0, 0, 0, 0, 0x67, 0x42]);
    ///
    /// let uneven = StreamParts { pairs: QuantQuality::list(&[[22, 100]]), ..parts };
    /// assert_eq!(PayloadParts::Luma(uneven).write(), Err(WriteError::PairsUneven));
    /// # Ok::<(), WriteError>(())
    /// ```
    pub fn write(&self) -> Result<Vec<u8>, WriteError> {
        // No payload is empty, so that what is not refused otherwise is refused here for want of room.
        if let Err(error @ (WriteError::PairsUneven | WriteError::StreamLong)) = self.write_into(&mut []) {
            return Err(error);
        }
        let mut out = vec![0; self.size().ok_or(WriteError::OutputShort)?];
        let count = self.write_into(&mut out)?;
        assert_eq!(count, out.len(), "haythaw: avc444_write wrote another payload than was counted");
        Ok(out)
    }
}

/// Why a payload was not written.
///
/// ```
/// use haythaw::avc444_payload::{PayloadParts, StreamParts};
///
/// let error = PayloadParts::Luma(StreamParts::default()).write_into(&mut [0; 7]).unwrap_err();
/// assert_eq!((error.number(), error.to_string()), (6, "output shorter than the AVC444 payload".to_owned()));
/// ```
#[derive(Debug, Clone, Copy, PartialEq, Eq)]
#[non_exhaustive]
pub enum WriteError {
    /// The output is shorter than the payload.
    OutputShort,
    /// A stream has not one pair for each rectangle.
    PairsUneven,
    /// The first stream, its count, rectangles and pairs included, is 2^30 bytes or longer, or a stream has 2^32 rectangles or more.
    StreamLong,
}

impl WriteError {
    /// The library's number for it: 6, 7 or 11.
    pub fn number(self) -> u32 {
        match self {
            Self::OutputShort => 6,
            Self::PairsUneven => 7,
            Self::StreamLong => 11,
        }
    }

    /// Goes on after a call that answered 0.
    #[track_caller]
    fn of(call: &str, number: u32) -> Result<(), Self> {
        let all = [Self::OutputShort, Self::PairsUneven, Self::StreamLong];
        if let Some(error) = all.into_iter().find(|error| error.number() == number) {
            return Err(error);
        }
        library::done(call, number);
        Ok(())
    }
}

impl fmt::Display for WriteError {
    fn fmt(&self, f: &mut fmt::Formatter<'_>) -> fmt::Result {
        f.write_str(match self {
            Self::OutputShort => "output shorter than the AVC444 payload",
            Self::PairsUneven => "AVC444 stream without one pair for each rectangle",
            Self::StreamLong => "first AVC444 stream of 2^30 bytes or more, or 2^32 rectangles or more",
        })
    }
}

impl core::error::Error for WriteError {}
