//! The AVC444 payload.

use crate::Answer;

/// `haythaw_stream`: where the parts of a stream are in the payload that was lent.
#[repr(C)]
#[derive(Debug, Clone, Copy, PartialEq, Eq)]
pub struct Places {
    /// How many rectangles there are, and pairs.
    pub count: usize,
    /// Where the rectangles start.
    pub rects: usize,
    /// Where the pairs start.
    pub pairs: usize,
    /// Where the H.264 bytes start.
    pub data: usize,
    /// How many H.264 bytes there are.
    pub length: usize,
}

/// `haythaw_avc444`: what a payload carries.
#[repr(C)]
#[derive(Debug, Clone, Copy, PartialEq, Eq)]
pub struct Avc444 {
    /// 0, 9, 8 or 10.
    pub number: u32,
    /// 0 luma and chroma, 1 luma alone, 2 chroma alone.
    pub kind: u32,
    /// The luma stream.
    pub luma: Places,
    /// The chroma stream.
    pub chroma: Places,
}

/// `haythaw_rectangle`: a rectangle of a stream.
#[repr(C)]
#[derive(Debug, Clone, Copy, PartialEq, Eq)]
pub struct Rectangle {
    /// The payload's number.
    pub number: u32,
    /// Whether the stream has it.
    pub present: bool,
    /// The first column inside.
    pub left: u16,
    /// The first row inside.
    pub top: u16,
    /// The first column to the right of it.
    pub right: u16,
    /// The first row below it.
    pub bottom: u16,
}

/// `haythaw_pair`: a pair of a stream.
#[repr(C)]
#[derive(Debug, Clone, Copy, PartialEq, Eq)]
pub struct Pair {
    /// The payload's number.
    pub number: u32,
    /// Whether the stream has it.
    pub present: bool,
    /// The quantiser, 0 to 63.
    pub value: u8,
    /// Bit 6 of the quantiser byte.
    pub reserved: bool,
    /// Bit 7 of the quantiser byte.
    pub progressive: bool,
    /// The quality byte.
    pub quality: u8,
}

unsafe extern "C" {
    /// Which streams a payload carries, and where.
    pub fn haythaw_avc444_read(payload: *const u8, payload_count: usize) -> Avc444;
    /// Rectangle i of the luma stream.
    pub fn haythaw_avc444_luma_rectangle(payload: *const u8, payload_count: usize, i: usize) -> Rectangle;
    /// Rectangle i of the chroma stream.
    pub fn haythaw_avc444_chroma_rectangle(payload: *const u8, payload_count: usize, i: usize) -> Rectangle;
    /// Pair i of the luma stream.
    pub fn haythaw_avc444_luma_pair(payload: *const u8, payload_count: usize, i: usize) -> Pair;
    /// Pair i of the chroma stream.
    pub fn haythaw_avc444_chroma_pair(payload: *const u8, payload_count: usize, i: usize) -> Pair;
    /// The rectangles of the luma stream, four numbers each. 0, 9, 8, 10 or 6.
    pub fn haythaw_avc444_luma_rects(
        payload: *const u8,
        payload_count: usize,
        out: *mut u16,
        out_count: usize,
    ) -> Answer;
    /// The rectangles of the chroma stream, four numbers each. 0, 9, 8, 10 or 6.
    pub fn haythaw_avc444_chroma_rects(
        payload: *const u8,
        payload_count: usize,
        out: *mut u16,
        out_count: usize,
    ) -> Answer;
    /// The payload of a kind. 0, 8, 7, 11 or 6.
    pub fn haythaw_avc444_write(
        kind: u32,
        luma_rects: *const u16,
        luma_rects_count: usize,
        luma_pairs: *const u8,
        luma_pairs_count: usize,
        luma_data: *const u8,
        luma_data_count: usize,
        chroma_rects: *const u16,
        chroma_rects_count: usize,
        chroma_pairs: *const u8,
        chroma_pairs_count: usize,
        chroma_data: *const u8,
        chroma_data_count: usize,
        out: *mut u8,
        out_count: usize,
    ) -> Answer;
}
