//! The AVC444 payload.

use haythaw_sys::{Answer, Avc444, Pair, Rectangle};

/// Functions of the library that read a payload, and perhaps one rectangle or pair of it, each in safe Rust.
macro_rules! reading {
    ($($(#[$about:meta])* $name:ident is $symbol:ident($($i:ident: $type:ty)?) -> $result:ty;)*) => {
        $($(#[$about])*
        #[inline]
        pub fn $name(payload: &[u8], $($i: $type)?) -> $result {
            // SAFETY: pointer and count are of one slice, which is read alone.
            unsafe { haythaw_sys::$symbol(payload.as_ptr(), payload.len(), $($i)?) }
        })*
    };
}

reading! {
    /// Which streams a payload carries, and where.
    avc444_read is haythaw_avc444_read() -> Avc444;
    /// Rectangle i of the luma stream.
    avc444_luma_rectangle is haythaw_avc444_luma_rectangle(i: usize) -> Rectangle;
    /// Rectangle i of the chroma stream.
    avc444_chroma_rectangle is haythaw_avc444_chroma_rectangle(i: usize) -> Rectangle;
    /// Pair i of the luma stream.
    avc444_luma_pair is haythaw_avc444_luma_pair(i: usize) -> Pair;
    /// Pair i of the chroma stream.
    avc444_chroma_pair is haythaw_avc444_chroma_pair(i: usize) -> Pair;
}

/// Functions of the library that copy a stream's rectangles, each in safe Rust.
macro_rules! copying {
    ($($(#[$about:meta])* $name:ident is $symbol:ident;)*) => {
        $($(#[$about])*
        #[inline]
        pub fn $name(payload: &[u8], out: &mut [u16]) -> Answer {
            // SAFETY: each pointer and count are of one slice, and the one that is written is borrowed for that alone.
            unsafe { haythaw_sys::$symbol(payload.as_ptr(), payload.len(), out.as_mut_ptr(), out.len()) }
        })*
    };
}

copying! {
    /// The rectangles of the luma stream, four numbers each. 0, 9, 8, 10 or 6.
    avc444_luma_rects is haythaw_avc444_luma_rects;
    /// The rectangles of the chroma stream, four numbers each. 0, 9, 8, 10 or 6.
    avc444_chroma_rects is haythaw_avc444_chroma_rects;
}

/// What a stream is written from: a list of rectangles in fours, two bytes for each rectangle, and its H.264 bytes.
#[derive(Clone, Copy)]
pub struct Given<'a> {
    pub rects: &'a [u16],
    pub pairs: &'a [u8],
    pub data: &'a [u8],
}

/// The payload of a kind. 0, 8, 7, 11 or 6.
#[inline]
pub fn avc444_write(kind: u32, luma: Given<'_>, chroma: Given<'_>, out: &mut [u8]) -> Answer {
    // SAFETY: each pointer and count are of one slice, and the one that is written is borrowed for that alone.
    unsafe {
        haythaw_sys::haythaw_avc444_write(
            kind,
            luma.rects.as_ptr(),
            luma.rects.len(),
            luma.pairs.as_ptr(),
            luma.pairs.len(),
            luma.data.as_ptr(),
            luma.data.len(),
            chroma.rects.as_ptr(),
            chroma.rects.len(),
            chroma.pairs.as_ptr(),
            chroma.pairs.len(),
            chroma.data.as_ptr(),
            chroma.data.len(),
            out.as_mut_ptr(),
            out.len(),
        )
    }
}
