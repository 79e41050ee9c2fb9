//! The library's functions. All that is unsafe in the runs is below this file: bind/rust's own calls, and here the four functions that no
//! header has, since nothing but a comparison calls them.

#[path = "../../../bind/rust/src/library/calls/mod.rs"]
mod calls;

pub use calls::*;
pub use haythaw_sys::{Answer, Checked, Pair, Pixels, Places, Rectangle, Row, Views};

#[repr(C)]
struct Yuv {
    y: u8,
    u: u8,
    v: u8,
}

#[repr(C)]
struct Pixel {
    bytes: [u8; 4],
}

#[repr(C)]
struct Undone {
    value: u8,
    applied: bool,
}

// SAFETY: the names and the types are those of crates/haythaw. Each function marked safe takes bytes by value
// and is proved to answer for all of them.
unsafe extern "C" {
    safe fn haythaw_forward(r: u8, g: u8, b: u8) -> Yuv;
    safe fn haythaw_reverse(y: u8, u: u8, v: u8) -> Pixel;
    safe fn haythaw_average(a: u8, b: u8, c: u8, d: u8) -> u8;
    safe fn haythaw_filter(a: u8, b: u8, c: u8, d: u8) -> Undone;
}

/// The forward transform: Y, U, V.
#[inline]
pub fn forward(r: u8, g: u8, b: u8) -> [u8; 3] {
    let Yuv { y, u, v } = haythaw_forward(r, g, b);
    [y, u, v]
}

/// The reverse transform: R, G, B, alpha.
#[inline]
pub fn reverse(y: u8, u: u8, v: u8) -> [u8; 4] {
    haythaw_reverse(y, u, v).bytes
}

/// The average of a 2x2 block.
#[inline]
pub fn average(a: u8, b: u8, c: u8, d: u8) -> u8 {
    haythaw_average(a, b, c, d)
}

/// The reverse chroma filter of the even-even sample, then right, below and diagonal: the value, and 1 where it was applied, else 0.
#[inline]
pub fn filter(a: u8, b: u8, c: u8, d: u8) -> [u8; 2] {
    let Undone { value, applied } = haythaw_filter(a, b, c, d);
    [value, applied.into()]
}
