//! Reads the original's private planes and calls its private functions, for the runs.
//!
//! This is a child module of `avc444`. No function here is inlined into its caller, as no
//! function of the library is: so a call costs both sides the same.

use super::{ExclusiveRectangle, Yuv444Frame};

/// The forward transform: Y, U, V.
#[inline(never)]
pub fn forward(r: u8, g: u8, b: u8) -> [u8; 3] {
    super::rgb_to_yuv(r, g, b).into()
}

/// The reverse transform: R, G, B, alpha.
#[inline(never)]
pub fn reverse(y: u8, u: u8, v: u8) -> [u8; 4] {
    super::yuv_to_rgba(y, u, v)
}

/// The average of a 2x2 block.
#[inline(never)]
pub fn average(a: u8, b: u8, c: u8, d: u8) -> u8 {
    super::average(a, b, c, d)
}

/// The reverse chroma filter: the even-even sample, then right, below and diagonal.
#[inline(never)]
pub fn filter(a: u8, b: u8, c: u8, d: u8) -> u8 {
    super::reverse_filter(a, b, c, d)
}

/// How many samples of U and of V the filter replaces on their way to the pixels of a rectangle: where the original's filter, at the
/// places where its `to_rgba` asks it, answers another value than the sample.
pub fn filtered(picture: &Yuv444Frame, rect: &ExclusiveRectangle) -> [usize; 2] {
    let rows = usize::from(rect.top)..usize::from(rect.bottom.min(picture.height));
    let columns = usize::from(rect.left)..usize::from(rect.right.min(picture.width));
    let places: Vec<_> = rows
        .filter(|row| row % 2 == 0)
        .flat_map(|row| columns.clone().filter(|column| column % 2 == 0).map(move |column| (row, column)))
        .collect();
    [&picture.u, &picture.v].map(|plane| {
        let replaced = |&&(row, column): &&(usize, usize)| {
            let (at, below) = (row * picture.stride + column, (row + 1) * picture.stride + column);
            filter(plane[at], plane[at + 1], plane[below], plane[below + 1]) != plane[at]
        };
        places.iter().filter(replaced).count()
    })
}

/// The planes Y, U and V of a picture, padding included.
pub fn planes(picture: &Yuv444Frame) -> [&[u8]; 3] {
    [&picture.y, &picture.u, &picture.v]
}

/// A picture whose planes hold what the caller says, padding included.
///
/// # Panics
///
/// Panics unless each plane is as long as the picture's own.
pub fn with_planes(width: u16, height: u16, planes: [&[u8]; 3]) -> Yuv444Frame {
    let mut picture = Yuv444Frame::new(width, height);
    picture.y.copy_from_slice(planes[0]);
    picture.u.copy_from_slice(planes[1]);
    picture.v.copy_from_slice(planes[2]);
    picture
}
