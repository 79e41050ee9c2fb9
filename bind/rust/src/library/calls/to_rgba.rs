//! The conversions to RGBA, of a picture and of a view.

use super::{Size, View};
use haythaw_sys::{Answer, Pixels};

/// The rectangle (left, top, right, bottom) of a picture in the planes Y, U and V, with its map. 0, 1 or 6.
#[inline]
pub fn to_rgba(Size { width, height }: Size, [y, u, v, map]: [&[u8]; 4], rect: [u16; 4], out: &mut [u8]) -> Pixels {
    let [left, top, right, bottom] = rect;
    // SAFETY: each pointer and count are of one slice, and the one that is written is borrowed for that alone.
    unsafe {
        haythaw_sys::haythaw_to_rgba(
            width,
            height,
            y.as_ptr(),
            y.len(),
            u.as_ptr(),
            u.len(),
            v.as_ptr(),
            v.len(),
            map.as_ptr(),
            map.len(),
            left,
            top,
            right,
            bottom,
            out.as_mut_ptr(),
            out.len(),
        )
    }
}

/// Functions of the library that make RGBA of a whole view, each in safe Rust.
macro_rules! of_views {
    ($($(#[$about:meta])* $name:ident is $symbol:ident;)*) => {
        $($(#[$about])*
        #[inline]
        pub fn $name(view: View<'_>, out: &mut [u8]) -> Answer {
            let View { width, height, luma_stride, chroma_stride, y, u, v } = view;
            // SAFETY: each pointer and count are of one slice, and the one that is written is borrowed for that alone.
            unsafe {
                haythaw_sys::$symbol(
                    width,
                    height,
                    luma_stride,
                    chroma_stride,
                    y.as_ptr(),
                    y.len(),
                    u.as_ptr(),
                    u.len(),
                    v.as_ptr(),
                    v.len(),
                    out.as_mut_ptr(),
                    out.len(),
                )
            }
        })*
    };
}

of_views! {
    /// A whole view. 0, 3, 4 or 6.
    view_to_rgba is haythaw_view_to_rgba;
    /// A whole view in limited range. 0, 3, 4 or 6.
    view_to_rgba_limited is haythaw_view_to_rgba_limited;
}
