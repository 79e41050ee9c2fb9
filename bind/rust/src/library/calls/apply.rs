//! Views into a picture and its map.

use super::{Size, View};

/// Functions of the library that apply a view to a picture, each in safe Rust.
macro_rules! applying {
    ($($(#[$about:meta])* $name:ident is $symbol:ident;)*) => {
        $($(#[$about])*
        #[inline]
        pub fn $name(
            Size { width, height }: Size,
            [y, u, v, map]: [&mut [u8]; 4],
            rects: &[u16],
            view: View<'_>,
        ) -> u32 {
            // SAFETY: each pointer and count are of one slice, and the four that are written are borrowed for that alone.
            unsafe {
                haythaw_sys::$symbol(
                    width,
                    height,
                    y.as_mut_ptr(),
                    y.len(),
                    u.as_mut_ptr(),
                    u.len(),
                    v.as_mut_ptr(),
                    v.len(),
                    map.as_mut_ptr(),
                    map.len(),
                    rects.as_ptr(),
                    rects.len(),
                    view.width,
                    view.height,
                    view.luma_stride,
                    view.chroma_stride,
                    view.y.as_ptr(),
                    view.y.len(),
                    view.u.as_ptr(),
                    view.u.len(),
                    view.v.as_ptr(),
                    view.v.len(),
                )
            }
        })*
    };
}

pub(super) use applying;

applying! {
    /// The main view, within the rectangles of a list. 0, 1, 7, 3 or 4.
    apply_main_view is haythaw_apply_main_view;
    /// The auxiliary view of layout V1. 0, 1, 7, 3 or 4.
    apply_auxiliary_v1 is haythaw_apply_auxiliary_v1;
    /// The auxiliary view of layout V2. 0, 1, 7, 3 or 4.
    apply_auxiliary_v2 is haythaw_apply_auxiliary_v2;
    /// The same by the 32 rule: W is the picture's width rounded up to 32. 0, 1, 7, 3 or 4.
    apply_auxiliary_v2_32 is haythaw_apply_auxiliary_v2_32;
    /// The same by the rule Exact: W is the picture's width. 0, 1, 7, 3 or 4.
    apply_auxiliary_v2_exact is haythaw_apply_auxiliary_v2_exact;
}
