//! Whether two views are the split of a picture.

use super::{Size, View};
use haythaw_sys::Checked;

/// Functions of the library that check two views, each in safe Rust.
macro_rules! checking {
    ($($(#[$about:meta])* $name:ident is $symbol:ident;)*) => {
        $($(#[$about])*
        #[inline]
        pub fn $name(
            Size { width, height }: Size,
            [y, u, v]: [&[u8]; 3],
            main: View<'_>,
            auxiliary: View<'_>,
        ) -> Checked {
            // SAFETY: each pointer and count are of one slice, and all are read alone.
            unsafe {
                haythaw_sys::$symbol(
                    width,
                    height,
                    y.as_ptr(),
                    y.len(),
                    u.as_ptr(),
                    u.len(),
                    v.as_ptr(),
                    v.len(),
                    main.width,
                    main.height,
                    main.luma_stride,
                    main.chroma_stride,
                    main.y.as_ptr(),
                    main.y.len(),
                    main.u.as_ptr(),
                    main.u.len(),
                    main.v.as_ptr(),
                    main.v.len(),
                    auxiliary.width,
                    auxiliary.height,
                    auxiliary.luma_stride,
                    auxiliary.chroma_stride,
                    auxiliary.y.as_ptr(),
                    auxiliary.y.len(),
                    auxiliary.u.as_ptr(),
                    auxiliary.u.len(),
                    auxiliary.v.as_ptr(),
                    auxiliary.v.len(),
                )
            }
        })*
    };
}

checking! {
    /// Against the split whose auxiliary view is in layout V1.
    check_v1 is haythaw_check_v1;
    /// Against the split whose auxiliary view is in layout V2.
    check_v2 is haythaw_check_v2;
    /// The same by the 32 rule.
    check_v2_32 is haythaw_check_v2_32;
}
