//! Both views of a picture.

use super::Size;
use haythaw_sys::Views;

/// Functions of the library that split a picture, each in safe Rust.
macro_rules! splitting {
    ($($(#[$about:meta])* $name:ident is $symbol:ident;)*) => {
        $($(#[$about])*
        #[inline]
        pub fn $name(
            Size { width, height }: Size,
            [y, u, v]: [&[u8]; 3],
            [main_y, main_u, main_v]: [&mut [u8]; 3],
            [aux_y, aux_u, aux_v]: [&mut [u8]; 3],
        ) -> Views {
            // SAFETY: each pointer and count are of one slice, and the six that are written are borrowed for that alone.
            unsafe {
                haythaw_sys::$symbol(
                    width,
                    height,
                    y.as_ptr(),
                    y.len(),
                    u.as_ptr(),
                    u.len(),
                    v.as_ptr(),
                    v.len(),
                    main_y.as_mut_ptr(),
                    main_y.len(),
                    main_u.as_mut_ptr(),
                    main_u.len(),
                    main_v.as_mut_ptr(),
                    main_v.len(),
                    aux_y.as_mut_ptr(),
                    aux_y.len(),
                    aux_u.as_mut_ptr(),
                    aux_u.len(),
                    aux_v.as_mut_ptr(),
                    aux_v.len(),
                )
            }
        })*
    };
}

splitting! {
    /// The main view, and the auxiliary one in layout V1.
    split_v1 is haythaw_split_v1;
    /// The main view, and the auxiliary one in layout V2.
    split_v2 is haythaw_split_v2;
    /// The same by the 32 rule: both views are as wide as the width rounded up to 32.
    split_v2_32 is haythaw_split_v2_32;
}
