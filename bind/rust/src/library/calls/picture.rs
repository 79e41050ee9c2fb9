//! A 4:4:4 picture in the planes Y, U and V, and its map of stale colour.

/// A picture's width and height.
#[derive(Debug, Clone, Copy, PartialEq, Eq)]
pub struct Size {
    pub width: u16,
    pub height: u16,
}

/// Bytes of the three planes together.
#[inline]
pub fn allocation_size(Size { width, height }: Size) -> usize {
    haythaw_sys::haythaw_allocation_size(width, height)
}

/// Bytes of the map.
#[inline]
pub fn map_size(Size { width, height }: Size) -> usize {
    haythaw_sys::haythaw_map_size(width, height)
}

/// A fresh picture in the planes Y, U and V, and its map. 0 or 1.
#[inline]
pub fn new(Size { width, height }: Size, [y, u, v, map]: [&mut [u8]; 4]) -> u32 {
    // SAFETY: each pointer and count are of one slice, and all four are borrowed to be written.
    unsafe {
        haythaw_sys::haythaw_new(
            width,
            height,
            y.as_mut_ptr(),
            y.len(),
            u.as_mut_ptr(),
            u.len(),
            v.as_mut_ptr(),
            v.len(),
            map.as_mut_ptr(),
            map.len(),
        )
    }
}

/// Functions of the library that make a picture of RGBA pixels, each in safe Rust.
macro_rules! making {
    ($($(#[$about:meta])* $name:ident is $symbol:ident;)*) => {
        $($(#[$about])*
        #[inline]
        pub fn $name(rgba: &[u8], Size { width, height }: Size, [y, u, v, map]: [&mut [u8]; 4]) -> u32 {
            // SAFETY: each pointer and count are of one slice, and the four that are written are borrowed for that alone.
            unsafe {
                haythaw_sys::$symbol(
                    rgba.as_ptr(),
                    rgba.len(),
                    width,
                    height,
                    y.as_mut_ptr(),
                    y.len(),
                    u.as_mut_ptr(),
                    u.len(),
                    v.as_mut_ptr(),
                    v.len(),
                    map.as_mut_ptr(),
                    map.len(),
                )
            }
        })*
    };
}

making! {
    /// The picture of RGBA pixels, its edge filled. 0, 2 or 1.
    from_rgba is haythaw_from_rgba;
    /// The picture of RGBA pixels as the Rust original has it, with padding as in a fresh picture. 0, 2 or 1.
    from_rgba_rust is haythaw_from_rgba_rust;
    /// The picture of RGBA pixels in limited range, its edge filled. 0, 2 or 1.
    from_rgba_limited is haythaw_from_rgba_limited;
}
