//! A 4:4:4 picture in the planes Y, U and V, and its map of stale colour.

unsafe extern "C" {
    /// Bytes of the three planes together.
    // SAFETY: it takes numbers by value, and is proved to answer for all of them.
    pub safe fn haythaw_allocation_size(width: u16, height: u16) -> usize;
    /// Bytes of the map.
    // SAFETY: the same.
    pub safe fn haythaw_map_size(width: u16, height: u16) -> usize;
    /// A fresh picture in the planes Y, U and V, and its map. 0 or 1.
    pub fn haythaw_new(
        width: u16,
        height: u16,
        y: *mut u8,
        y_count: usize,
        u: *mut u8,
        u_count: usize,
        v: *mut u8,
        v_count: usize,
        map: *mut u8,
        map_count: usize,
    ) -> u32;
}

/// Declares functions that make a picture of RGBA pixels.
macro_rules! making {
    ($($(#[$about:meta])* $symbol:ident;)*) => {
        unsafe extern "C" {
            $($(#[$about])* pub fn $symbol(
                rgba: *const u8,
                rgba_count: usize,
                width: u16,
                height: u16,
                y: *mut u8,
                y_count: usize,
                u: *mut u8,
                u_count: usize,
                v: *mut u8,
                v_count: usize,
                map: *mut u8,
                map_count: usize,
            ) -> u32;)*
        }
    };
}

making! {
    /// The picture of RGBA pixels, its edge filled. 0, 2 or 1.
    haythaw_from_rgba;
    /// The picture of RGBA pixels as the Rust original has it, with padding as in a fresh picture. 0, 2 or 1.
    haythaw_from_rgba_rust;
    /// The picture of RGBA pixels in limited range, its edge filled. 0, 2 or 1.
    haythaw_from_rgba_limited;
}
