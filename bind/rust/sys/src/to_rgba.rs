//! The conversions to RGBA, of a picture and of a view.

use crate::Answer;

/// `haythaw_pixels`: what picture to RGBA answers.
#[repr(C)]
#[derive(Debug, Clone, Copy, PartialEq, Eq)]
pub struct Pixels {
    /// 0, 1 or 6.
    pub number: u32,
    /// How many bytes were written.
    pub count: usize,
    /// How many samples of U the filter replaced.
    pub filtered_u: usize,
    /// How many samples of V the filter replaced.
    pub filtered_v: usize,
    /// How many pixels lie in blocks that the map does not call complete.
    pub stale: usize,
}

unsafe extern "C" {
    /// The rectangle of a picture in the planes Y, U and V, with its map. 0, 1 or 6.
    pub fn haythaw_to_rgba(
        width: u16,
        height: u16,
        y: *const u8,
        y_count: usize,
        u: *const u8,
        u_count: usize,
        v: *const u8,
        v_count: usize,
        map: *const u8,
        map_count: usize,
        left: u16,
        top: u16,
        right: u16,
        bottom: u16,
        out: *mut u8,
        out_count: usize,
    ) -> Pixels;
}

/// Declares functions that make RGBA of a whole view.
macro_rules! of_views {
    ($($(#[$about:meta])* $symbol:ident;)*) => {
        unsafe extern "C" {
            $($(#[$about])* pub fn $symbol(
                view_width: u16,
                view_height: u16,
                luma_stride: usize,
                chroma_stride: usize,
                view_y: *const u8,
                view_y_count: usize,
                view_u: *const u8,
                view_u_count: usize,
                view_v: *const u8,
                view_v_count: usize,
                out: *mut u8,
                out_count: usize,
            ) -> Answer;)*
        }
    };
}

of_views! {
    /// A whole view. 0, 3, 4 or 6.
    haythaw_view_to_rgba;
    /// A whole view in limited range. 0, 3, 4 or 6.
    haythaw_view_to_rgba_limited;
}
