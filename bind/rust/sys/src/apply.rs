//! Views into a picture and its map.

/// Declares functions that apply a view to a picture.
macro_rules! applying {
    ($($(#[$about:meta])* $symbol:ident;)*) => {
        unsafe extern "C" {
            $($(#[$about])* pub fn $symbol(
                width: u16,
                height: u16,
                y: *mut u8,
                y_count: usize,
                u: *mut u8,
                u_count: usize,
                v: *mut u8,
                v_count: usize,
                map: *mut u8,
                map_count: usize,
                rects: *const u16,
                rects_count: usize,
                view_width: u16,
                view_height: u16,
                luma_stride: usize,
                chroma_stride: usize,
                view_y: *const u8,
                view_y_count: usize,
                view_u: *const u8,
                view_u_count: usize,
                view_v: *const u8,
                view_v_count: usize,
            ) -> u32;)*
        }
    };
}

pub(crate) use applying;

applying! {
    /// The main view, within the rectangles of a list. 0, 1, 7, 3 or 4.
    haythaw_apply_main_view;
    /// The auxiliary view of layout V1. 0, 1, 7, 3 or 4.
    haythaw_apply_auxiliary_v1;
    /// The auxiliary view of layout V2. 0, 1, 7, 3 or 4.
    haythaw_apply_auxiliary_v2;
    /// The same by the 32 rule: W is the picture's width rounded up to 32. 0, 1, 7, 3 or 4.
    haythaw_apply_auxiliary_v2_32;
    /// The same by the rule Exact: W is the picture's width. 0, 1, 7, 3 or 4.
    haythaw_apply_auxiliary_v2_exact;
}
