//! Whether two views are the split of a picture.

/// `haythaw_checked`: what a check answers. Where a view's size is wrong, neither `same` nor `named` is true.
#[repr(C)]
#[derive(Debug, Clone, Copy, PartialEq, Eq)]
pub struct Checked {
    /// 0, 1, 5, 3 or 4.
    pub number: u32,
    /// Whether they are the split.
    pub same: bool,
    /// Whether a sample is wrong, and named by the rest: the first one.
    pub named: bool,
    /// Its view: 0 main, 1 auxiliary.
    pub view: u8,
    /// Its plane: 0 Y, 1 U, 2 V.
    pub plane: u8,
    /// Its row in the plane.
    pub row: u16,
    /// Its column in the plane.
    pub column: u16,
}

/// Declares functions that check two views.
macro_rules! checking {
    ($($(#[$about:meta])* $symbol:ident;)*) => {
        unsafe extern "C" {
            $($(#[$about])* pub fn $symbol(
                width: u16,
                height: u16,
                y: *const u8,
                y_count: usize,
                u: *const u8,
                u_count: usize,
                v: *const u8,
                v_count: usize,
                main_width: u16,
                main_height: u16,
                main_luma_stride: usize,
                main_chroma_stride: usize,
                main_y: *const u8,
                main_y_count: usize,
                main_u: *const u8,
                main_u_count: usize,
                main_v: *const u8,
                main_v_count: usize,
                auxiliary_width: u16,
                auxiliary_height: u16,
                auxiliary_luma_stride: usize,
                auxiliary_chroma_stride: usize,
                auxiliary_y: *const u8,
                auxiliary_y_count: usize,
                auxiliary_u: *const u8,
                auxiliary_u_count: usize,
                auxiliary_v: *const u8,
                auxiliary_v_count: usize,
            ) -> Checked;)*
        }
    };
}

checking! {
    /// Against the split whose auxiliary view is in layout V1.
    haythaw_check_v1;
    /// Against the split whose auxiliary view is in layout V2.
    haythaw_check_v2;
    /// The same by the 32 rule.
    haythaw_check_v2_32;
}
