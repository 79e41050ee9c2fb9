//! Both views of a picture.

/// `haythaw_views`: the sizes and strides that both views have.
#[repr(C)]
#[derive(Debug, Clone, Copy, PartialEq, Eq)]
pub struct Views {
    /// 0, 1, 5 or 6.
    pub number: u32,
    /// Luma columns.
    pub width: u16,
    /// Luma rows.
    pub height: u16,
    /// Bytes from a luma row to the next.
    pub luma_stride: usize,
    /// Bytes from a chroma row to the next.
    pub chroma_stride: usize,
}

/// Declares functions that split a picture.
macro_rules! splitting {
    ($($(#[$about:meta])* $symbol:ident;)*) => {
        unsafe extern "C" {
            $($(#[$about])* pub fn $symbol(
                width: u16,
                height: u16,
                y: *const u8,
                y_count: usize,
                u: *const u8,
                u_count: usize,
                v: *const u8,
                v_count: usize,
                main_y: *mut u8,
                main_y_count: usize,
                main_u: *mut u8,
                main_u_count: usize,
                main_v: *mut u8,
                main_v_count: usize,
                aux_y: *mut u8,
                aux_y_count: usize,
                aux_u: *mut u8,
                aux_u_count: usize,
                aux_v: *mut u8,
                aux_v_count: usize,
            ) -> Views;)*
        }
    };
}

splitting! {
    /// The main view, and the auxiliary one in layout V1.
    haythaw_split_v1;
    /// The main view, and the auxiliary one in layout V2.
    haythaw_split_v2;
    /// The same by the 32 rule: both views are as wide as the width rounded up to 32.
    haythaw_split_v2_32;
}
