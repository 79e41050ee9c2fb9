//! A 4:2:0 view and its rows.

use haythaw_sys::Row;

/// A view's sizes and its lent planes.
#[derive(Clone, Copy)]
pub struct View<'a> {
    pub width: u16,
    pub height: u16,
    pub luma_stride: usize,
    pub chroma_stride: usize,
    pub y: &'a [u8],
    pub u: &'a [u8],
    pub v: &'a [u8],
}

/// Functions of the library that take a view, and perhaps a row's number, each in safe Rust.
macro_rules! of_views {
    ($($(#[$about:meta])* $name:ident is $symbol:ident($($row:ident: $type:ty)?) -> $result:ty;)*) => {
        $($(#[$about])*
        #[inline]
        pub fn $name(view: View<'_>, $($row: $type)?) -> $result {
            let View { width, height, luma_stride, chroma_stride, y, u, v } = view;
            // SAFETY: each pointer and count are of one slice, and all are read alone.
            unsafe {
                haythaw_sys::$symbol(
                    width,
                    height,
                    luma_stride,
                    chroma_stride,
                    y.as_ptr(),
                    y.len(),
                    u.as_ptr(),
                    u.len(),
                    v.as_ptr(),
                    v.len(),
                    $($row)?
                )
            }
        })*
    };
}

of_views! {
    /// 0, 3 or 4.
    view_number is haythaw_view() -> u32;
    /// A luma row.
    luma_row is haythaw_luma_row(row: usize) -> Row;
    /// A row of U.
    u_row is haythaw_u_row(row: usize) -> Row;
    /// A row of V.
    v_row is haythaw_v_row(row: usize) -> Row;
}
