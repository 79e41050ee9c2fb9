//! A 4:2:0 view and its rows.

/// `haythaw_row`: a row by its place in the plane that was lent.
#[repr(C)]
#[derive(Debug, Clone, Copy, PartialEq, Eq)]
pub struct Row {
    /// 0, 3 or 4.
    pub number: u32,
    /// Whether the view has the row.
    pub present: bool,
    /// Where it starts in the plane.
    pub start: usize,
    /// How many bytes it has.
    pub length: usize,
}

/// Declares functions that take a view, and perhaps a row's number.
macro_rules! of_views {
    ($($(#[$about:meta])* $symbol:ident($($row:ident: $type:ty)?) -> $result:ty;)*) => {
        unsafe extern "C" {
            $($(#[$about])* pub fn $symbol(
                view_width: u16,
                view_height: u16,
                luma_stride: usize,
                chroma_stride: usize,
                view_y: *const u8,
                view_y_count: usize,
                view_u: *const u8,
                view_u_count: usize,
                view_v: *const u8,
                view_v_count: usize,
                $($row: $type)?
            ) -> $result;)*
        }
    };
}

of_views! {
    /// Whether strides and planes are those of a view: 0, 3 or 4.
    haythaw_view() -> u32;
    /// A luma row.
    haythaw_luma_row(row: usize) -> Row;
    /// A row of U.
    haythaw_u_row(row: usize) -> Row;
    /// A row of V.
    haythaw_v_row(row: usize) -> Row;
}
