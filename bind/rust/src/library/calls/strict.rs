//! Views into a picture and its map, of lists that have to be sound, and the first rectangle of a list that is not.

use super::apply::applying;
use super::{Size, View};
use haythaw_sys::Unsound;

applying! {
    /// The main view, if every rectangle of the list is sound. 0, 1, 7, 12, 3 or 4.
    apply_main_view_strict is haythaw_apply_main_view_strict;
    /// The auxiliary view of layout V1, likewise. 0, 1, 7, 12, 3 or 4.
    apply_auxiliary_v1_strict is haythaw_apply_auxiliary_v1_strict;
    /// The auxiliary view of layout V2, likewise. 0, 1, 7, 12, 3 or 4.
    apply_auxiliary_v2_strict is haythaw_apply_auxiliary_v2_strict;
    /// The same by the 32 rule. 0, 1, 7, 12, 3 or 4.
    apply_auxiliary_v2_32_strict is haythaw_apply_auxiliary_v2_32_strict;
    /// The same by the rule Exact. 0, 1, 7, 12, 3 or 4.
    apply_auxiliary_v2_exact_strict is haythaw_apply_auxiliary_v2_exact_strict;
}

/// Which rectangle of a list is the first that is not sound in a picture of this size.
#[inline]
pub fn first_unsound(Size { width, height }: Size, rects: &[u16]) -> Unsound {
    // SAFETY: pointer and count are of one slice, which is read alone.
    unsafe { haythaw_sys::haythaw_first_unsound(width, height, rects.as_ptr(), rects.len()) }
}
