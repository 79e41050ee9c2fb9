//! Views into a picture and its map, of lists that have to be sound, and the first rectangle of a list that is not.

use crate::apply::applying;

applying! {
    /// The main view, if every rectangle of the list is sound. 0, 1, 7, 12, 3 or 4.
    haythaw_apply_main_view_strict;
    /// The auxiliary view of layout V1, likewise. 0, 1, 7, 12, 3 or 4.
    haythaw_apply_auxiliary_v1_strict;
    /// The auxiliary view of layout V2, likewise. 0, 1, 7, 12, 3 or 4.
    haythaw_apply_auxiliary_v2_strict;
    /// The same by the 32 rule. 0, 1, 7, 12, 3 or 4.
    haythaw_apply_auxiliary_v2_32_strict;
    /// The same by the rule Exact. 0, 1, 7, 12, 3 or 4.
    haythaw_apply_auxiliary_v2_exact_strict;
}

/// `haythaw_unsound`: the first rectangle of a list that is not sound.
#[repr(C)]
#[derive(Debug, Clone, Copy, PartialEq, Eq)]
pub struct Unsound {
    /// 0 or 7.
    pub number: u32,
    /// Whether there is one.
    pub present: bool,
    /// Its first fault, 1 to 4.
    pub fault: u8,
    /// Which one of the list it is, from 0.
    pub index: usize,
}

unsafe extern "C" {
    /// Which rectangle of a list is the first that is not sound in a picture of this size.
    pub fn haythaw_first_unsound(width: u16, height: u16, rects: *const u16, rects_count: usize) -> Unsound;
}
