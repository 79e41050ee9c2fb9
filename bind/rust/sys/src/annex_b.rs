//! The form of an H.264 payload.

use crate::Answer;

unsafe extern "C" {
    /// Whether a payload is length-prefixed.
    pub fn haythaw_is_avc_format(data: *const u8, data_count: usize) -> bool;
    /// The units of a length-prefixed payload in Annex B. 0 or 6.
    pub fn haythaw_avc_to_annex_b(data: *const u8, data_count: usize, out: *mut u8, out_count: usize) -> Answer;
}
