//! The form of an H.264 payload.

use haythaw_sys::Answer;

/// Whether a payload is length-prefixed.
#[inline]
pub fn is_avc_format(data: &[u8]) -> bool {
    // SAFETY: pointer and count are of one slice, which is read alone.
    unsafe { haythaw_sys::haythaw_is_avc_format(data.as_ptr(), data.len()) }
}

/// The units of a length-prefixed payload in Annex B. 0 or 6.
#[inline]
pub fn avc_to_annex_b(data: &[u8], out: &mut [u8]) -> Answer {
    // SAFETY: each pointer and count are of one slice, and the one that is written is borrowed for that alone.
    unsafe { haythaw_sys::haythaw_avc_to_annex_b(data.as_ptr(), data.len(), out.as_mut_ptr(), out.len()) }
}
