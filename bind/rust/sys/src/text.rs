//! What the library says of itself. These two are C, not proved code.

use core::ffi::c_char;

unsafe extern "C" {
    /// The version of the library that was linked: major x 65,536 + minor x 256 + patch.
    // SAFETY: it takes nothing, and answers a number.
    pub safe fn haythaw_version() -> u32;
    /// A sentence in English for a number, for a log, and one for any other number. It ends in 0, is never null and stays as it is.
    // SAFETY: it takes a number, any will do, and answers a pointer.
    pub safe fn haythaw_number_text(number: u32) -> *const c_char;
}
