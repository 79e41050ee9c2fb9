//! The form of an H.264 payload: Annex B, or length-prefixed.

use crate::library;

/// Whether `data` is in AVC format (units behind big-endian lengths of four bytes) rather than an Annex B byte stream.
///
/// What starts with a start code (`00 00 01` or `00 00 00 01`) is Annex B. Anything else is AVC format exactly if it is not empty and
/// wholly made of units of at least one byte.
///
/// ```
/// use haythaw::pdu::is_avc_format;
///
/// assert!(is_avc_format(&[0, 0, 0, 2, 0x67, 0x42]));
/// assert!(!is_avc_format(&[0, 0, 0, 1, 0x67, 0x42])); // a start code
/// assert!(!is_avc_format(&[0, 0, 0, 3, 0x67, 0x42])); // the unit runs past the end
/// assert!(!is_avc_format(&[]));
/// ```
pub fn is_avc_format(data: &[u8]) -> bool {
    library::is_avc_format(data)
}

/// Converts AVC format to Annex B: each length becomes the start code `00 00 00 01`.
///
/// `out` is cleared first, and keeps its allocation from call to call. The conversion stops at a unit that runs past the end, or at
/// fewer than four bytes; a length of 0 writes the start code alone.
///
/// ```
/// use haythaw::pdu::avc_to_annex_b_into;
///
/// let mut out = vec![9, 9, 9];
/// avc_to_annex_b_into(&[0, 0, 0, 2, 0x67, 0x42, 0, 0, 0, 7, 0x68], &mut out);
/// assert_eq!(out, [0, 0, 0, 1, 0x67, 0x42]);
/// ```
pub fn avc_to_annex_b_into(data: &[u8], out: &mut Vec<u8>) {
    // The output is never longer than the input. What `out` held is overwritten or cut off.
    out.resize(data.len(), 0);
    let answer = library::avc_to_annex_b(data, out);
    library::done("avc_to_annex_b", answer.number);
    out.truncate(answer.count);
}
