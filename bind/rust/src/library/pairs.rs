//! A list of pairs of quantiser and quality, lent to a call or found in a payload.

use crate::avc444_payload::QuantQuality;

const _: () = assert!(size_of::<QuantQuality>() == size_of::<[u8; 2]>());
const _: () = assert!(align_of::<QuantQuality>() == align_of::<[u8; 2]>());

/// A list of pairs as the library takes it: a quantiser byte and a quality byte for each, uncopied.
pub fn bytes_of(pairs: &[QuantQuality]) -> &[u8] {
    // SAFETY: a pair is `repr(transparent)` over two bytes (asserted above). The result borrows the same bytes as the argument, for the
    // same time, to be read.
    unsafe { core::slice::from_raw_parts(pairs.as_ptr().cast(), 2 * pairs.len()) }
}

/// Two bytes each as pairs, uncopied. A last byte that is alone is left out.
pub fn pairs_of(bytes: &[u8]) -> &[QuantQuality] {
    // SAFETY: the same, and any two bytes are a pair.
    unsafe { core::slice::from_raw_parts(bytes.as_ptr().cast(), bytes.len() / 2) }
}

#[cfg(test)]
mod tests {
    use super::*;

    #[test]
    fn a_list_is_its_bytes_in_twos() {
        let pairs = [[22, 100], [255, 0]].map(QuantQuality::from_bytes);
        assert_eq!(bytes_of(&pairs), [22, 100, 255, 0]);
        assert_eq!(pairs_of(&[22, 100, 255, 0]), pairs);
        assert_eq!(pairs_of(&[22, 100, 255]), &pairs[..1]);
        assert!(bytes_of(&[]).is_empty() && pairs_of(&[]).is_empty() && pairs_of(&[7]).is_empty());
    }
}
