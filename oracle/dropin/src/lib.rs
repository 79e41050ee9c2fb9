//! One program over the Rust original and over `bind/rust`.
//!
//! `harness.rs` is written against the original's public calls. It is compiled twice below, and what is above it differs in the crate's
//! name alone. That it compiles both times shows that names and signatures are the same; that both runs of a case leave the same
//! trace shows that the answers are.

pub mod case;
pub mod cases;
pub mod options;
#[path = "../../runs/src/random.rs"]
pub mod random;
pub mod trace;

/// The harness over the Rust original.
pub mod over_original {
    use original::avc444::{Avc444Layout, Yuv444Frame};
    use original::decode::{DecodedFrame, DecoderError, DecoderResult, Yuv420Frame};
    use original::pdu::{avc_to_annex_b_into, is_avc_format};
    use original::ExclusiveRectangle;

    include!("harness.rs");
}

/// The harness over `bind/rust`.
pub mod over_haythaw {
    use haythaw::avc444::{Avc444Layout, Yuv444Frame};
    use haythaw::decode::{DecodedFrame, DecoderError, DecoderResult, Yuv420Frame};
    use haythaw::pdu::{avc_to_annex_b_into, is_avc_format};
    use haythaw::ExclusiveRectangle;

    include!("harness.rs");
}

// For the tests, the original's own file avc444.rs once more, unchanged, over our `decode` in place of the original's: what it calls
// `crate::decode` is `haythaw::decode` here.
#[cfg(test)]
#[allow(dead_code)]
#[rustfmt::skip]
#[path = "../../build/original/avc444.rs"]
mod avc444;
#[cfg(test)]
use haythaw::decode;

/// The harness over the original's `avc444` and our `decode`.
#[cfg(test)]
mod over_both {
    use crate::avc444::{Avc444Layout, Yuv444Frame};
    use crate::decode::{DecodedFrame, DecoderError, DecoderResult, Yuv420Frame};
    use haythaw::pdu::{avc_to_annex_b_into, is_avc_format};
    use ironrdp_pdu::geometry::ExclusiveRectangle;

    include!("harness.rs");
}

// Conversions between our types and the original's own.
#[cfg(test)]
mod convert {
    haythaw::ironrdp_types! {
        rectangle: ironrdp_pdu::geometry::ExclusiveRectangle,
        view: original::decode::Yuv420Frame,
        frame: original::decode::DecodedFrame,
        matrix: original::decode::YuvMatrix,
    }
}

#[cfg(test)]
mod tests {
    use super::convert::{IntoHaythaw, IntoIronrdp};
    use super::*;

    #[test]
    fn a_rectangle_goes_over_and_back() {
        let ours = [[1, 2, 3, 4], [65_535, 6, 7, 0]].map(haythaw::ExclusiveRectangle::from);
        let theirs = ours.into_ironrdp();
        for (ours, theirs) in ours.into_iter().zip(theirs.iter()) {
            assert_eq!([theirs.left, theirs.top, theirs.right, theirs.bottom], <[u16; 4]>::from(ours));
            assert_eq!(ours.into_ironrdp(), *theirs);
            assert_eq!(theirs.into_haythaw(), ours);
        }
        assert_eq!(theirs.into_haythaw(), ours);
    }

    #[test]
    fn a_view_goes_over_and_back() {
        for (width, height) in [(0, 0), (0, 3), (3, 0), (1, 1), (5, 3), (16, 16), (17, 9)] {
            for more in [0, 3] {
                let (luma, chroma) = (usize::from(width) + more, usize::from(width).div_ceil(2) + more);
                let (rows, half) = (usize::from(height), usize::from(height).div_ceil(2));
                let plane = |count: usize, first: u8| (0..count).map(|at| at as u8 ^ first).collect::<Vec<_>>();
                let (y, u, v) = (plane(luma * rows, 1), plane(chroma * half, 2), plane(chroma * half, 3));
                let ours = haythaw::Yuv420Frame::new(width, height, y, luma, u, v, chroma).expect("whole planes");
                let theirs = ours.clone().into_ironrdp();
                let back = theirs.into_haythaw();
                assert_eq!((back.width(), back.height()), (width, height));
                for row in 0..rows + 1 {
                    assert_eq!((ours.luma_row(row), ours.u_row(row)), (theirs.luma_row(row), theirs.u_row(row)));
                    assert_eq!(ours.v_row(row), theirs.v_row(row));
                    assert_eq!((ours.luma_row(row), ours.u_row(row)), (back.luma_row(row), back.u_row(row)));
                    assert_eq!(ours.v_row(row), back.v_row(row));
                }
                let shown = theirs.to_rgba().into_haythaw();
                assert_eq!((shown.width(), shown.height()), (width.into(), height.into()));
                assert_eq!(shown.data(), ours.to_rgba().data());
                assert_eq!(shown.into_ironrdp().data(), theirs.to_rgba().data());
            }
        }
    }

    #[test]
    fn a_matrix_goes_over_and_back() {
        use original::decode::YuvMatrix as Theirs;
        for (theirs, ours) in [
            (Theirs::Bt601Limited, haythaw::YuvMatrix::Bt601Limited),
            (Theirs::Bt709Full, haythaw::YuvMatrix::Bt709Full),
        ] {
            assert_eq!(theirs.into_haythaw(), ours);
            assert_eq!(ours.into_ironrdp(), theirs);
            assert_eq!(format!("{theirs:?}"), format!("{ours:?}"));
        }
    }

    // With debug assertions, and with the original's arithmetic checked for overflow: what a frame of wrong length says when it panics
    // is compared too.
    #[test]
    fn some_cases_of_each_kind() {
        let mut seen = std::collections::BTreeSet::new();
        for (number, case) in cases::all(1, 200).enumerate() {
            if number % 97 != 0 && !matches!(case, case::Case::Frame { .. }) {
                continue;
            }
            let (theirs, ours) = (over_original::trace(&case), over_haythaw::trace(&case));
            assert_eq!(theirs.difference(&ours), None, "case {number}: {case:?}");
            assert_eq!(theirs.difference(&over_both::trace(&case)), None, "case {number}, mixed: {case:?}");
            seen.extend(ours.calls().map(|(call, _)| call));
        }
        assert_eq!(seen, trace::CALLS.into_iter().collect());
    }
}
