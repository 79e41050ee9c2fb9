#![doc = include_str!("../README.md")]
#![deny(missing_docs)]
#![deny(unsafe_code)] // but in `library`
#![deny(unsafe_op_in_unsafe_fn)]
#![deny(clippy::undocumented_unsafe_blocks)]

pub mod avc444;
pub mod avc444_payload;
pub mod check;
pub mod decode;
pub mod geometry;
#[cfg(feature = "ironrdp")]
mod ironrdp;
#[allow(unsafe_code)]
mod library;
mod output;
pub mod pdu;
mod view;

#[doc(no_inline)]
pub use crate::{
    avc444::OutputError,
    decode::{AsYuv420View, Yuv420Planes, Yuv420View},
};
#[doc(no_inline)]
pub use crate::{
    avc444::{Avc444Layout, PixelCounts, WidthRule, Yuv444Frame},
    avc444_payload::{
        Avc444Payload, PayloadKind, PayloadParts, QuantQuality, ReadError, Stream, StreamParts, WriteError,
    },
    check::{CheckedPlane, CheckedView, SplitCheck},
    decode::{DecodedFrame, DecoderError, DecoderResult, Yuv420Frame, YuvMatrix},
    geometry::{ExclusiveRectangle, RectangleFault, UnsoundRectangle},
    pdu::{avc_to_annex_b_into, is_avc_format},
};
