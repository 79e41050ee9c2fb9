//! Why pixels were not written into a caller's buffer.

use core::fmt;

/// Why [`Yuv444Frame::to_rgba_into`] wrote nothing.
///
/// ```
/// use haythaw::{ExclusiveRectangle, OutputError, Yuv444Frame};
///
/// let (picture, whole) = (Yuv444Frame::new(4, 2), ExclusiveRectangle { left: 0, top: 0, right: 4, bottom: 2 });
/// let error = picture.to_rgba_into(&whole, &mut [0; 100], 15).unwrap_err();
/// assert_eq!(error, OutputError::StrideNarrow { stride: 15, row: 16 });
/// assert_eq!(error.to_string(), "the stride is 15 bytes, and a row of pixels has 16");
/// let error = picture.to_rgba_into(&whole, &mut [0; 35], 20).unwrap_err();
/// assert_eq!(error, OutputError::OutputShort { length: 35, needed: 36 });
/// assert_eq!(error.to_string(), "the output has 35 bytes, and the rows of pixels take 36");
/// ```
///
/// [`Yuv444Frame::to_rgba_into`]: crate::avc444::Yuv444Frame::to_rgba_into
#[derive(Debug, Clone, Copy, PartialEq, Eq)]
#[non_exhaustive]
pub enum OutputError {
    /// The stride is narrower than a row of pixels.
    StrideNarrow {
        /// The stride that was given.
        stride: usize,
        /// Bytes of a row of pixels.
        row: usize,
    },
    /// The output ends before the last row does.
    OutputShort {
        /// Bytes of the output.
        length: usize,
        /// Bytes from the first pixel to the end of the last one, at the stride that was given.
        needed: usize,
    },
}

impl fmt::Display for OutputError {
    fn fmt(&self, f: &mut fmt::Formatter<'_>) -> fmt::Result {
        match self {
            Self::StrideNarrow { stride, row } => {
                write!(f, "the stride is {stride} bytes, and a row of pixels has {row}")
            }
            Self::OutputShort { length, needed } => {
                write!(f, "the output has {length} bytes, and the rows of pixels take {needed}")
            }
        }
    }
}

impl core::error::Error for OutputError {}
