//! Decoded pictures, and why something could not be decoded.

use core::fmt;

use crate::library::View;
pub use crate::view::{AsYuv420View, Yuv420View};

/// A picture as RGBA, four bytes a pixel, row by row from the top.
///
/// ```
/// use haythaw::decode::DecodedFrame;
///
/// let frame = DecodedFrame::new(vec![252, 0, 0, 255], 1, 1);
/// assert_eq!((frame.width(), frame.height()), (1, 1));
/// assert_eq!(frame.into_data(), [252, 0, 0, 255]);
/// ```
#[derive(Clone)]
#[non_exhaustive]
pub struct DecodedFrame {
    data: Vec<u8>,
    width: u32,
    height: u32,
}

impl DecodedFrame {
    /// Wraps `width * height` pixels.
    ///
    /// # Panics
    ///
    /// With debug assertions on, unless `data` is exactly `width * height * 4` bytes long.
    pub fn new(data: Vec<u8>, width: u32, height: u32) -> Self {
        debug_assert_eq!(
            data.len() as u64,
            u64::from(width).saturating_mul(u64::from(height)).saturating_mul(4),
            "DecodedFrame buffer must be RGBA8888 (width * height * 4 bytes)",
        );
        Self { data, width, height }
    }

    /// The pixels.
    pub fn data(&self) -> &[u8] {
        &self.data
    }

    /// Width in pixels.
    pub fn width(&self) -> u32 {
        self.width
    }

    /// Height in pixels.
    pub fn height(&self) -> u32 {
        self.height
    }

    /// The pixels, without the frame around them.
    pub fn into_data(self) -> Vec<u8> {
        self.data
    }
}

impl fmt::Debug for DecodedFrame {
    fn fmt(&self, f: &mut fmt::Formatter<'_>) -> fmt::Result {
        f.debug_struct("DecodedFrame")
            .field("width", &self.width)
            .field("height", &self.height)
            .field("data_len", &self.data.len())
            .finish()
    }
}

/// Which matrix and range the samples of a picture have.
///
/// A stream's kind says it, and no sample does: a picture that is shown by the other one has wrong colours.
#[derive(Debug, Clone, Copy, PartialEq, Eq)]
pub enum YuvMatrix {
    /// ITU-R BT.601 in limited range, as MS-RDPEVOR's video has it: Y is 16 for black and 235 for white.
    Bt601Limited,
    /// ITU-R BT.709 in full range, as the AVC420 and AVC444 streams of MS-RDPEGFX have it.
    Bt709Full,
}

/// The planes of a decoded YUV 4:2:0 picture: one view of an AVC444 picture, or an AVC420 picture.
///
/// Width and height of a chroma plane are the halves of the picture's, rounded up. Bytes of a plane between its width and its stride,
/// or after its last row, reach no answer.
///
/// ```
/// use haythaw::decode::Yuv420Frame;
///
/// // 3 x 3 pixels: luma rows of 4 bytes, chroma rows of 2.
/// let view = Yuv420Frame::new(3, 3, vec![53; 12], 4, vec![99; 4], vec![255; 4], 2)?;
/// assert_eq!(view.luma_row(2), Some(&[53; 3][..]));
/// assert_eq!(view.u_row(1), Some(&[99; 2][..]));
/// assert_eq!(view.u_row(2), None);
/// assert_eq!(view.to_rgba().data()[..4], [252, 0, 0, 255]);
/// # Ok::<(), haythaw::decode::DecoderError>(())
/// ```
#[derive(Clone)]
#[non_exhaustive]
pub struct Yuv420Frame {
    // INVARIANT: the library accepts these strides and planes as a view of this width and height.
    y: Vec<u8>,
    u: Vec<u8>,
    v: Vec<u8>,
    luma_stride: usize,
    chroma_stride: usize,
    width: u16,
    height: u16,
}

impl Yuv420Frame {
    /// Wraps planes with luma rows of `luma_stride` bytes and chroma rows of `chroma_stride` bytes.
    ///
    /// # Errors
    ///
    /// When a stride is narrower than its plane, or a plane shorter than its rows.
    ///
    /// ```
    /// use haythaw::decode::Yuv420Frame;
    ///
    /// let narrow = Yuv420Frame::new(3, 3, vec![0; 12], 2, vec![0; 4], vec![0; 4], 2);
    /// assert_eq!(narrow.unwrap_err().to_string(), "decoder error: YUV 4:2:0 stride narrower than its plane");
    /// let short = Yuv420Frame::new(3, 3, vec![0; 11], 4, vec![0; 4], vec![0; 4], 2);
    /// assert_eq!(short.unwrap_err().to_string(), "decoder error: YUV 4:2:0 plane shorter than its rows");
    /// ```
    pub fn new(
        width: u16,
        height: u16,
        y: Vec<u8>,
        luma_stride: usize,
        u: Vec<u8>,
        v: Vec<u8>,
        chroma_stride: usize,
    ) -> DecoderResult<Self> {
        Yuv420View::new(width, height, luma_stride, chroma_stride, &y, &u, &v)?;
        Ok(Self { y, u, v, luma_stride, chroma_stride, width, height })
    }

    /// Width in pixels.
    pub fn width(&self) -> u16 {
        self.width
    }

    /// Height in pixels.
    pub fn height(&self) -> u16 {
        self.height
    }

    /// Luma row `row`, as wide as the picture, or `None` below the last row.
    pub fn luma_row(&self, row: usize) -> Option<&[u8]> {
        self.as_view().luma_row(row)
    }

    /// Row `row` of U, half as wide as the picture (rounded up), or `None` below the last row.
    pub fn u_row(&self, row: usize) -> Option<&[u8]> {
        self.as_view().u_row(row)
    }

    /// Row `row` of V, half as wide as the picture (rounded up), or `None` below the last row.
    pub fn v_row(&self, row: usize) -> Option<&[u8]> {
        self.as_view().v_row(row)
    }

    /// Converts the picture to RGBA with the transform of MS-RDPEGFX 3.3.8.3.1, each chroma sample for its 2x2 block.
    ///
    /// ```
    /// use haythaw::decode::Yuv420Frame;
    ///
    /// let white = Yuv420Frame::new(2, 1, vec![254; 2], 2, vec![128], vec![128], 1)?.to_rgba();
    /// assert_eq!(white.data(), [254, 254, 254, 255, 254, 254, 254, 255]);
    /// # Ok::<(), haythaw::decode::DecoderError>(())
    /// ```
    pub fn to_rgba(&self) -> DecodedFrame {
        self.as_view().to_rgba()
    }

    /// The same with the matrix and the range that the picture's samples have, which the original has no call for.
    ///
    /// By [`YuvMatrix::Bt709Full`] it is [`Self::to_rgba`]. By [`YuvMatrix::Bt601Limited`], as MS-RDPEVOR's video has it, with
    /// `c = 298 * (y - 16)`, `d = u - 128` and `e = v - 128`: red is `(c + 409 * e + 128) / 256`, green
    /// `(c - 100 * d - 208 * e + 128) / 256` and blue `(c + 516 * d + 128) / 256`, each rounded down and clamped.
    ///
    /// ```
    /// use haythaw::decode::{Yuv420Frame, YuvMatrix};
    ///
    /// // Black, white and red of a lecture clip; a chroma sample is shared by two pixels of a row.
    /// let y = vec![16, 235, 82, 82];
    /// let clip = Yuv420Frame::new(4, 1, y, 4, vec![128, 90], vec![128, 240], 2)?;
    /// let shown = clip.to_rgba_with(YuvMatrix::Bt601Limited);
    /// let (black, white, red) = ([0, 0, 0, 255], [255; 4], [255, 1, 0, 255]);
    /// assert_eq!(shown.data(), [black, white, red, red].concat());
    ///
    /// // By the other matrix black is grey, and white is not white.
    /// assert_eq!(clip.to_rgba().data()[..8], [16, 16, 16, 255, 235, 235, 235, 255]);
    /// assert_eq!(clip.to_rgba().data(), clip.to_rgba_with(YuvMatrix::Bt709Full).data());
    /// # Ok::<(), haythaw::decode::DecoderError>(())
    /// ```
    pub fn to_rgba_with(&self, matrix: YuvMatrix) -> DecodedFrame {
        self.as_view().to_rgba_with(matrix)
    }

    /// The same picture over these planes, which are lent and not copied.
    ///
    /// ```
    /// use haythaw::decode::Yuv420Frame;
    ///
    /// let frame = Yuv420Frame::new(3, 1, vec![53; 4], 4, vec![99; 2], vec![255; 2], 2)?;
    /// let view = frame.as_view();
    /// assert_eq!((view.luma_stride(), view.y()), (4, &[53; 4][..]));
    /// assert_eq!(view.luma_row(0), frame.luma_row(0));
    /// # Ok::<(), haythaw::decode::DecoderError>(())
    /// ```
    pub fn as_view(&self) -> Yuv420View<'_> {
        Yuv420View::of(self.lent())
    }

    /// The planes, without the frame around them: for an encoder, or to be filled again.
    ///
    /// ```
    /// use haythaw::{Avc444Layout, Yuv420Frame, Yuv444Frame};
    ///
    /// let (main, _) = Yuv444Frame::new(20, 1).split(Avc444Layout::V2)?;
    /// let planes = main.into_planes();
    /// assert_eq!((planes.width, planes.height, planes.luma_stride, planes.chroma_stride), (32, 16, 32, 16));
    /// assert_eq!((planes.y.len(), planes.u.len(), planes.v.len()), (32 * 16, 16 * 8, 16 * 8));
    /// # Ok::<(), haythaw::decode::DecoderError>(())
    /// ```
    pub fn into_planes(self) -> Yuv420Planes {
        let Self { y, u, v, luma_stride, chroma_stride, width, height } = self;
        Yuv420Planes { width, height, y, luma_stride, u, v, chroma_stride }
    }

    /// The view as the library takes it.
    pub(crate) fn lent(&self) -> View<'_> {
        View {
            width: self.width,
            height: self.height,
            luma_stride: self.luma_stride,
            chroma_stride: self.chroma_stride,
            y: &self.y,
            u: &self.u,
            v: &self.v,
        }
    }
}

impl fmt::Debug for Yuv420Frame {
    fn fmt(&self, f: &mut fmt::Formatter<'_>) -> fmt::Result {
        f.debug_struct("Yuv420Frame").field("width", &self.width).field("height", &self.height).finish_non_exhaustive()
    }
}

/// The planes that a [`Yuv420Frame`] was made of; see [`Yuv420Frame::into_planes`].
#[derive(Clone, PartialEq, Eq)]
pub struct Yuv420Planes {
    /// Width of the picture in pixels.
    pub width: u16,
    /// Height of the picture in pixels.
    pub height: u16,
    /// The luma rows, `luma_stride` bytes each.
    pub y: Vec<u8>,
    /// Bytes from a luma row to the next.
    pub luma_stride: usize,
    /// The rows of U, `chroma_stride` bytes each.
    pub u: Vec<u8>,
    /// The rows of V, `chroma_stride` bytes each.
    pub v: Vec<u8>,
    /// Bytes from a chroma row to the next.
    pub chroma_stride: usize,
}

impl fmt::Debug for Yuv420Planes {
    fn fmt(&self, f: &mut fmt::Formatter<'_>) -> fmt::Result {
        f.debug_struct("Yuv420Planes")
            .field("width", &self.width)
            .field("height", &self.height)
            .field("luma_stride", &self.luma_stride)
            .field("chroma_stride", &self.chroma_stride)
            .finish_non_exhaustive()
    }
}

/// Why something could not be decoded: what was tried, and perhaps the error below it.
///
/// ```
/// use std::error::Error;
///
/// use haythaw::decode::DecoderError;
///
/// let cause = "x".parse::<u8>().unwrap_err();
/// let error = DecoderError::new("no number", cause);
/// assert_eq!(error.to_string(), "decoder error: no number: invalid digit found in string");
/// assert!(error.source().is_some());
/// assert!(DecoderError::msg("no picture").source().is_none());
/// ```
#[derive(Debug)]
#[non_exhaustive]
pub struct DecoderError {
    context: String,
    source: Option<Box<dyn core::error::Error + Send + Sync>>,
}

impl DecoderError {
    /// An error that another one led to.
    pub fn new(context: impl Into<String>, source: impl core::error::Error + Send + Sync + 'static) -> Self {
        Self { context: context.into(), source: Some(Box::new(source)) }
    }

    /// An error of its own.
    pub fn msg(context: impl Into<String>) -> Self {
        Self { context: context.into(), source: None }
    }
}

impl fmt::Display for DecoderError {
    fn fmt(&self, f: &mut fmt::Formatter<'_>) -> fmt::Result {
        write!(f, "decoder error: {}", self.context)?;
        match &self.source {
            Some(source) => write!(f, ": {source}"),
            None => Ok(()),
        }
    }
}

impl core::error::Error for DecoderError {
    fn source(&self) -> Option<&(dyn core::error::Error + 'static)> {
        self.source.as_deref().map(|source| source as &(dyn core::error::Error + 'static))
    }
}

/// A `T`, or why there is none.
pub type DecoderResult<T> = Result<T, DecoderError>;
