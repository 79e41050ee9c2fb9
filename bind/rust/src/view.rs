//! A 4:2:0 picture over planes that are lent, and what can be lent as one.

use core::fmt;
use core::ops::Deref;

use crate::decode::{DecodedFrame, DecoderError, DecoderResult, Yuv420Frame, YuvMatrix};
use crate::library::{self, Row, View};

/// A YUV 4:2:0 picture over planes that are somebody else's, as a decoder's output, which nothing copies.
///
/// It is what [`Yuv420Frame`] is over planes of its own, and goes wherever a `&Yuv420Frame` does; see [`AsYuv420View`].
///
/// ```
/// use haythaw::{ExclusiveRectangle, Yuv420View, Yuv444Frame};
///
/// // What a decoder lends: 16 x 16 pixels of red, in luma rows of 32 bytes.
/// let (y, u, v) = ([53; 32 * 16], [99; 8 * 8], [255; 8 * 8]);
/// let view = Yuv420View::new(16, 16, 32, 8, &y, &u, &v)?;
///
/// let pixel = ExclusiveRectangle { left: 3, top: 0, right: 4, bottom: 1 };
/// let mut picture = Yuv444Frame::new(5, 5);
/// picture.apply_main_view(&view, &[pixel]);
/// assert_eq!(picture.to_rgba(&pixel), [252, 0, 0, 255]);
/// # Ok::<(), haythaw::decode::DecoderError>(())
/// ```
#[derive(Clone, Copy)]
// INVARIANT: the library accepts it.
pub struct Yuv420View<'a>(View<'a>);

impl<'a> Yuv420View<'a> {
    /// Lends planes with luma rows of `luma_stride` bytes and chroma rows of `chroma_stride` bytes.
    ///
    /// # Errors
    ///
    /// Those of [`Yuv420Frame::new`]: when a stride is narrower than its plane, or a plane shorter than its rows.
    ///
    /// ```
    /// use haythaw::decode::Yuv420View;
    ///
    /// assert!(Yuv420View::new(3, 3, 4, 2, &[0; 12], &[0; 4], &[0; 4]).is_ok());
    /// let narrow = Yuv420View::new(3, 3, 2, 2, &[0; 12], &[0; 4], &[0; 4]);
    /// assert_eq!(narrow.unwrap_err().to_string(), "decoder error: YUV 4:2:0 stride narrower than its plane");
    /// let short = Yuv420View::new(3, 3, 4, 2, &[0; 11], &[0; 4], &[0; 4]);
    /// assert_eq!(short.unwrap_err().to_string(), "decoder error: YUV 4:2:0 plane shorter than its rows");
    /// ```
    pub fn new(
        width: u16,
        height: u16,
        luma_stride: usize,
        chroma_stride: usize,
        y: &'a [u8],
        u: &'a [u8],
        v: &'a [u8],
    ) -> DecoderResult<Self> {
        let view = View { width, height, luma_stride, chroma_stride, y, u, v };
        match library::view_number(view) {
            3 => Err(DecoderError::msg("YUV 4:2:0 stride narrower than its plane")),
            4 => Err(DecoderError::msg("YUV 4:2:0 plane shorter than its rows")),
            number => {
                library::done("view", number);
                Ok(Self(view))
            }
        }
    }

    /// Width in pixels.
    pub fn width(&self) -> u16 {
        self.0.width
    }

    /// Height in pixels.
    pub fn height(&self) -> u16 {
        self.0.height
    }

    /// Bytes from a luma row to the next.
    pub fn luma_stride(&self) -> usize {
        self.0.luma_stride
    }

    /// Bytes from a chroma row to the next.
    pub fn chroma_stride(&self) -> usize {
        self.0.chroma_stride
    }

    /// The luma plane, as it was lent.
    pub fn y(&self) -> &'a [u8] {
        self.0.y
    }

    /// The plane of U, as it was lent.
    pub fn u(&self) -> &'a [u8] {
        self.0.u
    }

    /// The plane of V, as it was lent.
    pub fn v(&self) -> &'a [u8] {
        self.0.v
    }

    /// Luma row `row`, as wide as the picture, or `None` below the last row.
    pub fn luma_row(&self, row: usize) -> Option<&'a [u8]> {
        part(self.0.y, library::luma_row(self.0, row))
    }

    /// Row `row` of U, half as wide as the picture (rounded up), or `None` below the last row.
    pub fn u_row(&self, row: usize) -> Option<&'a [u8]> {
        part(self.0.u, library::u_row(self.0, row))
    }

    /// Row `row` of V, half as wide as the picture (rounded up), or `None` below the last row.
    pub fn v_row(&self, row: usize) -> Option<&'a [u8]> {
        part(self.0.v, library::v_row(self.0, row))
    }

    /// Converts the picture to RGBA, as [`Yuv420Frame::to_rgba`] does.
    pub fn to_rgba(&self) -> DecodedFrame {
        self.to_rgba_with(YuvMatrix::Bt709Full)
    }

    /// The same with the matrix and the range that the picture's samples have, as [`Yuv420Frame::to_rgba_with`] does.
    ///
    /// ```
    /// use haythaw::decode::{Yuv420View, YuvMatrix};
    ///
    /// // What a decoder of video lends: blue, in a luma row of 4 bytes.
    /// let view = Yuv420View::new(2, 1, 4, 1, &[41, 41, 0, 0], &[240], &[110])?;
    /// assert_eq!(view.to_rgba_with(YuvMatrix::Bt601Limited).data(), [0, 0, 255, 255].repeat(2));
    /// # Ok::<(), haythaw::decode::DecoderError>(())
    /// ```
    pub fn to_rgba_with(&self, matrix: YuvMatrix) -> DecodedFrame {
        let convert = match matrix {
            YuvMatrix::Bt601Limited => library::view_to_rgba_limited,
            YuvMatrix::Bt709Full => library::view_to_rgba,
        };
        let (width, height) = (self.width(), self.height());
        let mut rgba = vec![0; usize::from(width) * usize::from(height) * 4];
        let answer = convert(self.0, &mut rgba);
        library::done("view_to_rgba", answer.number);
        rgba.truncate(answer.count);
        DecodedFrame::new(rgba, u32::from(width), u32::from(height))
    }

    /// The same picture over planes of its own, which are copies of these.
    ///
    /// ```
    /// use haythaw::decode::Yuv420View;
    ///
    /// let kept = Yuv420View::new(2, 1, 2, 1, &[254; 2], &[128], &[128])?.to_frame();
    /// assert_eq!(kept.luma_row(0), Some(&[254; 2][..]));
    /// # Ok::<(), haythaw::decode::DecoderError>(())
    /// ```
    pub fn to_frame(&self) -> Yuv420Frame {
        let View { width, height, luma_stride, chroma_stride, y, u, v } = self.0;
        let frame = Yuv420Frame::new(width, height, y.to_vec(), luma_stride, u.to_vec(), v.to_vec(), chroma_stride);
        frame.expect("haythaw: a view was accepted, and a copy of it is not")
    }

    /// A view that the library accepts.
    pub(crate) fn of(view: View<'a>) -> Self {
        Self(view)
    }

    /// The view as the library takes it.
    pub(crate) fn lent(self) -> View<'a> {
        self.0
    }
}

impl fmt::Debug for Yuv420View<'_> {
    fn fmt(&self, f: &mut fmt::Formatter<'_>) -> fmt::Result {
        f.debug_struct("Yuv420View")
            .field("width", &self.width())
            .field("height", &self.height())
            .finish_non_exhaustive()
    }
}

/// What can be lent as a YUV 4:2:0 picture.
///
/// A call that takes a view takes any of these by reference: a [`Yuv420Frame`], as the original does, a [`Yuv420View`], whatever
/// dereferences to one of them, and a type of the caller's own:
///
/// ```
/// use haythaw::{AsYuv420View, ExclusiveRectangle, Yuv420View, Yuv444Frame};
///
/// /// What some decoder answers.
/// struct Decoded {
///     width: u16,
///     height: u16,
///     planes: [Vec<u8>; 3],
/// }
///
/// impl AsYuv420View for Decoded {
///     fn as_view(&self) -> Yuv420View<'_> {
///         let [y, u, v] = &self.planes;
///         let stride = usize::from(self.width);
///         Yuv420View::new(self.width, self.height, stride, stride.div_ceil(2), y, u, v).expect("whole planes")
///     }
/// }
///
/// let decoded = Decoded { width: 2, height: 2, planes: [vec![53; 4], vec![99], vec![255]] };
/// let whole = ExclusiveRectangle { left: 0, top: 0, right: 2, bottom: 2 };
/// let mut picture = Yuv444Frame::new(2, 2);
/// picture.apply_main_view(&decoded, &[whole]);
/// assert_eq!(picture.to_rgba(&whole), [252, 0, 0, 255].repeat(4));
/// ```
pub trait AsYuv420View {
    /// The picture over its planes, which are lent and not copied.
    fn as_view(&self) -> Yuv420View<'_>;
}

impl AsYuv420View for Yuv420Frame {
    fn as_view(&self) -> Yuv420View<'_> {
        self.as_view()
    }
}

impl AsYuv420View for Yuv420View<'_> {
    fn as_view(&self) -> Yuv420View<'_> {
        *self
    }
}

// So that all that a `&Yuv420Frame` is made of by the compiler, as `&Box<Yuv420Frame>`, is still taken.
impl<T> AsYuv420View for T
where
    T: Deref<Target: AsYuv420View> + ?Sized,
{
    fn as_view(&self) -> Yuv420View<'_> {
        (**self).as_view()
    }
}

/// The row of a plane that the library found.
fn part(plane: &[u8], row: Row) -> Option<&[u8]> {
    library::done("row", row.number);
    row.present.then(|| &plane[row.start..row.start + row.length])
}
