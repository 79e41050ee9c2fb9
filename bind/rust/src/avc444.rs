//! AVC444 and AVC444v2: two 4:2:0 views become one 4:4:4 picture, and a picture becomes its two views.
//!
//! The main view carries luma and a quarter of the chroma, the auxiliary view the rest of the chroma (MS-RDPEGFX 2.2.4.5, 3.3.8.3.2
//! and 3.3.8.3.3). A picture keeps what earlier views left in it, so that an update of luma alone or of chroma alone combines with it.

use core::fmt;

use crate::check::{CheckedPlane, CheckedView, SplitCheck};
use crate::decode::{DecoderError, DecoderResult, Yuv420Frame, YuvMatrix};
use crate::geometry::{ExclusiveRectangle, RectangleFault, UnsoundRectangle};
use crate::library::{self, Size};
pub use crate::output::OutputError;
use crate::view::{AsYuv420View, Yuv420View};

/// Where the auxiliary view keeps the chroma that the main view leaves out.
#[derive(Debug, Clone, Copy, PartialEq, Eq)]
pub enum Avc444Layout {
    /// `RFX_AVC444_BITMAP_STREAM`: odd chroma rows, interleaved in each row of macroblocks (MS-RDPEGFX 3.3.8.3.2).
    V1,
    /// `RFX_AVC444V2_BITMAP_STREAM`: odd chroma columns side by side (MS-RDPEGFX 3.3.8.3.3).
    V2,
}

/// Which width W the auxiliary view of [`Avc444Layout::V2`] is laid out by: V stands W/2 columns after U in its luma, and W/4 after it in
/// its chroma.
///
/// No stream says which rule it is; it is the server's. The original has one rule, [`WidthRule::To16`], and no type for it. At a width of
/// 66, W is 80 by `To16`, 96 by `To32`, and 66 by `Exact`.
#[derive(Debug, Clone, Copy, PartialEq, Eq)]
pub enum WidthRule {
    /// A view's own width rounded up to 16, and a split's stride: what the original does.
    To16,
    /// The picture's width rounded up to 32: for servers that round the width of their surface so.
    To32,
    /// The picture's width, not rounded, as FreeRDP's server lays its views out. For [`Yuv444Frame::apply_auxiliary_view_v2`] alone: where the
    /// width is no multiple of 4, two samples share a place of the view, so that no split could write both.
    Exact,
}

/// A YUV 4:4:4 picture in the colours of MS-RDPEGFX, its planes padded to whole macroblocks.
///
/// The chroma sample at an even row and an even column holds the average of its 2x2 block, as the main view has it. The reverse
/// filter runs when the picture is converted to RGBA, and the planes keep the average.
///
/// ```
/// use haythaw::avc444::{Avc444Layout, Yuv444Frame};
/// use haythaw::geometry::ExclusiveRectangle;
///
/// // A grey strip that has one column of magenta, and the two views of it.
/// let mut rgba = [128, 128, 128, 255].repeat(8 * 2);
/// for row in 0..2 {
///     rgba[(row * 8 + 3) * 4..][..4].copy_from_slice(&[255, 0, 255, 255]);
/// }
/// let strip = Yuv444Frame::from_rgba(&rgba, 8, 2).expect("8 x 2 pixels");
/// let (main, auxiliary) = strip.split(Avc444Layout::V1)?;
///
/// // An update that covers this column alone, at an odd left edge: its chroma comes too.
/// let tick = ExclusiveRectangle { left: 3, top: 0, right: 4, bottom: 2 };
/// let mut picture = Yuv444Frame::new(8, 2);
/// picture.apply_main_view(&main, &[tick]);
/// picture.apply_auxiliary_view(Avc444Layout::V1, &auxiliary, &[tick]);
/// assert_eq!(picture.to_rgba(&tick), strip.to_rgba(&tick));
/// # Ok::<(), haythaw::decode::DecoderError>(())
/// ```
#[derive(Clone)]
pub struct Yuv444Frame {
    width: u16,
    height: u16,
    // INVARIANT: each plane has a third of `allocation_size(width, height)` bytes, and the map `map_size`, so that the library never finds
    // one too short.
    y: Vec<u8>,
    u: Vec<u8>,
    v: Vec<u8>,
    map: Vec<u8>,
}

/// What was counted on the way to RGBA; see [`Yuv444Frame::to_rgba_counted`].
#[derive(Debug, Clone, Copy, Default, PartialEq, Eq, Hash)]
pub struct PixelCounts {
    /// Samples of U that the reverse chroma filter replaced.
    pub filtered_u: usize,
    /// Samples of V that it replaced.
    pub filtered_v: usize,
    /// Pixels in blocks whose colour is not complete; see [`Yuv444Frame::map`].
    pub stale: usize,
}

/// A call of the library that makes a picture of RGBA pixels: 0, 2 or 1.
type Making = fn(&[u8], Size, [&mut [u8]; 4]) -> u32;

/// A strict call of the library that applies a view: 0, 1, 7, 12, 3 or 4.
type Applying = fn(Size, [&mut [u8]; 4], &[u16], library::View<'_>) -> u32;

/// A call of the library that splits a picture: 0, 1, 5 or 6.
type Splitting = fn(Size, [&[u8]; 3], [&mut [u8]; 3], [&mut [u8]; 3]) -> library::Views;

/// A call of the library that checks two views against such a split: 0, 1, 5, 3 or 4.
type Checking = fn(Size, [&[u8]; 3], library::View<'_>, library::View<'_>) -> library::Checked;

impl Yuv444Frame {
    /// A black picture.
    ///
    /// ```
    /// use haythaw::avc444::Yuv444Frame;
    /// use haythaw::geometry::ExclusiveRectangle;
    ///
    /// let picture = Yuv444Frame::new(2, 1);
    /// let whole = ExclusiveRectangle { left: 0, top: 0, right: 2, bottom: 1 };
    /// assert_eq!(picture.to_rgba(&whole), [0, 0, 0, 255, 0, 0, 0, 255]);
    /// ```
    pub fn new(width: u16, height: u16) -> Self {
        let mut picture = Self::blank(width, height);
        let (size, lent) = picture.lent_mut();
        library::done("new", library::new(size, lent));
        picture
    }

    /// The picture of tightly packed RGBA pixels, by the forward transform of MS-RDPEGFX 3.3.8.3.1.
    ///
    /// Alpha is ignored, and so is what follows the last pixel. `None` when `rgba` is shorter than `width * height * 4` bytes.
    ///
    /// The padding is as the original has it, that of a fresh picture, and enters the averages of the last column where the width is
    /// odd, and of the last row where the height is. [`Self::from_rgba_filled`] keeps it out of them.
    ///
    /// ```
    /// use haythaw::avc444::Yuv444Frame;
    ///
    /// assert!(Yuv444Frame::from_rgba(&[0; 24], 3, 2).is_some());
    /// assert!(Yuv444Frame::from_rgba(&[0; 23], 3, 2).is_none());
    /// ```
    pub fn from_rgba(rgba: &[u8], width: u16, height: u16) -> Option<Self> {
        Self::of_pixels(library::from_rgba_rust, rgba, width, height)
    }

    /// The same picture with its edge filled, which the original has no call for.
    ///
    /// Before the averages the last picture column goes into the padding right of it, and then the last picture row into the rows
    /// below, in all three planes: each sample of the padding is the nearest one of the picture. So a main view that comes alone shows
    /// the last column and row with no other colour mixed in. Where both sides are multiples of 16, this and [`Self::from_rgba`] are
    /// the same.
    ///
    /// `None` when `rgba` is shorter than `width * height * 4` bytes.
    ///
    /// ```
    /// use haythaw::avc444::{Avc444Layout, Yuv444Frame};
    /// use haythaw::geometry::ExclusiveRectangle;
    ///
    /// // What the main view alone shows in the last column of a picture that is 5 pixels wide.
    /// let whole = ExclusiveRectangle { left: 0, top: 0, right: 5, bottom: 2 };
    /// let last = ExclusiveRectangle { left: 4, top: 0, right: 5, bottom: 1 };
    /// let shown = |sent: Yuv444Frame| {
    ///     let (main, _) = sent.split(Avc444Layout::V2).expect("no side is above 65,520");
    ///     let mut picture = Yuv444Frame::new(5, 2);
    ///     picture.apply_main_view(&main, &[whole]);
    ///     picture.to_rgba(&last)
    /// };
    ///
    /// let red = [255, 0, 0, 255].repeat(5 * 2);
    /// assert_eq!(shown(Yuv444Frame::from_rgba_filled(&red, 5, 2).expect("5 x 2 pixels")), [252, 0, 0, 255]);
    /// assert_eq!(shown(Yuv444Frame::from_rgba(&red, 5, 2).expect("5 x 2 pixels")), [153, 25, 27, 255]);
    ///
    /// assert!(Yuv444Frame::from_rgba_filled(&red[1..], 5, 2).is_none());
    /// ```
    pub fn from_rgba_filled(rgba: &[u8], width: u16, height: u16) -> Option<Self> {
        Self::of_pixels(library::from_rgba, rgba, width, height)
    }

    /// The picture with its edge filled, by the matrix and in the range that its samples are to have, which the original has no call for.
    ///
    /// By [`YuvMatrix::Bt709Full`] it is [`Self::from_rgba_filled`]. By [`YuvMatrix::Bt601Limited`] it has samples as MS-RDPEVOR's video: Y is
    /// `(66 * r + 129 * g + 25 * b + 128) / 256 + 16`, U `(-38 * r - 74 * g + 112 * b + 128) / 256 + 128` and V
    /// `(112 * r - 94 * g - 18 * b + 128) / 256 + 128`, each quotient rounded down. Such a picture is to be split and sent, and its main view
    /// shown by [`Yuv420Frame::to_rgba_with`]: [`Self::to_rgba`] takes every picture for one of full range.
    ///
    /// `None` when `rgba` is shorter than `width * height * 4` bytes.
    ///
    /// ```
    /// use haythaw::avc444::{Avc444Layout, Yuv444Frame};
    /// use haythaw::decode::YuvMatrix;
    ///
    /// let red = [255, 0, 0, 255].repeat(5 * 3);
    /// let clip = Yuv444Frame::from_rgba_with(YuvMatrix::Bt601Limited, &red, 5, 3).expect("5 x 3 pixels");
    /// let (main, _) = clip.split(Avc444Layout::V1)?;
    /// assert_eq!((main.luma_row(0), main.u_row(0), main.v_row(0)), (Some(&[82; 16][..]), Some(&[90; 8][..]), Some(&[240; 8][..])));
    /// assert_eq!(main.to_rgba_with(YuvMatrix::Bt601Limited).data()[..4], [255, 1, 0, 255]);
    ///
    /// assert!(Yuv444Frame::from_rgba_with(YuvMatrix::Bt601Limited, &red[1..], 5, 3).is_none());
    /// # Ok::<(), haythaw::decode::DecoderError>(())
    /// ```
    pub fn from_rgba_with(matrix: YuvMatrix, rgba: &[u8], width: u16, height: u16) -> Option<Self> {
        let make = match matrix {
            YuvMatrix::Bt601Limited => library::from_rgba_limited,
            YuvMatrix::Bt709Full => library::from_rgba,
        };
        Self::of_pixels(make, rgba, width, height)
    }

    /// Bytes that [`Self::new`] allocates for the three planes of a picture of this size; its [map](Self::map) takes a twelfth of it more.
    ///
    /// ```
    /// use haythaw::avc444::Yuv444Frame;
    ///
    /// assert_eq!(Yuv444Frame::allocation_size(17, 1), 3 * 32 * 16);
    /// assert_eq!(Yuv444Frame::allocation_size(17, 1), Yuv444Frame::new(17, 1).allocated_bytes());
    /// ```
    pub fn allocation_size(width: u16, height: u16) -> usize {
        library::allocation_size(Size { width, height })
    }

    /// Bytes that this picture's three planes hold.
    pub fn allocated_bytes(&self) -> usize {
        self.y.len() + self.u.len() + self.v.len()
    }

    /// Width in pixels.
    pub fn width(&self) -> u16 {
        self.width
    }

    /// Height in pixels.
    pub fn height(&self) -> u16 {
        self.height
    }

    /// The map of stale colour: one byte for each 2x2 block of the padded picture, row by row.
    ///
    /// 0: the block never had a main view. 1: it had one, and no auxiliary view has completed it since. 2: complete. A main view sets 1 where
    /// it takes any chroma of the block; an auxiliary view turns 1 into 2 where it takes all three of the block's other samples, in one
    /// call. A fresh picture is 0 everywhere, and one of RGBA pixels 2. A row has half as many bytes as the width rounded up to 16.
    ///
    /// ```
    /// use haythaw::avc444::{Avc444Layout, Yuv444Frame};
    /// use haythaw::geometry::ExclusiveRectangle;
    ///
    /// let sent = Yuv444Frame::from_rgba(&[255; 4 * 5 * 5], 5, 5).expect("5 x 5 pixels");
    /// let (main, auxiliary) = sent.split(Avc444Layout::V2)?;
    /// let mut picture = Yuv444Frame::new(5, 5);
    /// assert_eq!(picture.map(), [0; 8 * 8]);
    ///
    /// // One pixel, whose block is the second of the first row: first its main view, then its auxiliary view.
    /// let pixel = ExclusiveRectangle { left: 3, top: 0, right: 4, bottom: 1 };
    /// picture.apply_main_view(&main, &[pixel]);
    /// assert_eq!(picture.map()[..3], [0, 1, 0]);
    /// picture.apply_auxiliary_view(Avc444Layout::V2, &auxiliary, &[pixel]);
    /// assert_eq!(picture.map()[..3], [0, 2, 0]);
    /// # Ok::<(), haythaw::decode::DecoderError>(())
    /// ```
    pub fn map(&self) -> &[u8] {
        &self.map
    }

    /// Takes luma and a quarter of the chroma from a main view, within `rects`.
    ///
    /// Luma is taken within the rectangles only, chroma for every 2x2 block that they touch, since a block shares its sample. There
    /// the picture is the view's 4:2:0 picture until an auxiliary view comes.
    ///
    /// ```
    /// use haythaw::avc444::Yuv444Frame;
    /// use haythaw::decode::Yuv420Frame;
    /// use haythaw::geometry::ExclusiveRectangle;
    ///
    /// let red = Yuv420Frame::new(16, 16, vec![53; 256], 16, vec![99; 64], vec![255; 64], 8)?;
    /// let mut picture = Yuv444Frame::new(5, 5);
    /// let pixel = ExclusiveRectangle { left: 3, top: 0, right: 4, bottom: 1 };
    /// picture.apply_main_view(&red, &[pixel]);
    /// assert_eq!(picture.to_rgba(&pixel), [252, 0, 0, 255]);
    /// # Ok::<(), haythaw::decode::DecoderError>(())
    /// ```
    pub fn apply_main_view(&mut self, view: &(impl AsYuv420View + ?Sized), rects: &[ExclusiveRectangle]) {
        let (size, lent) = self.lent_mut();
        let number = library::apply_main_view(size, lent, library::numbers_of(rects), view.as_view().lent());
        library::done("apply_main_view", number);
    }

    /// Takes the chroma that the main view leaves out from an auxiliary view, for every 2x2 block that `rects` touch.
    ///
    /// Luma and the main view's chroma stay as they are. See [`Yuv444Frame`] for an example. Layout V2 is read by the original's rule for
    /// its width; [`Self::apply_auxiliary_view_v2`] takes another one too.
    pub fn apply_auxiliary_view(
        &mut self,
        layout: Avc444Layout,
        view: &(impl AsYuv420View + ?Sized),
        rects: &[ExclusiveRectangle],
    ) {
        let apply = match layout {
            Avc444Layout::V1 => library::apply_auxiliary_v1,
            Avc444Layout::V2 => library::apply_auxiliary_v2,
        };
        let (size, lent) = self.lent_mut();
        library::done("apply_auxiliary_view", apply(size, lent, library::numbers_of(rects), view.as_view().lent()));
    }

    /// The same for an auxiliary view of layout V2, by a rule for its width, which the original has no call for.
    ///
    /// By [`WidthRule::To16`] it is [`Self::apply_auxiliary_view`] with [`Avc444Layout::V2`]. By [`WidthRule::To32`] and [`WidthRule::Exact`]
    /// the picture's width says where V stands in the view, and the view's own width which samples there are.
    ///
    /// ```
    /// use haythaw::avc444::{WidthRule, Yuv444Frame};
    /// use haythaw::geometry::ExclusiveRectangle;
    ///
    /// // A column of magenta on a surface that is 48 pixels wide, from a server that rounds that up to 64.
    /// let mut rgba = [128, 128, 128, 255].repeat(48 * 2);
    /// for row in 0..2 {
    ///     rgba[(row * 48 + 33) * 4..][..4].copy_from_slice(&[255, 0, 255, 255]);
    /// }
    /// let sent = Yuv444Frame::from_rgba(&rgba, 48, 2).expect("48 x 2 pixels");
    /// let (main, auxiliary) = sent.split_v2(WidthRule::To32)?;
    ///
    /// let whole = ExclusiveRectangle { left: 0, top: 0, right: 48, bottom: 2 };
    /// let mut picture = Yuv444Frame::new(48, 2);
    /// picture.apply_main_view(&main, &[whole]);
    /// picture.apply_auxiliary_view_v2(WidthRule::To32, &auxiliary, &[whole]);
    /// assert_eq!(picture.to_rgba(&whole), sent.to_rgba(&whole));
    /// # Ok::<(), haythaw::decode::DecoderError>(())
    /// ```
    pub fn apply_auxiliary_view_v2(
        &mut self,
        rule: WidthRule,
        view: &(impl AsYuv420View + ?Sized),
        rects: &[ExclusiveRectangle],
    ) {
        let apply = match rule {
            WidthRule::To16 => library::apply_auxiliary_v2,
            WidthRule::To32 => library::apply_auxiliary_v2_32,
            WidthRule::Exact => library::apply_auxiliary_v2_exact,
        };
        let (size, lent) = self.lent_mut();
        library::done("apply_auxiliary_view_v2", apply(size, lent, library::numbers_of(rects), view.as_view().lent()));
    }

    /// [`Self::apply_main_view`] for a list of which every rectangle is to be sound, which the original has no call for.
    ///
    /// A rectangle is sound where it has a column and a row and lies in the picture; it may end at the width and at the height. The calls
    /// without `_strict` clip one that is not, and nobody hears of it: they are for old servers. These are for a server that is
    /// to be caught. An empty list is sound, and a list that is sound does what it does there.
    ///
    /// # Errors
    ///
    /// The first rectangle that is not sound, if one is. Then the list is refused whole: the picture and its [map](Self::map) are
    /// as they were.
    ///
    /// ```
    /// use haythaw::avc444::Yuv444Frame;
    /// use haythaw::decode::Yuv420Frame;
    /// use haythaw::geometry::{ExclusiveRectangle, RectangleFault};
    ///
    /// let red = Yuv420Frame::new(16, 16, vec![53; 256], 16, vec![99; 64], vec![255; 64], 8)?;
    /// let mut picture = Yuv444Frame::new(5, 5);
    /// let corner = ExclusiveRectangle { left: 4, top: 4, right: 5, bottom: 5 };
    /// let off = ExclusiveRectangle { left: 4, top: 4, right: 6, bottom: 5 };
    ///
    /// let unsound = picture.apply_main_view_strict(&red, &[corner, off]).unwrap_err();
    /// assert_eq!((unsound.index, unsound.rectangle, unsound.fault), (1, off, RectangleFault::RightAboveWidth));
    /// assert_eq!(picture.to_rgba(&corner), [0, 0, 0, 255]);
    ///
    /// picture.apply_main_view_strict(&red, &[corner])?;
    /// assert_eq!(picture.to_rgba(&corner), [252, 0, 0, 255]);
    /// # Ok::<(), Box<dyn std::error::Error>>(())
    /// ```
    pub fn apply_main_view_strict(
        &mut self,
        view: &(impl AsYuv420View + ?Sized),
        rects: &[ExclusiveRectangle],
    ) -> Result<(), UnsoundRectangle> {
        self.apply_strictly("apply_main_view_strict", library::apply_main_view_strict, view.as_view(), rects)
    }

    /// [`Self::apply_auxiliary_view`] for a list of which every rectangle is to be sound; see [`Self::apply_main_view_strict`].
    ///
    /// # Errors
    ///
    /// The first rectangle that is not sound, if one is. Then the list is refused whole: the picture and its [map](Self::map) are
    /// as they were.
    ///
    /// ```
    /// use haythaw::avc444::{Avc444Layout, Yuv444Frame};
    /// use haythaw::geometry::ExclusiveRectangle;
    ///
    /// let sent = Yuv444Frame::from_rgba(&[255; 4 * 5 * 5], 5, 5).expect("5 x 5 pixels");
    /// let (main, auxiliary) = sent.split(Avc444Layout::V1)?;
    /// let mut picture = Yuv444Frame::new(5, 5);
    /// let whole = ExclusiveRectangle { left: 0, top: 0, right: 5, bottom: 5 };
    /// picture.apply_main_view_strict(&main, &[whole])?;
    ///
    /// let below = ExclusiveRectangle { bottom: 6, ..whole };
    /// let unsound = picture.apply_auxiliary_view_strict(Avc444Layout::V1, &auxiliary, &[whole, below]).unwrap_err();
    /// assert_eq!((unsound.index, unsound.rectangle), (1, below));
    /// assert_eq!(picture.map()[..4], [1, 1, 1, 0]);
    ///
    /// picture.apply_auxiliary_view_strict(Avc444Layout::V1, &auxiliary, &[whole])?;
    /// assert_eq!(picture.map()[..4], [2, 2, 2, 0]);
    /// # Ok::<(), Box<dyn std::error::Error>>(())
    /// ```
    pub fn apply_auxiliary_view_strict(
        &mut self,
        layout: Avc444Layout,
        view: &(impl AsYuv420View + ?Sized),
        rects: &[ExclusiveRectangle],
    ) -> Result<(), UnsoundRectangle> {
        let apply = match layout {
            Avc444Layout::V1 => library::apply_auxiliary_v1_strict,
            Avc444Layout::V2 => library::apply_auxiliary_v2_strict,
        };
        self.apply_strictly("apply_auxiliary_view_strict", apply, view.as_view(), rects)
    }

    /// [`Self::apply_auxiliary_view_v2`] for a list of which every rectangle is to be sound; see [`Self::apply_main_view_strict`].
    ///
    /// What is sound depends on the picture's width, whatever the rule makes of it.
    ///
    /// # Errors
    ///
    /// The first rectangle that is not sound, if one is. Then the list is refused whole: the picture and its [map](Self::map) are
    /// as they were.
    ///
    /// ```
    /// use haythaw::avc444::{WidthRule, Yuv444Frame};
    /// use haythaw::geometry::ExclusiveRectangle;
    ///
    /// let sent = Yuv444Frame::from_rgba(&[255; 4 * 48], 48, 1).expect("48 pixels");
    /// let (main, auxiliary) = sent.split_v2(WidthRule::To32)?;
    /// let whole = ExclusiveRectangle { left: 0, top: 0, right: 48, bottom: 1 };
    /// let mut picture = Yuv444Frame::new(48, 1);
    /// picture.apply_main_view_strict(&main, &[whole])?;
    /// picture.apply_auxiliary_view_v2_strict(WidthRule::To32, &auxiliary, &[whole])?;
    /// assert_eq!(picture.to_rgba(&whole), sent.to_rgba(&whole));
    ///
    /// // The view is 64 wide, and the picture is not.
    /// let wide = ExclusiveRectangle { right: 64, ..whole };
    /// assert!(picture.apply_auxiliary_view_v2_strict(WidthRule::To32, &auxiliary, &[wide]).is_err());
    /// # Ok::<(), Box<dyn std::error::Error>>(())
    /// ```
    pub fn apply_auxiliary_view_v2_strict(
        &mut self,
        rule: WidthRule,
        view: &(impl AsYuv420View + ?Sized),
        rects: &[ExclusiveRectangle],
    ) -> Result<(), UnsoundRectangle> {
        let apply = match rule {
            WidthRule::To16 => library::apply_auxiliary_v2_strict,
            WidthRule::To32 => library::apply_auxiliary_v2_32_strict,
            WidthRule::Exact => library::apply_auxiliary_v2_exact_strict,
        };
        self.apply_strictly("apply_auxiliary_view_v2_strict", apply, view.as_view(), rects)
    }

    /// The first rectangle of a list that is not sound in this picture, or `None` where all are.
    ///
    /// For a log beside the calls that clip: it applies nothing. The strict calls answer it by themselves.
    ///
    /// ```
    /// use haythaw::avc444::Yuv444Frame;
    /// use haythaw::geometry::ExclusiveRectangle;
    ///
    /// let picture = Yuv444Frame::new(5, 5);
    /// let whole = ExclusiveRectangle { left: 0, top: 0, right: 5, bottom: 5 };
    /// assert_eq!(picture.first_unsound(&[whole, whole]), None);
    /// assert_eq!(picture.first_unsound(&[]), None);
    ///
    /// let unsound = picture.first_unsound(&[whole, ExclusiveRectangle { bottom: 6, ..whole }]).expect("the second one");
    /// assert_eq!(
    ///     unsound.to_string(),
    ///     "rectangle 1 of the list, left 0, top 0, right 5, bottom 6: its bottom edge is above the picture's height"
    /// );
    /// ```
    pub fn first_unsound(&self, rects: &[ExclusiveRectangle]) -> Option<UnsoundRectangle> {
        let found = library::first_unsound(self.lent().0, library::numbers_of(rects));
        library::done("first_unsound", found.number);
        found.present.then(|| UnsoundRectangle {
            index: found.index,
            rectangle: rects[found.index],
            fault: RectangleFault::of(found.fault),
        })
    }

    /// The pixels of `rect`, clipped to the picture, as tightly packed RGBA: the reverse transform of MS-RDPEGFX 3.3.8.3.1 after the
    /// reverse chroma filter of 3.3.8.3.2.
    ///
    /// ```
    /// use haythaw::avc444::Yuv444Frame;
    /// use haythaw::geometry::ExclusiveRectangle;
    ///
    /// let picture = Yuv444Frame::new(4, 4);
    /// let corner = ExclusiveRectangle { left: 3, top: 2, right: 9, bottom: 9 };
    /// assert_eq!(picture.to_rgba(&corner).len(), 2 * 4);
    /// let off = ExclusiveRectangle { left: 4, top: 0, right: 9, bottom: 9 };
    /// assert!(picture.to_rgba(&off).is_empty());
    /// ```
    pub fn to_rgba(&self, rect: &ExclusiveRectangle) -> Vec<u8> {
        self.to_rgba_counted(rect).0
    }

    /// The same pixels, how many samples the reverse chroma filter replaced on their way, and how many of the pixels are stale.
    ///
    /// The filter looks at one sample of U and one of V in each 2x2 block, that at even row and even column of the picture. It counts
    /// where it answers another value than the block's average, and `rect` has that pixel. A pixel is stale where the map does not call
    /// its block complete: its colour may be half old.
    ///
    /// ```
    /// use haythaw::avc444::{PixelCounts, Yuv444Frame};
    /// use haythaw::geometry::ExclusiveRectangle;
    ///
    /// // A magenta pixel beside white ones: its colour comes back from the average of the block.
    /// let mut rgba = [255; 4 * 4];
    /// rgba[..4].copy_from_slice(&[255, 0, 255, 255]);
    /// let picture = Yuv444Frame::from_rgba(&rgba, 2, 2).expect("2 x 2 pixels");
    /// let whole = ExclusiveRectangle { left: 0, top: 0, right: 2, bottom: 2 };
    /// let (shown, counts) = picture.to_rgba_counted(&whole);
    /// assert_eq!(counts, PixelCounts { filtered_u: 1, filtered_v: 1, stale: 0 });
    /// assert_eq!(shown, picture.to_rgba(&whole));
    ///
    /// // The pixel at its right is not one that the filter looks at.
    /// let beside = ExclusiveRectangle { left: 1, ..whole };
    /// assert_eq!(picture.to_rgba_counted(&beside).1, PixelCounts::default());
    ///
    /// // Of a fresh picture no block has had a view.
    /// assert_eq!(Yuv444Frame::new(2, 2).to_rgba_counted(&whole).1.stale, 4);
    /// ```
    pub fn to_rgba_counted(&self, rect: &ExclusiveRectangle) -> (Vec<u8>, PixelCounts) {
        let (across, down) = self.clipped(rect);
        let mut rgba = vec![0; across * down * 4];
        let (count, counts) = self.pixels([rect.left, rect.top, rect.right, rect.bottom], &mut rgba);
        rgba.truncate(count);
        (rgba, counts)
    }

    /// The same pixels into a buffer of the caller's: row after row, each `stride` bytes after the one before, from its first byte on.
    ///
    /// Bytes between the end of a row and the next one, and after the last row, stay as they are. Where `rect` has nothing of the
    /// picture, nothing is written, and any buffer and stride will do. Where rows follow each other with nothing between, it is one call of
    /// the library, else one for each row.
    ///
    /// # Errors
    ///
    /// When `stride` is narrower than a row of pixels, or `out` ends before the last row does. Then nothing is written.
    ///
    /// ```
    /// use haythaw::{ExclusiveRectangle, PixelCounts, Yuv444Frame};
    ///
    /// // A window of 2 x 2 pixels, in rows of 12 bytes: two pixels, and four bytes that are not ours.
    /// let picture = Yuv444Frame::from_rgba(&[255, 0, 0, 255].repeat(4 * 4), 4, 4).expect("4 x 4 pixels");
    /// let corner = ExclusiveRectangle { left: 2, top: 2, right: 4, bottom: 4 };
    /// let mut out = [7; 24];
    /// let counts = picture.to_rgba_into(&corner, &mut out, 12)?;
    /// assert_eq!(out, *[252, 0, 0, 255, 252, 0, 0, 255, 7, 7, 7, 7].repeat(2));
    /// assert_eq!(counts, PixelCounts::default());
    ///
    /// let error = picture.to_rgba_into(&corner, &mut out[..19], 12).unwrap_err();
    /// assert_eq!(error.to_string(), "the output has 19 bytes, and the rows of pixels take 20");
    /// # Ok::<(), haythaw::OutputError>(())
    /// ```
    pub fn to_rgba_into(
        &self,
        rect: &ExclusiveRectangle,
        out: &mut [u8],
        stride: usize,
    ) -> Result<PixelCounts, OutputError> {
        let (across, down) = self.clipped(rect);
        if across == 0 || down == 0 {
            return Ok(PixelCounts::default());
        }
        let row = across * 4;
        if stride < row {
            return Err(OutputError::StrideNarrow { stride, row });
        }
        // No slice is as long as the largest number.
        let needed = stride.saturating_mul(down - 1).saturating_add(row);
        if out.len() < needed {
            return Err(OutputError::OutputShort { length: out.len(), needed });
        }
        let out = &mut out[..needed];
        if stride == row {
            return Ok(self.pixels([rect.left, rect.top, rect.right, rect.bottom], out).1);
        }
        let mut all = PixelCounts::default();
        for (out, top) in out.chunks_mut(stride).zip(rect.top..) {
            let (_, counts) = self.pixels([rect.left, top, rect.right, top + 1], &mut out[..row]);
            all.filtered_u += counts.filtered_u;
            all.filtered_v += counts.filtered_v;
            all.stale += counts.stale;
        }
        Ok(all)
    }

    /// Splits the picture into its main view and its auxiliary view, both as large as the padded planes.
    ///
    /// # Errors
    ///
    /// When the padded width or height is above 65,535: that is, when a side is above 65,520.
    ///
    /// ```
    /// use haythaw::avc444::{Avc444Layout, Yuv444Frame};
    ///
    /// let (main, auxiliary) = Yuv444Frame::new(20, 1).split(Avc444Layout::V2)?;
    /// assert_eq!((main.width(), main.height()), (32, 16));
    /// assert_eq!((auxiliary.width(), auxiliary.height()), (32, 16));
    /// assert!(Yuv444Frame::new(65_521, 0).split(Avc444Layout::V2).is_err());
    /// # Ok::<(), haythaw::decode::DecoderError>(())
    /// ```
    pub fn split(&self, layout: Avc444Layout) -> DecoderResult<(Yuv420Frame, Yuv420Frame)> {
        let split = match layout {
            Avc444Layout::V1 => library::split_v1,
            Avc444Layout::V2 => library::split_v2,
        };
        self.split_by(split, 16)
    }

    /// The same into layout V2, by a rule for the width, which the original has no call for.
    ///
    /// By [`WidthRule::To16`] it is [`Self::split`] with [`Avc444Layout::V2`]. By [`WidthRule::To32`] both views are as wide as the picture's
    /// width rounded up to 32, as if its planes were so wide and had Y 0, and U and V 128, in the columns past their own.
    ///
    /// # Errors
    ///
    /// When the width of the views or their height is above 65,535: that is, when the height is above 65,520, or the width above 65,520 by
    /// [`WidthRule::To16`] and above 65,504 by [`WidthRule::To32`]. By [`WidthRule::Exact`] always: there is no split by it.
    ///
    /// ```
    /// use haythaw::avc444::{WidthRule, Yuv444Frame};
    ///
    /// let red = Yuv444Frame::from_rgba_filled(&[255, 0, 0, 255].repeat(48), 48, 1).expect("48 pixels");
    /// let (main, auxiliary) = red.split_v2(WidthRule::To32)?;
    /// assert_eq!((main.width(), auxiliary.width()), (64, 64));
    /// let row = [vec![99; 24], vec![128; 8], vec![255; 24], vec![128; 8]].concat();
    /// assert_eq!(auxiliary.luma_row(0), Some(&row[..]));
    ///
    /// assert_eq!(red.split_v2(WidthRule::To16)?.1.width(), 48);
    /// assert!(Yuv444Frame::new(65_505, 0).split_v2(WidthRule::To32).is_err());
    /// assert!(red.split_v2(WidthRule::Exact).is_err());
    /// # Ok::<(), haythaw::decode::DecoderError>(())
    /// ```
    pub fn split_v2(&self, rule: WidthRule) -> DecoderResult<(Yuv420Frame, Yuv420Frame)> {
        match rule {
            WidthRule::To16 => self.split_by(library::split_v2, 16),
            WidthRule::To32 => self.split_by(library::split_v2_32, 32),
            WidthRule::Exact => Err(not_rounded()),
        }
    }

    /// Whether two views that someone else made are the [split](Self::split) of this picture, which the original has no call for.
    ///
    /// For an encoder of one's own: its two views are held against the split before H.264 touches them. It is a yes exactly where both have
    /// the width and the height of the split's views and every sample is the split's, those of the padding too. Strides are no sizes, and
    /// bytes between the width and the stride are not looked at. A no names the first wrong sample, or the view whose size is wrong.
    ///
    /// # Errors
    ///
    /// Where [`Self::split`] has none: when a side is above 65,520.
    ///
    /// ```
    /// use haythaw::avc444::{Avc444Layout, Yuv444Frame};
    /// use haythaw::check::SplitCheck;
    /// use haythaw::decode::Yuv420Frame;
    ///
    /// let picture = Yuv444Frame::new(20, 2);
    /// let (main, auxiliary) = picture.split(Avc444Layout::V1)?;
    /// assert_eq!(picture.check_split(Avc444Layout::V1, &main, &auxiliary)?, SplitCheck::Same);
    ///
    /// // Another encoder's auxiliary view, 32 by 16, with a wrong sample in U and one in V.
    /// let (mut u, mut v) = (vec![128; 16 * 8], vec![128; 16 * 8]);
    /// u[3 * 16 + 9] = 130;
    /// v[0] = 127;
    /// let theirs = Yuv420Frame::new(32, 16, vec![128; 32 * 16], 32, u, v, 16)?;
    /// let said = picture.check_split(Avc444Layout::V1, &main, &theirs)?;
    /// assert!(!said.is_same());
    /// assert_eq!(said.to_string(), "auxiliary view, U, row 3, column 9: 130, the split has 128");
    /// # Ok::<(), haythaw::decode::DecoderError>(())
    /// ```
    pub fn check_split(
        &self,
        layout: Avc444Layout,
        main: &(impl AsYuv420View + ?Sized),
        auxiliary: &(impl AsYuv420View + ?Sized),
    ) -> DecoderResult<SplitCheck> {
        let check = match layout {
            Avc444Layout::V1 => library::check_v1,
            Avc444Layout::V2 => library::check_v2,
        };
        self.check_by(check, main.as_view(), auxiliary.as_view(), || self.split(layout))
    }

    /// The same for views of layout V2, by a rule for the width: whether they are what [`Self::split_v2`] makes.
    ///
    /// By [`WidthRule::To16`] it is [`Self::check_split`] with [`Avc444Layout::V2`].
    ///
    /// # Errors
    ///
    /// Where [`Self::split_v2`] has none: when a side is too long for it, and by [`WidthRule::Exact`] always.
    ///
    /// ```
    /// use haythaw::avc444::{Avc444Layout, WidthRule, Yuv444Frame};
    /// use haythaw::check::SplitCheck;
    ///
    /// // Views that were split by the one rule, where the other is asked for.
    /// let picture = Yuv444Frame::new(48, 48);
    /// let (main, auxiliary) = picture.split_v2(WidthRule::To16)?;
    /// assert_eq!(picture.check_split_v2(WidthRule::To16, &main, &auxiliary)?, SplitCheck::Same);
    /// let said = picture.check_split_v2(WidthRule::To32, &main, &auxiliary)?;
    /// assert_eq!(said.to_string(), "main view is 48x48, the split's views are 64x48");
    /// assert!(picture.check_split_v2(WidthRule::Exact, &main, &auxiliary).is_err());
    /// # Ok::<(), haythaw::decode::DecoderError>(())
    /// ```
    pub fn check_split_v2(
        &self,
        rule: WidthRule,
        main: &(impl AsYuv420View + ?Sized),
        auxiliary: &(impl AsYuv420View + ?Sized),
    ) -> DecoderResult<SplitCheck> {
        let check = match rule {
            WidthRule::To16 => library::check_v2,
            WidthRule::To32 => library::check_v2_32,
            WidthRule::Exact => return Err(not_rounded()),
        };
        self.check_by(check, main.as_view(), auxiliary.as_view(), || self.split_v2(rule))
    }

    /// A view by a strict call of the library, which refuses nothing but a list that is not sound.
    fn apply_strictly(
        &mut self,
        call: &str,
        apply: Applying,
        view: Yuv420View<'_>,
        rects: &[ExclusiveRectangle],
    ) -> Result<(), UnsoundRectangle> {
        let (size, lent) = self.lent_mut();
        let number = apply(size, lent, library::numbers_of(rects), view.lent());
        if number == 12 {
            let unsound = self.first_unsound(rects);
            return Err(unsound.expect("haythaw: a list was refused of which every rectangle is sound"));
        }
        library::done(call, number);
        Ok(())
    }

    /// How many columns and rows of a rectangle are in the picture.
    fn clipped(&self, rect: &ExclusiveRectangle) -> (usize, usize) {
        let across = rect.right.min(self.width).saturating_sub(rect.left);
        let down = rect.bottom.min(self.height).saturating_sub(rect.top);
        (across.into(), down.into())
    }

    /// The pixels of a rectangle by the library, into a buffer that has room for them: how many bytes that are, and what was counted.
    fn pixels(&self, rect: [u16; 4], out: &mut [u8]) -> (usize, PixelCounts) {
        let (size, [y, u, v]) = self.lent();
        let answer = library::to_rgba(size, [y, u, v, &self.map], rect, out);
        library::done("to_rgba", answer.number);
        let library::Pixels { count, filtered_u, filtered_v, stale, .. } = answer;
        (count, PixelCounts { filtered_u, filtered_v, stale })
    }

    /// Both views by a call of the library that makes them as wide as the width rounded up to `unit`.
    fn split_by(&self, split: Splitting, unit: usize) -> DecoderResult<(Yuv420Frame, Yuv420Frame)> {
        let (mut main, mut auxiliary) = (self.view_planes(unit), self.view_planes(unit));
        let (size, planes) = self.lent();
        let views =
            split(size, planes, main.each_mut().map(Vec::as_mut_slice), auxiliary.each_mut().map(Vec::as_mut_slice));
        if views.number == 5 {
            return Err(too_large());
        }
        library::done("split", views.number);
        let wrap = |[y, u, v]: [Vec<u8>; 3]| {
            Yuv420Frame::new(views.width, views.height, y, views.luma_stride, u, v, views.chroma_stride)
        };
        Ok((wrap(main)?, wrap(auxiliary)?))
    }

    /// Two views by a call of the library that checks them. The split itself is made only for a no, to say what would be right.
    fn check_by(
        &self,
        check: Checking,
        main: Yuv420View<'_>,
        auxiliary: Yuv420View<'_>,
        split: impl FnOnce() -> DecoderResult<(Yuv420Frame, Yuv420Frame)>,
    ) -> DecoderResult<SplitCheck> {
        let (size, planes) = self.lent();
        let checked = check(size, planes, main.lent(), auxiliary.lent());
        if checked.number == 5 {
            return Err(too_large());
        }
        library::done("check_split", checked.number);
        if checked.same {
            return Ok(SplitCheck::Same);
        }
        let right = split()?;
        let (right_main, right_auxiliary) = (right.0.as_view(), right.1.as_view());
        if checked.named {
            let (view, plane) = (CheckedView::of(checked.view), CheckedPlane::of(checked.plane));
            let (row, column) = (checked.row, checked.column);
            let found = plane.sample(view.among(main, auxiliary), row, column);
            let expected = plane.sample(view.among(right_main, right_auxiliary), row, column);
            return Ok(SplitCheck::Wrong { view, plane, row, column, found, expected });
        }
        let sizes = |view: Yuv420View<'_>| (view.width(), view.height());
        let expected = sizes(right_main);
        let view = if sizes(main) == expected { CheckedView::Auxiliary } else { CheckedView::Main };
        Ok(SplitCheck::Sizes { view, found: sizes(view.among(main, auxiliary)), expected })
    }

    /// The picture that a call of the library makes of RGBA pixels.
    fn of_pixels(make: Making, rgba: &[u8], width: u16, height: u16) -> Option<Self> {
        // Pixels that are too few (2) are refused before planes that are too short (1). So the library is asked over no planes first,
        // and a picture that there will not be is never allocated.
        if make(rgba, Size { width, height }, [&mut [], &mut [], &mut [], &mut []]) == 2 {
            return None;
        }
        let mut picture = Self::blank(width, height);
        let (size, lent) = picture.lent_mut();
        library::done("from_rgba", make(rgba, size, lent));
        Some(picture)
    }

    /// Planes and a map of this size, for the library to write.
    fn blank(width: u16, height: u16) -> Self {
        let plane = Self::allocation_size(width, height) / 3;
        let map = vec![0; library::map_size(Size { width, height })];
        Self { width, height, y: vec![0; plane], u: vec![0; plane], v: vec![0; plane], map }
    }

    /// Planes for a view of this picture, for the library to write: luma as wide as the width rounded up to `unit`, with as many rows as
    /// Y, and chroma with half as many columns and rows.
    fn view_planes(&self, unit: usize) -> [Vec<u8>; 3] {
        let luma = usize::from(self.width).next_multiple_of(unit) * usize::from(self.height).next_multiple_of(16);
        [vec![0; luma], vec![0; luma / 4], vec![0; luma / 4]]
    }

    /// The picture's planes as the library reads them.
    fn lent(&self) -> (Size, [&[u8]; 3]) {
        (Size { width: self.width, height: self.height }, [&self.y, &self.u, &self.v])
    }

    /// The picture's planes and its map as the library writes them.
    fn lent_mut(&mut self) -> (Size, [&mut [u8]; 4]) {
        (Size { width: self.width, height: self.height }, [&mut self.y, &mut self.u, &mut self.v, &mut self.map])
    }
}

/// A side of the picture is longer than a split's may be: in the original's words.
fn too_large() -> DecoderError {
    DecoderError::msg("padded AVC444 picture exceeds 65535 pixels")
}

/// By the rule Exact there is no split.
fn not_rounded() -> DecoderError {
    DecoderError::msg("no picture is split by a width that is not rounded")
}

impl fmt::Debug for Yuv444Frame {
    fn fmt(&self, f: &mut fmt::Formatter<'_>) -> fmt::Result {
        f.debug_struct("Yuv444Frame").field("width", &self.width).field("height", &self.height).finish_non_exhaustive()
    }
}
