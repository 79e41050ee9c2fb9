//! The rectangle that pictures are updated and read by, and what can be wrong with one.

use core::fmt;

/// A rectangle whose `right` and `bottom` edges are outside it.
///
/// Stands for `ironrdp_pdu::geometry::ExclusiveRectangle`. Any four numbers are a rectangle: an empty, a reversed or a distant one
/// takes what the rules of each call say, mostly nothing.
///
/// ```
/// use haythaw::geometry::ExclusiveRectangle;
///
/// let tick = ExclusiveRectangle { left: 3, top: 0, right: 4, bottom: 8 };
/// assert_eq!(tick.right - tick.left, 1);
/// ```
// The library takes a list of rectangles as numbers in fours, in this order: `library::numbers_of` counts on it.
#[repr(C)]
#[derive(Debug, Clone, Copy, PartialEq, Eq)]
pub struct ExclusiveRectangle {
    /// The first column inside.
    pub left: u16,
    /// The first row inside.
    pub top: u16,
    /// The first column to the right of it.
    pub right: u16,
    /// The first row below it.
    pub bottom: u16,
}

/// Left, top, right and bottom, as the library and the wire have them.
///
/// ```
/// use haythaw::geometry::ExclusiveRectangle;
///
/// let tick = ExclusiveRectangle::from([3, 0, 4, 8]);
/// assert_eq!(tick, ExclusiveRectangle { left: 3, top: 0, right: 4, bottom: 8 });
/// assert_eq!(<[u16; 4]>::from(tick), [3, 0, 4, 8]);
/// ```
impl From<[u16; 4]> for ExclusiveRectangle {
    fn from([left, top, right, bottom]: [u16; 4]) -> Self {
        Self { left, top, right, bottom }
    }
}

impl From<ExclusiveRectangle> for [u16; 4] {
    fn from(rect: ExclusiveRectangle) -> Self {
        [rect.left, rect.top, rect.right, rect.bottom]
    }
}

/// The first rectangle of a list that is not sound: that is empty, reversed or reaches past the picture.
///
/// The original has no such type; it clips. [`Yuv444Frame::apply_main_view_strict`] and its likes refuse a list with it, and
/// [`Yuv444Frame::first_unsound`] finds it without applying anything.
///
/// ```
/// use haythaw::avc444::Yuv444Frame;
/// use haythaw::geometry::{ExclusiveRectangle, RectangleFault, UnsoundRectangle};
///
/// let whole = ExclusiveRectangle { left: 0, top: 0, right: 5, bottom: 4 };
/// let empty = ExclusiveRectangle { left: 5, ..whole };
/// let found = Yuv444Frame::new(5, 4).first_unsound(&[whole, whole, whole, empty]).expect("the last one is empty");
/// assert_eq!(found, UnsoundRectangle { index: 3, rectangle: empty, fault: RectangleFault::LeftNotBelowRight });
/// assert_eq!(
///     found.to_string(),
///     "rectangle 3 of the list, left 5, top 0, right 5, bottom 4: its left edge is not below its right edge"
/// );
/// ```
///
/// [`Yuv444Frame::apply_main_view_strict`]: crate::avc444::Yuv444Frame::apply_main_view_strict
/// [`Yuv444Frame::first_unsound`]: crate::avc444::Yuv444Frame::first_unsound
#[derive(Debug, Clone, Copy, PartialEq, Eq)]
pub struct UnsoundRectangle {
    /// Which one of the list it is, counted from 0. All before it are sound.
    pub index: usize,
    /// The rectangle itself.
    pub rectangle: ExclusiveRectangle,
    /// What is wrong with it; where several things are, the first in the order of [`RectangleFault`].
    pub fault: RectangleFault,
}

impl fmt::Display for UnsoundRectangle {
    fn fmt(&self, f: &mut fmt::Formatter<'_>) -> fmt::Result {
        let Self { index, rectangle: ExclusiveRectangle { left, top, right, bottom }, fault } = self;
        write!(f, "rectangle {index} of the list, left {left}, top {top}, right {right}, bottom {bottom}: {fault}")
    }
}

impl core::error::Error for UnsoundRectangle {}

/// Why a rectangle is not sound in a picture.
///
/// A rectangle that ends at the picture's width and height is sound.
#[derive(Debug, Clone, Copy, PartialEq, Eq)]
pub enum RectangleFault {
    /// `left` is not below `right`: it has no column.
    LeftNotBelowRight,
    /// `top` is not below `bottom`: it has no row.
    TopNotBelowBottom,
    /// `right` is above the picture's width.
    RightAboveWidth,
    /// `bottom` is above the picture's height.
    BottomAboveHeight,
}

impl RectangleFault {
    /// The fault that the library numbers so.
    ///
    /// # Panics
    ///
    /// Unless the number is from 1 to 4, which would be a bug of this crate.
    pub(crate) fn of(number: u8) -> Self {
        match number {
            1 => Self::LeftNotBelowRight,
            2 => Self::TopNotBelowBottom,
            3 => Self::RightAboveWidth,
            4 => Self::BottomAboveHeight,
            _ => panic!("haythaw: no rectangle has fault {number}"),
        }
    }
}

impl fmt::Display for RectangleFault {
    fn fmt(&self, f: &mut fmt::Formatter<'_>) -> fmt::Result {
        f.write_str(match self {
            Self::LeftNotBelowRight => "its left edge is not below its right edge",
            Self::TopNotBelowBottom => "its top edge is not below its bottom edge",
            Self::RightAboveWidth => "its right edge is above the picture's width",
            Self::BottomAboveHeight => "its bottom edge is above the picture's height",
        })
    }
}
