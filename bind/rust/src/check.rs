//! What a check of another encoder's two views says.
//!
//! The original has nothing like it. [`Yuv444Frame::check_split`] and [`Yuv444Frame::check_split_v2`] answer it.
//!
//! [`Yuv444Frame::check_split`]: crate::avc444::Yuv444Frame::check_split
//! [`Yuv444Frame::check_split_v2`]: crate::avc444::Yuv444Frame::check_split_v2

use core::fmt;

use crate::view::Yuv420View;

/// Whether two views are the split of a picture, and if not, why: as a sentence, too.
///
/// ```
/// use haythaw::check::{CheckedPlane, CheckedView, SplitCheck};
///
/// let wrong = SplitCheck::Wrong {
///     view: CheckedView::Auxiliary,
///     plane: CheckedPlane::U,
///     row: 3,
///     column: 17,
///     found: 130,
///     expected: 128,
/// };
/// assert_eq!(wrong.to_string(), "auxiliary view, U, row 3, column 17: 130, the split has 128");
///
/// let sizes = SplitCheck::Sizes { view: CheckedView::Main, found: (48, 48), expected: (64, 48) };
/// assert_eq!(sizes.to_string(), "main view is 48x48, the split's views are 64x48");
///
/// assert_eq!(SplitCheck::Same.to_string(), "the views are the split of the picture");
/// assert!(SplitCheck::Same.is_same() && !sizes.is_same());
/// ```
#[derive(Debug, Clone, Copy, PartialEq, Eq)]
#[must_use]
pub enum SplitCheck {
    /// Both views have the width and the height of the split's, and every sample of both is the split's.
    Same,
    /// A view has another width or height than the split's. No sample was looked at, of either view.
    Sizes {
        /// Which view: the main one, if that differs.
        view: CheckedView,
        /// Its width and height.
        found: (u16, u16),
        /// Width and height of both views of the split.
        expected: (u16, u16),
    },
    /// The sizes are right, and this is the first sample that is not: main before auxiliary, Y before U before V, then by row, and then by
    /// column.
    Wrong {
        /// Which view.
        view: CheckedView,
        /// Which of its planes.
        plane: CheckedPlane,
        /// Which row of the plane, counted from 0. U and V have half of the view's rows.
        row: u16,
        /// Which column of the plane, counted from 0. U and V have half of the view's columns.
        column: u16,
        /// What the view has there.
        found: u8,
        /// What the split has there.
        expected: u8,
    },
}

impl SplitCheck {
    /// Whether it is a yes.
    pub fn is_same(&self) -> bool {
        *self == Self::Same
    }
}

impl fmt::Display for SplitCheck {
    fn fmt(&self, f: &mut fmt::Formatter<'_>) -> fmt::Result {
        match self {
            Self::Same => f.write_str("the views are the split of the picture"),
            Self::Sizes { view, found: (width, height), expected: (split_width, split_height) } => {
                write!(f, "{view} is {width}x{height}, the split's views are {split_width}x{split_height}")
            }
            Self::Wrong { view, plane, row, column, found, expected } => {
                write!(f, "{view}, {plane}, row {row}, column {column}: {found}, the split has {expected}")
            }
        }
    }
}

/// One of the two views of a picture.
#[derive(Debug, Clone, Copy, PartialEq, Eq)]
pub enum CheckedView {
    /// The main view: luma, and a quarter of the chroma.
    Main,
    /// The auxiliary view: the rest of the chroma.
    Auxiliary,
}

impl CheckedView {
    /// The view that the library numbers so.
    ///
    /// # Panics
    ///
    /// Unless the number is 0 or 1, which would be a bug of this crate.
    pub(crate) fn of(number: u8) -> Self {
        match number {
            0 => Self::Main,
            1 => Self::Auxiliary,
            _ => panic!("haythaw: there is no view {number}"),
        }
    }

    /// That one of two.
    pub(crate) fn among<'a>(self, main: Yuv420View<'a>, auxiliary: Yuv420View<'a>) -> Yuv420View<'a> {
        match self {
            Self::Main => main,
            Self::Auxiliary => auxiliary,
        }
    }
}

impl fmt::Display for CheckedView {
    fn fmt(&self, f: &mut fmt::Formatter<'_>) -> fmt::Result {
        f.write_str(match self {
            Self::Main => "main view",
            Self::Auxiliary => "auxiliary view",
        })
    }
}

/// One of the three planes of a view.
#[derive(Debug, Clone, Copy, PartialEq, Eq)]
pub enum CheckedPlane {
    /// Luma.
    Y,
    /// The plane of U.
    U,
    /// The plane of V.
    V,
}

impl CheckedPlane {
    /// The plane that the library numbers so.
    ///
    /// # Panics
    ///
    /// Unless the number is from 0 to 2, which would be a bug of this crate.
    pub(crate) fn of(number: u8) -> Self {
        match number {
            0 => Self::Y,
            1 => Self::U,
            2 => Self::V,
            _ => panic!("haythaw: no view has plane {number}"),
        }
    }

    /// A sample of that plane.
    ///
    /// # Panics
    ///
    /// If the view has no such sample, which would be a bug of this crate.
    pub(crate) fn sample(self, view: Yuv420View<'_>, row: u16, column: u16) -> u8 {
        let samples = match self {
            Self::Y => view.luma_row(row.into()),
            Self::U => view.u_row(row.into()),
            Self::V => view.v_row(row.into()),
        };
        samples.expect("haythaw: the place that a check names is in the view")[usize::from(column)]
    }
}

impl fmt::Display for CheckedPlane {
    fn fmt(&self, f: &mut fmt::Formatter<'_>) -> fmt::Result {
        f.write_str(match self {
            Self::Y => "Y",
            Self::U => "U",
            Self::V => "V",
        })
    }
}
