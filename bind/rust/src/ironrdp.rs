//! IronRDP's own types at the border: a rectangle, a view and a frame of theirs become ours, and ours theirs.

/// Writes conversions between IronRDP's types and this crate's, where it stands.
///
/// It is there with the feature `ironrdp`, and this crate depends on none of IronRDP's all the same. The types are those that the caller names, of whatever version of theirs it has: any of
/// `ironrdp_pdu`'s `ExclusiveRectangle`, and `ironrdp_egfx`'s `Yuv420Frame`, `DecodedFrame` and `YuvMatrix`, in this order. There will be two
/// traits for them, `IntoHaythaw` and `IntoIronrdp`, each for the crate that they stand in alone.
///
/// | theirs | `into_haythaw` | `into_ironrdp` |
/// |---|---|---|
/// | `ExclusiveRectangle` | four numbers are copied | four numbers are copied |
/// | `&[ExclusiveRectangle]` | a `Vec` | a `Vec` |
/// | `&Yuv420Frame` | its rows are copied, since it does not lend its planes | from [`Yuv420Frame`]: its planes are moved |
/// | `DecodedFrame` | its bytes are moved | its bytes are moved |
/// | `YuvMatrix` | the case of the same name | the case of the same name |
///
/// A decoder that lends planes needs no copy: [`Yuv420View`] takes them where they are.
///
/// ```
/// # mod ironrdp_pdu {
/// #     pub mod geometry {
/// #         pub struct ExclusiveRectangle { pub left: u16, pub top: u16, pub right: u16, pub bottom: u16 }
/// #     }
/// # }
/// haythaw::ironrdp_types! {
///     rectangle: ironrdp_pdu::geometry::ExclusiveRectangle,
/// }
///
/// let rects = [ironrdp_pdu::geometry::ExclusiveRectangle { left: 0, top: 0, right: 2, bottom: 1 }];
/// let view = haythaw::Yuv420View::new(2, 2, 2, 1, &[53; 4], &[99], &[255])?;
/// let mut picture = haythaw::Yuv444Frame::new(2, 2);
/// picture.apply_main_view(&view, &rects.into_haythaw());
///
/// let whole = haythaw::ExclusiveRectangle { left: 0, top: 0, right: 2, bottom: 2 };
/// assert_eq!(whole.into_ironrdp().right, 2);
/// # Ok::<(), haythaw::DecoderError>(())
/// ```
///
/// [`Yuv420Frame`]: crate::decode::Yuv420Frame
/// [`Yuv420View`]: crate::decode::Yuv420View
#[macro_export]
macro_rules! ironrdp_types {
    ($(rectangle: $rectangle:ty,)? $(view: $view:ty,)? $(frame: $frame:ty,)? $(matrix: $matrix:ty,)?) => {
        /// A type of IronRDP's that has one of haythaw's for it.
        #[allow(dead_code)]
        pub(crate) trait IntoHaythaw {
            /// The type of haythaw's.
            type Haythaw;
            /// The same in haythaw's type.
            fn into_haythaw(self) -> Self::Haythaw;
        }

        /// A type of haythaw's that has one of IronRDP's for it.
        #[allow(dead_code)]
        pub(crate) trait IntoIronrdp {
            /// The type of IronRDP's.
            type Ironrdp;
            /// The same in IronRDP's type.
            fn into_ironrdp(self) -> Self::Ironrdp;
        }

        $(
            impl IntoHaythaw for $rectangle {
                type Haythaw = $crate::ExclusiveRectangle;
                fn into_haythaw(self) -> Self::Haythaw {
                    [self.left, self.top, self.right, self.bottom].into()
                }
            }

            impl IntoHaythaw for &[$rectangle] {
                type Haythaw = ::std::vec::Vec<$crate::ExclusiveRectangle>;
                fn into_haythaw(self) -> Self::Haythaw {
                    self.iter().map(|rect| [rect.left, rect.top, rect.right, rect.bottom].into()).collect()
                }
            }

            impl IntoIronrdp for $crate::ExclusiveRectangle {
                type Ironrdp = $rectangle;
                fn into_ironrdp(self) -> Self::Ironrdp {
                    let Self { left, top, right, bottom } = self;
                    type Theirs = $rectangle;
                    Theirs { left, top, right, bottom }
                }
            }

            impl IntoIronrdp for &[$crate::ExclusiveRectangle] {
                type Ironrdp = ::std::vec::Vec<$rectangle>;
                fn into_ironrdp(self) -> Self::Ironrdp {
                    self.iter().map(|rect| rect.into_ironrdp()).collect()
                }
            }
        )?

        $(
            impl IntoHaythaw for &$view {
                type Haythaw = $crate::Yuv420Frame;
                fn into_haythaw(self) -> Self::Haythaw {
                    let (width, height) = (self.width(), self.height());
                    let stride = usize::from(width);
                    let [mut y, mut u, mut v] = [const { ::std::vec::Vec::new() }; 3];
                    for row in 0..usize::from(height) {
                        y.extend_from_slice(self.luma_row(row).unwrap_or_default());
                        u.extend_from_slice(self.u_row(row).unwrap_or_default());
                        v.extend_from_slice(self.v_row(row).unwrap_or_default());
                    }
                    $crate::Yuv420Frame::new(width, height, y, stride, u, v, stride.div_ceil(2))
                        .expect("haythaw: a view lacks a row")
                }
            }

            impl IntoIronrdp for $crate::Yuv420Frame {
                type Ironrdp = $view;
                fn into_ironrdp(self) -> Self::Ironrdp {
                    let $crate::Yuv420Planes { width, height, y, luma_stride, u, v, chroma_stride } = self.into_planes();
                    <$view>::new(width, height, y, luma_stride, u, v, chroma_stride)
                        .ok()
                        .expect("haythaw: a view was refused")
                }
            }
        )?

        $(
            impl IntoHaythaw for $frame {
                type Haythaw = $crate::DecodedFrame;
                fn into_haythaw(self) -> Self::Haythaw {
                    let (width, height) = (self.width(), self.height());
                    $crate::DecodedFrame::new(self.into_data(), width, height)
                }
            }

            impl IntoIronrdp for $crate::DecodedFrame {
                type Ironrdp = $frame;
                fn into_ironrdp(self) -> Self::Ironrdp {
                    let (width, height) = (self.width(), self.height());
                    <$frame>::new(self.into_data(), width, height)
                }
            }
        )?

        $(
            impl IntoHaythaw for $matrix {
                type Haythaw = $crate::YuvMatrix;
                fn into_haythaw(self) -> Self::Haythaw {
                    type Theirs = $matrix;
                    match self {
                        Theirs::Bt601Limited => $crate::YuvMatrix::Bt601Limited,
                        Theirs::Bt709Full => $crate::YuvMatrix::Bt709Full,
                    }
                }
            }

            impl IntoIronrdp for $crate::YuvMatrix {
                type Ironrdp = $matrix;
                fn into_ironrdp(self) -> Self::Ironrdp {
                    type Theirs = $matrix;
                    match self {
                        Self::Bt601Limited => Theirs::Bt601Limited,
                        Self::Bt709Full => Theirs::Bt709Full,
                    }
                }
            }
        )?
    };
}
