//! The 32 rule by the original, which rounds the view's width up to 16: its V2 over planes and a view that are W wide, where W is the
//! picture's width rounded up to 32.
//!
//! A view that is wider than W has no sample past it that a place would take, and is cut there. In a narrower one samples are missing. It is
//! applied twice, with 0 and with 255 in place of them: a place that comes out differently wants one that is missing, and keeps what it had,
//! in U and V together.

use original::avc444::{probe, Avc444Layout, Yuv444Frame};
use original::decode::Yuv420Frame;
use original::ExclusiveRectangle;

/// The auxiliary view of V2 into a picture, by the 32 rule.
pub fn apply(picture: &mut Yuv444Frame, view: &Yuv420Frame, rects: &[ExclusiveRectangle]) {
    let wide = Wide::of(picture);
    let clipped: Vec<_> = rects.iter().map(|rect| clipped(rect, picture.width())).collect();
    let applied = |missing| {
        let mut wider = wide.picture(picture);
        wider.apply_auxiliary_view(Avc444Layout::V2, &wide.view(view, missing), &clipped);
        probe::planes(&wider).map(|plane| wide.narrowed(plane))
    };
    let mut after = applied(0);
    if usize::from(view.width()) < wide.width {
        keep_missing(&mut after, &applied(255), probe::planes(picture));
    }
    *picture = probe::with_planes(picture.width(), picture.height(), after.each_ref().map(Vec::as_slice));
}

/// Puts back what was before, wherever U or V depends on what the view has not.
pub fn keep_missing(after: &mut [Vec<u8>; 3], other: &[Vec<u8>; 3], before: [&[u8]; 3]) {
    for at in 0..before[0].len() {
        if after[1][at] != other[1][at] || after[2][at] != other[2][at] {
            (after[1][at], after[2][at]) = (before[1][at], before[2][at]);
        }
    }
}

/// The rectangle that ends at the picture's own width.
fn clipped(rect: &ExclusiveRectangle, width: u16) -> ExclusiveRectangle {
    let &ExclusiveRectangle { left, top, right, bottom } = rect;
    ExclusiveRectangle { left, top, right: right.min(width), bottom }
}

/// A picture's stride, its rows, and W.
struct Wide {
    stride: usize,
    rows: usize,
    width: usize,
}

impl Wide {
    fn of(picture: &Yuv444Frame) -> Self {
        let (width, height) = (usize::from(picture.width()), usize::from(picture.height()));
        Self {
            stride: width.next_multiple_of(16),
            rows: height.next_multiple_of(16),
            width: width.next_multiple_of(32),
        }
    }

    /// W as the width of a picture or a view: 65,535 has the planes of 65,536, and is rounded up to it.
    fn short(&self) -> u16 {
        self.width.min(65_535) as u16
    }

    /// The picture with planes W wide, whatever the columns hold that it has not.
    fn picture(&self, picture: &Yuv444Frame) -> Yuv444Frame {
        let planes =
            probe::planes(picture).map(|plane| laid_out(rows_of(plane, self.stride), self.width, self.rows, 7));
        probe::with_planes(self.short(), picture.height(), planes.each_ref().map(Vec::as_slice))
    }

    /// The columns of a plane that the picture has.
    fn narrowed(&self, plane: &[u8]) -> Vec<u8> {
        laid_out(rows_of(plane, self.width), self.stride, self.rows, 0)
    }

    /// The view W wide, with a byte in place of what is missing. Rows that the picture has not are left out.
    fn view(&self, view: &Yuv420Frame, missing: u8) -> Yuv420Frame {
        let height = usize::from(view.height()).min(self.rows);
        let (half, half_height) = (self.width / 2, height.div_ceil(2));
        let y = laid_out((0..).map_while(|row| view.luma_row(row)), self.width, height, missing);
        let u = laid_out((0..).map_while(|row| view.u_row(row)), half, half_height, missing);
        let v = laid_out((0..).map_while(|row| view.v_row(row)), half, half_height, missing);
        Yuv420Frame::new(self.short(), height as u16, y, self.width, u, v, half).expect("the planes hold it")
    }
}

/// The rows of a plane.
fn rows_of(plane: &[u8], stride: usize) -> impl Iterator<Item = &[u8]> {
    plane.chunks_exact(stride.max(1))
}

/// A plane so wide and high whose rows begin with these, as far as they go.
fn laid_out<'a>(rows: impl Iterator<Item = &'a [u8]>, width: usize, height: usize, rest: u8) -> Vec<u8> {
    let mut plane = vec![rest; width * height];
    for (into, row) in plane.chunks_exact_mut(width.max(1)).zip(rows) {
        let both = row.len().min(width);
        into[..both].copy_from_slice(&row[..both]);
    }
    plane
}
