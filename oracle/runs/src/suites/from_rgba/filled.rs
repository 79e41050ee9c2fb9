//! The picture whose edge is filled, of the original's making.
//!
//! The original does not fill the edge. So it is given more pixels: the last column is repeated up to the stride, then the last row down to
//! the padded height. Its picture of these has no padding of its own, and its planes are laid out as those of the smaller picture.

use original::avc444::{probe, Yuv444Frame};

use crate::ours::Size;

/// The longest side that is a multiple of 16 and that the original takes. A longer one is cut there: the parts have no padding of their own
/// either, and no 2x2 block lies across the cut.
const LONGEST_SIDE: usize = 65_520;

/// The planes Y, U and V of the pixels with the edge filled; none where they are too few, as the original says.
pub fn planes(rgba: &[u8], Size { width, height }: Size) -> Option<[Vec<u8>; 3]> {
    Yuv444Frame::from_rgba(rgba, width, height)?;
    Some(Repeated::of(rgba, width.into(), height.into()).planes(LONGEST_SIDE))
}

/// Pixels whose sides are multiples of 16.
struct Repeated {
    rgba: Vec<u8>,
    columns: usize,
    rows: usize,
}

impl Repeated {
    /// A side of 0 has no pixel to repeat, and none is wanted.
    fn of(rgba: &[u8], width: usize, height: usize) -> Self {
        let (columns, rows) = (width.next_multiple_of(16), height.next_multiple_of(16));
        let mut repeated = Vec::with_capacity(4 * columns * rows);
        for row in 0..rows {
            let line = &rgba[4 * row.min(height - 1) * width..][..4 * width];
            let last = &line[4 * width.saturating_sub(1)..];
            repeated.extend_from_slice(line);
            repeated.extend(last.iter().cycle().take(4 * (columns - width)));
        }
        Self { rgba: repeated, columns, rows }
    }

    /// The original's planes, put together from those of parts whose sides are at most so long.
    fn planes(&self, longest: usize) -> [Vec<u8>; 3] {
        let mut planes = [0; 3].map(|_| vec![0; self.columns * self.rows]);
        for top in (0..self.rows).step_by(longest) {
            for left in (0..self.columns).step_by(longest) {
                let (columns, rows) = ((self.columns - left).min(longest), (self.rows - top).min(longest));
                let part = self.part(left, top, columns, rows);
                for (plane, part) in planes.iter_mut().zip(probe::planes(&part)) {
                    for (row, samples) in part.chunks(columns).enumerate() {
                        plane[(top + row) * self.columns + left..][..columns].copy_from_slice(samples);
                    }
                }
            }
        }
        planes
    }

    /// The original's picture of a part.
    fn part(&self, left: usize, top: usize, columns: usize, rows: usize) -> Yuv444Frame {
        let row = |row: usize| &self.rgba[4 * (row * self.columns + left)..][..4 * columns];
        let rgba: Vec<u8> = (top..top + rows).flat_map(row).copied().collect();
        let side = |length: usize| u16::try_from(length).expect("no part is longer than 65,520");
        Yuv444Frame::from_rgba(&rgba, side(columns), side(rows)).expect("the part has all its pixels")
    }
}

#[cfg(test)]
mod tests {
    use super::*;

    fn noise(pixels: usize) -> Vec<u8> {
        (0..4 * pixels).map(|at| (at * 2_654_435_761 >> 13) as u8).collect()
    }

    #[test]
    fn the_nearest_pixel_is_repeated() {
        let corners = [[1, 0, 0, 0], [2, 0, 0, 0], [3, 0, 0, 0], [4, 0, 0, 0]].concat();
        let Repeated { rgba, columns, rows } = Repeated::of(&corners, 2, 2);
        assert_eq!((columns, rows), (16, 16));
        for (at, pixel) in rgba.chunks(4).enumerate() {
            let wanted = 1 + u8::from(at % 16 > 0) + 2 * u8::from(at / 16 > 0);
            assert_eq!(pixel, [wanted, 0, 0, 0]);
        }
    }

    #[test]
    fn a_cut_is_not_seen() {
        let repeated = Repeated::of(&noise(45 * 29), 45, 29);
        let whole = repeated.planes(LONGEST_SIDE);
        assert_eq!((whole.each_ref().map(Vec::len), repeated.columns), ([48 * 32; 3], 48));
        assert!([16, 32].iter().all(|&longest| repeated.planes(longest) == whole));
    }

    #[test]
    fn whole_macroblocks_are_the_originals_own() {
        let rgba = noise(32 * 16);
        let picture = Yuv444Frame::from_rgba(&rgba, 32, 16).unwrap();
        let filled = planes(&rgba, Size { width: 32, height: 16 }).unwrap();
        assert_eq!(filled.each_ref().map(Vec::as_slice), probe::planes(&picture));
    }

    #[test]
    fn the_longest_side_and_none() {
        let planes_of = |pixels: usize, width, height| planes(&noise(pixels), Size { width, height });
        assert_eq!(planes_of(65_535, 65_535, 1).unwrap().map(|plane| plane.len()), [65_536 * 16; 3]);
        assert_eq!(planes_of(0, 65_535, 0).unwrap(), [vec![], vec![], vec![]]);
        assert!(planes_of(24, 5, 5).is_none());
    }
}
