//! What the conversions are timed on: noise, and a smooth picture, as a desktop or a map is.
//!
//! On noise the original's clamps are mispredicted, and whatever has no branch looks fast beside them.

use original::avc444::{probe, Yuv444Frame};

use super::noise::{Noise, LONGEST};
use super::pictures::Sizes;
use super::views::Owned;

#[derive(Clone, Copy)]
pub enum Look {
    Noise,
    Smooth,
}

impl Look {
    /// The pixels of a picture, of four bytes each. A smooth one goes from black to red along a row, to green down a column, and to blue
    /// along the diagonal.
    pub fn pixels(self, width: u16, height: u16) -> Vec<u8> {
        let (columns, rows) = (usize::from(width), usize::from(height));
        match self {
            Self::Noise => Noise::new(LONGEST).bytes(0, columns * rows * 4).to_vec(),
            Self::Smooth => {
                let part = |at: usize, of: usize| (at * 255 / of) as u8;
                let pixel = |at: usize| {
                    let (row, column) = (at / columns, at % columns);
                    [part(column, columns), part(row, rows), part(row + column, rows + columns), 255]
                };
                (0..columns * rows).flat_map(pixel).collect()
            }
        }
    }

    /// The planes of a picture, padding included: of a smooth one those that the original makes of its pixels.
    pub fn planes(self, width: u16, height: u16) -> [Vec<u8>; 3] {
        match self {
            Self::Noise => Noise::new(LONGEST).planes(0, Sizes::exact(width, height).lengths).map(<[u8]>::to_vec),
            Self::Smooth => {
                let picture = Yuv444Frame::from_rgba(&self.pixels(width, height), width, height);
                probe::planes(&picture.expect("the pixels are exact")).map(<[u8]>::to_vec)
            }
        }
    }

    /// A view with no byte between its rows: of a smooth picture its own main view.
    pub fn view(self, width: u16, height: u16) -> Owned {
        if let Self::Noise = self {
            return Owned::new(&Noise::new(LONGEST), width, height);
        }
        let (stride, columns) = (usize::from(width).next_multiple_of(16), usize::from(width));
        let [y, u, v] = self.planes(width, height);
        let luma = y.chunks(stride).take(height.into()).flat_map(|row| &row[..columns]).copied().collect();
        let even = |plane: Vec<u8>| {
            let rows = plane.chunks(stride).take(height.into()).step_by(2);
            rows.flat_map(|row| row[..columns].iter().step_by(2)).copied().collect()
        };
        Owned::of(width, height, [luma, even(u), even(v)])
    }
}

#[cfg(test)]
mod tests {
    use super::*;

    #[test]
    fn a_view_is_as_long_on_noise_as_on_a_smooth_picture() {
        for (width, height) in [(640, 480), (17, 5)] {
            let lengths = [Look::Noise, Look::Smooth].map(|look| {
                let owned = look.view(width, height);
                let view = owned.view();
                [view.y.len(), view.u.len(), view.v.len()]
            });
            assert_eq!(lengths[0], lengths[1]);
        }
    }

    #[test]
    fn neighbours_of_a_smooth_picture_are_near_each_other() {
        for plane in Look::Smooth.planes(640, 480) {
            assert!(plane.windows(2).filter(|pair| pair[0].abs_diff(pair[1]) > 3).count() < 640);
        }
    }
}
