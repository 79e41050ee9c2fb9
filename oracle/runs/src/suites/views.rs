//! Views for the suites and benches of calls that take one.

use original::decode::{DecoderError, Yuv420Frame};

use super::lengths::{self, changed};
use super::noise::Noise;
use crate::ours::View;
use crate::random::Random;

/// The most bytes that a plane of a case has.
pub const LONGEST: usize = 1 << 21;

/// A view by its numbers: the lengths are those of the planes Y, U and V.
#[derive(Debug, Clone, Copy, PartialEq, Eq)]
pub struct Sizes {
    pub width: u16,
    pub height: u16,
    pub luma_stride: usize,
    pub chroma_stride: usize,
    pub lengths: [usize; 3],
}

impl Sizes {
    /// Planes that just hold all rows, or as many bytes as a case may have.
    pub fn exact(width: u16, height: u16, luma_stride: usize, chroma_stride: usize) -> Self {
        let length = |stride: usize, rows: u16| stride.saturating_mul(rows.into()).min(LONGEST);
        let (luma, chroma) = (length(luma_stride, height), length(chroma_stride, height.div_ceil(2)));
        Self { width, height, luma_stride, chroma_stride, lengths: [luma, chroma, chroma] }
    }

    /// Planes with no byte between a row and the next.
    pub fn tight(width: u16, height: u16) -> Self {
        Self::exact(width, height, width.into(), width.div_ceil(2).into())
    }

    /// As a decoder makes it: whole macroblocks, so width and height are rounded up to 16.
    ///
    /// # Panics
    ///
    /// Panics if that is above 65,535.
    pub fn padded(width: u16, height: u16) -> Self {
        Self::tight(width.next_multiple_of(16), height.next_multiple_of(16))
    }

    /// The same planes with so many columns and rows of them left out, or all.
    pub fn cropped(self, right: u16, below: u16) -> Self {
        Self { width: self.width.saturating_sub(right), height: self.height.saturating_sub(below), ..self }
    }

    /// The same with each plane a byte short, as it is, or longer, in every way but as they are.
    pub fn other_lengths(self) -> impl Iterator<Item = Self> {
        lengths::all(self.lengths).map(move |lengths| Self { lengths, ..self }).filter(move |other| *other != self)
    }

    /// How many rows each plane has.
    pub fn rows(&self) -> [usize; 3] {
        let chroma = usize::from(self.height.div_ceil(2));
        [self.height.into(), chroma, chroma]
    }

    /// The less, the smaller the view and `more`.
    pub fn weight(&self, more: usize) -> u64 {
        let &Self { width, height, luma_stride, chroma_stride, lengths } = self;
        let words = [width.into(), height.into(), luma_stride, chroma_stride, more];
        words.iter().chain(&lengths).fold(0, |sum, &word| sum.saturating_add(word as u64))
    }

    /// The numbers as a person reads them, and `of_words` too.
    pub fn words(&self) -> String {
        let Self { width, height, luma_stride, chroma_stride, lengths: [y, u, v] } = self;
        format!("{width} {height} {luma_stride} {chroma_stride} {y} {u} {v}")
    }

    pub fn of_words(words: [u64; 7]) -> Result<Self, String> {
        let [width, height, luma_stride, chroma_stride, lengths @ ..] = words;
        let short = |word: u64| u16::try_from(word).map_err(|_| format!("{word} is no width or height"));
        let long = |word: u64| usize::try_from(word).map_err(|_| format!("{word} is no stride"));
        if let Some(length) = lengths.iter().find(|&&length| length > LONGEST as u64) {
            return Err(format!("{length} is too long for a plane of a case"));
        }
        Ok(Self {
            width: short(width)?,
            height: short(height)?,
            luma_stride: long(luma_stride)?,
            chroma_stride: long(chroma_stride)?,
            lengths: lengths.map(|length| length as usize),
        })
    }
}

/// Every width and height to 33, with each stride from a byte below the width to three above. The planes are exact.
pub fn small() -> impl Iterator<Item = Sizes> {
    let strides = |width: u16| usize::from(width.saturating_sub(1))..=usize::from(width) + 3;
    (0..=33_u16).flat_map(move |width| {
        (0..=33).flat_map(move |height| {
            strides(width).flat_map(move |luma_stride| {
                strides(width.div_ceil(2))
                    .map(move |chroma_stride| Sizes::exact(width, height, luma_stride, chroma_stride))
            })
        })
    })
}

/// Small, middling, very wide or very high views, seldom with a stride or a plane too small.
pub fn anyhow(random: &mut Random) -> Sizes {
    let (most_width, most_height) = [(33, 33), (300, 300), (65_535, 8), (8, 65_535)][random.between(0, 3) as usize];
    let width = random.between(0, most_width) as u16;
    let height = random.between(0, most_height) as u16;
    let mut stride = |width: u16| match random.between(0, 9) {
        0 => random.between(0, u64::from(width)) as usize,
        1 => random.number() as usize,
        _ => usize::from(width) + random.between(0, 3) as usize,
    };
    let (luma_stride, chroma_stride) = (stride(width), stride(width.div_ceil(2)));
    let exact = Sizes::exact(width, height, luma_stride, chroma_stride);
    let lengths = exact.lengths.map(|length| match random.between(0, 9) {
        0 => random.between(0, length as u64) as usize,
        1 => changed(length, 1),
        2 => changed(length, 2).min(LONGEST),
        _ => length,
    });
    Sizes { lengths, ..exact }
}

/// Bytes for the planes Y, U and V. In each plane any 256 in a row differ, and so do the planes at each place.
pub struct Source([Vec<u8>; 3]);

impl Source {
    pub fn new() -> Self {
        let plane = |first: usize| (0..LONGEST).map(|at| (first + at + at / 256 * 89) as u8).collect();
        Self([0, 57, 114].map(plane))
    }

    /// The view of these sizes, lent.
    pub fn view(&self, sizes: &Sizes) -> View<'_> {
        let &Sizes { width, height, luma_stride, chroma_stride, lengths } = sizes;
        let [y, u, v] = self.planes(lengths);
        View { width, height, luma_stride, chroma_stride, y, u, v }
    }

    /// Planes of these lengths.
    pub fn planes(&self, lengths: [usize; 3]) -> [&[u8]; 3] {
        [0, 1, 2].map(|plane| &self.0[plane][..lengths[plane]])
    }
}

/// A view with planes of its own and no byte between its rows, of any size: for the benches.
pub struct Owned {
    width: u16,
    height: u16,
    planes: [Vec<u8>; 3],
}

impl Owned {
    /// Its planes are random.
    pub fn new(noise: &Noise, width: u16, height: u16) -> Self {
        let length = |width: u16, height: u16| usize::from(width) * usize::from(height);
        let chroma = length(width.div_ceil(2), height.div_ceil(2));
        Self::of(width, height, noise.planes(0, [length(width, height), chroma, chroma]).map(<[u8]>::to_vec))
    }

    pub fn of(width: u16, height: u16, planes: [Vec<u8>; 3]) -> Self {
        Self { width, height, planes }
    }

    pub fn view(&self) -> View<'_> {
        let &Self { width, height, planes: [ref y, ref u, ref v] } = self;
        View { width, height, luma_stride: width.into(), chroma_stride: width.div_ceil(2).into(), y, u, v }
    }
}

/// The original's view over copies of the planes, or the number of its refusal; and where the copies are.
pub fn original_of(view: View<'_>) -> (Result<Yuv420Frame, u32>, [usize; 3]) {
    let View { width, height, luma_stride, chroma_stride, y, u, v } = view;
    let [y, u, v] = [y, u, v].map(<[u8]>::to_vec);
    let places = [&y, &u, &v].map(|plane| plane.as_ptr() as usize);
    let made = Yuv420Frame::new(width, height, y, luma_stride, u, v, chroma_stride);
    (made.map_err(|error| number_of(&error)), places)
}

/// The rows of each plane of the original's view, one after the other.
pub fn rows_of(view: &Yuv420Frame) -> [Vec<u8>; 3] {
    fn joined<'a>(row: impl Fn(usize) -> Option<&'a [u8]>) -> Vec<u8> {
        (0..).map_while(row).collect::<Vec<_>>().concat()
    }
    [joined(|row| view.luma_row(row)), joined(|row| view.u_row(row)), joined(|row| view.v_row(row))]
}

/// The number that the original's words stand for.
fn number_of(error: &DecoderError) -> u32 {
    match error.to_string().as_str() {
        "decoder error: YUV 4:2:0 stride narrower than its plane" => 3,
        "decoder error: YUV 4:2:0 plane shorter than its rows" => 4,
        words => panic!("the original refuses a view in other words: {words}"),
    }
}

#[cfg(test)]
mod tests {
    use super::*;

    #[test]
    fn words_are_read_back() {
        let sizes = Sizes { lengths: [5, 6, 7], ..Sizes::exact(3, 9, usize::MAX, 4) };
        let words: Vec<u64> = sizes.words().split(' ').map(|word| word.parse().unwrap()).collect();
        assert_eq!(Sizes::of_words(words.try_into().unwrap()), Ok(sizes));
    }

    #[test]
    fn any_256_bytes_in_a_row_differ() {
        for plane in Source::new().0 {
            assert!(plane.chunks(256).all(|block| (1..block.len()).all(|at| block[at] != block[at - 1])));
            let mut first = plane[..256].to_vec();
            first.sort_unstable();
            assert!((0..=255).eq(first));
        }
    }
}
