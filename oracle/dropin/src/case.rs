//! A case in plain numbers, so that it is the same for both sides.

use crate::random::Random;

/// Left, top, right, bottom.
pub type Rect = [u16; 4];

#[derive(Debug, Clone, Copy, PartialEq, Eq)]
pub enum Layout {
    V1,
    V2,
}

#[derive(Debug)]
pub enum Case {
    /// A picture, and what happens to it.
    Picture(Picture),
    /// A view, wrapped and read.
    View(Planes),
    /// A payload, and what the output held before.
    Payload { data: Vec<u8>, before: Vec<u8> },
    /// Sizes, and RGBA of so many bytes, which may be too few.
    Sizes { width: u16, height: u16, rgba: usize },
    /// So many bytes as RGBA of a size.
    Frame { length: usize, width: u32, height: u32 },
    /// An error with this text, with and without one below it.
    Error(String),
}

#[derive(Debug)]
pub struct Picture {
    pub width: u16,
    pub height: u16,
    /// The seed of its pixels, and how many bytes follow them; a fresh picture has none.
    pub pixels: Option<(u64, usize)>,
    pub steps: Vec<Step>,
}

#[derive(Debug)]
pub enum Step {
    Main(View, Vec<Rect>),
    Auxiliary(Layout, View, Vec<Rect>),
    Convert(Rect),
}

/// Where a step's view comes from.
#[derive(Debug)]
pub enum View {
    /// The planes hold random bytes.
    Noise(Planes),
    /// Another picture of the same size, whose pixels are of this seed, is split, and its view cropped to this width and height.
    Sent { seed: u64, width: u16, height: u16 },
}

/// A view's sizes, and its planes by their lengths and the seed of their bytes.
#[derive(Debug, Clone)]
pub struct Planes {
    pub width: u16,
    pub height: u16,
    pub luma_stride: usize,
    pub chroma_stride: usize,
    pub lengths: [usize; 3],
    pub seed: u64,
}

impl Planes {
    /// Planes of these strides with no byte to spare.
    pub fn exact(width: u16, height: u16, luma_stride: usize, chroma_stride: usize, seed: u64) -> Self {
        let luma = luma_stride.saturating_mul(height.into());
        let chroma = chroma_stride.saturating_mul(height.div_ceil(2).into());
        Self { width, height, luma_stride, chroma_stride, lengths: [luma, chroma, chroma], seed }
    }

    /// The bytes of the planes Y, U and V.
    pub fn bytes(&self) -> [Vec<u8>; 3] {
        [0, 1, 2].map(|plane| bytes(self.seed ^ plane, self.lengths[plane as usize]))
    }
}

/// So many random bytes of a seed.
pub fn bytes(seed: u64, length: usize) -> Vec<u8> {
    let mut random = Random::new(seed, "bytes");
    let mut bytes: Vec<u8> = (0..length.div_ceil(8)).flat_map(|_| random.number().to_le_bytes()).collect();
    bytes.truncate(length);
    bytes
}
