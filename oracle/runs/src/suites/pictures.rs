//! Pictures for the suites and benches of calls that take one.

use original::avc444::{probe, Yuv444Frame};

use super::lengths::{self, changed};
use super::noise::{Noise, LONGEST};
use crate::bench::sample;
use crate::ours::Size;
use crate::outcome::Lent;
use crate::random::Random;

/// A picture by its numbers: the lengths are those of the buffers that are lent for Y, U and V.
#[derive(Debug, Clone, Copy, PartialEq, Eq)]
pub struct Sizes {
    pub size: Size,
    pub lengths: [usize; 3],
}

impl Sizes {
    /// Buffers that just hold the planes.
    pub fn exact(width: u16, height: u16) -> Self {
        let size = Size { width, height };
        Self { size, lengths: [plane_of(size); 3] }
    }

    /// How many bytes a plane of it has, whatever is lent.
    pub fn plane(&self) -> usize {
        plane_of(self.size)
    }

    /// Refusal 1: a buffer is shorter than a plane.
    pub fn is_short(&self) -> bool {
        self.lengths.iter().any(|&length| length < self.plane())
    }

    /// The same with each buffer as it is, a byte short, or longer, in all 27 ways. As it is comes first.
    pub fn all_lengths(self) -> impl Iterator<Item = Self> {
        lengths::all(self.lengths).map(move |lengths| Self { lengths, ..self })
    }

    /// The numbers as a person reads them, and `of_words` too.
    pub fn words(&self) -> String {
        let Self { size: Size { width, height }, lengths: [y, u, v] } = self;
        format!("{width} {height} {y} {u} {v}")
    }

    pub fn of_words(words: [u64; 5]) -> Result<Self, String> {
        let [width, height, lengths @ ..] = words;
        let short = |word: u64| u16::try_from(word).map_err(|_| format!("{word} is no width or height"));
        let size = Size { width: short(width)?, height: short(height)? };
        match lengths.iter().find(|&&length| length > LONGEST as u64) {
            Some(length) => Err(format!("{length} is too long for a plane of a case")),
            None => Ok(Self { size, lengths: lengths.map(|length| length as usize) }),
        }
    }

    /// The less, the smaller the picture.
    pub fn weight(&self) -> u64 {
        let Size { width, height } = self.size;
        u64::from(width) + u64::from(height) + self.lengths.iter().sum::<usize>() as u64
    }
}

/// A picture with its map by its numbers: `map` is the length of the buffer that is lent for the map.
#[derive(Debug, Clone, Copy, PartialEq, Eq)]
pub struct Mapped {
    pub planes: Sizes,
    pub map: usize,
}

impl Mapped {
    /// In how many ways `all_lengths` has a picture.
    pub const WAYS: u64 = 27 + Self::MAP_WAYS.len() as u64;

    /// The ways in which the map is changed: how all three planes are, and how the map is.
    const MAP_WAYS: [(u64, u64); 4] = [(0, 1), (0, 2), (2, 1), (1, 2)];

    /// Buffers that just hold the planes and the map.
    pub fn exact(width: u16, height: u16) -> Self {
        let planes = Sizes::exact(width, height);
        Self { planes, map: blocks_of(planes.size) }
    }

    /// A picture of at most 2^20 bytes a plane, seldom with a buffer too short.
    pub fn anyhow(random: &mut Random) -> Self {
        let (most_width, most_height) = [(64, 64), (1024, 1024), (4096, 64), (64, 4096)][random.between(0, 3) as usize];
        let exact = Self::exact(random.between(0, most_width) as u16, random.between(0, most_height) as u16);
        let mut seldom_short = |length: usize| match random.between(0, 19) {
            0 => random.between(0, length as u64) as usize,
            1 => changed(length, 1),
            _ => length,
        };
        let lengths = exact.planes.lengths.map(&mut seldom_short);
        Self { planes: Sizes { lengths, ..exact.planes }, map: seldom_short(exact.map) }
    }

    pub fn size(&self) -> Size {
        self.planes.size
    }

    /// How many blocks it has, whatever is lent: a byte of the map for each.
    pub fn blocks(&self) -> usize {
        blocks_of(self.size())
    }

    /// Refusal 1: a buffer is shorter than a plane, or than the map.
    pub fn is_short(&self) -> bool {
        self.planes.is_short() || self.map < self.blocks()
    }

    /// The same with the planes in all 27 ways; and with the map a byte short or longer, alone and with the planes changed otherwise. As it is
    /// comes first.
    pub fn all_lengths(self) -> impl Iterator<Item = Self> {
        let planes = self.planes.all_lengths().map(move |planes| Self { planes, ..self });
        planes.chain(Self::MAP_WAYS.into_iter().map(move |(way, map_way)| {
            let lengths = self.planes.lengths.map(|length| changed(length, way));
            Self { planes: Sizes { lengths, ..self.planes }, map: changed(self.map, map_way) }
        }))
    }

    /// The numbers as a person reads them, and `of_words` too.
    pub fn words(&self) -> String {
        format!("{} {}", self.planes.words(), self.map)
    }

    pub fn of_words(words: [u64; 6]) -> Result<Self, String> {
        let [planes @ .., map] = words;
        if map > LONGEST as u64 {
            return Err(format!("{map} is too long for a map of a case"));
        }
        Ok(Self { planes: Sizes::of_words(planes)?, map: map as usize })
    }

    /// The less, the smaller the picture.
    pub fn weight(&self) -> u64 {
        self.planes.weight() + self.map as u64
    }
}

/// Stride times rows: width and height rounded up to 16.
fn plane_of(Size { width, height }: Size) -> usize {
    usize::from(width).next_multiple_of(16) * usize::from(height).next_multiple_of(16)
}

/// How many 2x2 blocks the padded picture has.
fn blocks_of(size: Size) -> usize {
    plane_of(size) / 4
}

/// Whether width and height are each a multiple of 16, one below, or one above.
pub fn is_about_16(Size { width, height }: Size) -> bool {
    [width, height].iter().all(|length| matches!(length % 16, 0 | 1 | 15))
}

/// The buffers that are lent for the planes Y, U and V of a picture, and for its map.
#[derive(Clone)]
pub struct Planes([Lent; 4]);

impl Planes {
    /// Buffers full of bytes that `word` picks.
    pub fn new(sizes: &Mapped, noise: &Noise, word: u64) -> Self {
        let [y, u, v] = noise.planes(word, sizes.planes.lengths).map(Lent::holding);
        Self([y, u, v, Lent::holding(&noise.map(word, sizes.map))])
    }

    /// Y, U, V and the map.
    pub fn lent(&mut self) -> [&mut [u8]; 4] {
        self.0.each_mut().map(Lent::lent)
    }

    /// Y, U and V.
    pub fn lent_planes(&mut self) -> [&mut [u8]; 3] {
        let [y, u, v, _] = self.lent();
        [y, u, v]
    }

    pub fn map(&mut self) -> &mut [u8] {
        self.0[3].lent()
    }

    /// The original's picture of the same size with the same planes.
    ///
    /// # Panics
    ///
    /// Panics if a buffer is shorter than a plane.
    pub fn original(&mut self, sizes: &Sizes) -> Yuv444Frame {
        let Size { width, height } = sizes.size;
        probe::with_planes(width, height, self.lent_planes().map(|lent| &lent[..sizes.plane()]))
    }

    /// Takes the planes of the original's picture. What is longer than a plane stays.
    pub fn take(&mut self, picture: &Yuv444Frame) {
        self.take_planes(probe::planes(picture));
    }

    /// Takes planes. What is longer than a plane stays.
    pub fn take_planes(&mut self, planes: [&[u8]; 3]) {
        for (lent, plane) in self.lent_planes().into_iter().zip(planes) {
            lent[..plane.len()].copy_from_slice(plane);
        }
    }

    /// A sum over a few of the bytes that the original has too, for the benches.
    pub fn sample(&mut self) -> u64 {
        self.lent_planes().map(|lent| sample(lent)).iter().sum()
    }

    /// All bytes of each buffer, with the guard bytes.
    pub fn whole(self) -> Vec<Vec<u8>> {
        self.0.into_iter().map(Lent::whole).collect()
    }
}

#[cfg(test)]
mod tests {
    use super::*;

    #[test]
    fn words_are_read_back() {
        let planes = Sizes { lengths: [5, 6, 7], ..Sizes::exact(3, 65_535) };
        let sizes = Mapped { planes, map: 8 };
        let words: Vec<u64> = sizes.words().split(' ').map(|word| word.parse().unwrap()).collect();
        assert_eq!(Mapped::of_words(words.try_into().unwrap()), Ok(sizes));
    }

    #[test]
    fn the_map_is_short_by_itself() {
        let exact = Mapped::exact(17, 5);
        assert_eq!((exact.planes.lengths, exact.map), ([512; 3], 128));
        let all: Vec<Mapped> = exact.all_lengths().collect();
        assert_eq!((all[0], all.len() as u64), (exact, Mapped::WAYS));
        let short_alone = all.iter().filter(|sizes| sizes.is_short() && !sizes.planes.is_short());
        assert!(short_alone.map(|sizes| sizes.map).eq([127, 127]));
    }
}
