//! `haythaw_from_rgba_rust` beside `Yuv444Frame::from_rgba`; and `haythaw_from_rgba`, which fills the edge, beside the same function of
//! the original on pixels that are repeated at the edge before (`filled.rs`). The map, which the original has not, is to be 2.

mod bench;
pub mod filled;

use original::avc444::{probe, Yuv444Frame};

use super::map::COMPLETE;
use super::noise::{Noise, LONGEST};
use super::pictures::{Mapped, Planes};
use super::{lengths, Suite};
use crate::ours::{self, Size};
use crate::outcome::Outcome;
use crate::run::Run;

pub use self::bench::{BENCH, RUST_BENCH, SCALE, SMOOTH_BENCH};

/// A call of ours, and the planes that the original makes of the same pixels: none where they are too few.
struct Call {
    ours: fn(&[u8], Size, [&mut [u8]; 4]) -> u32,
    theirs: fn(&[u8], Size) -> Option<[Vec<u8>; 3]>,
}

const FILLED: Call = Call { ours: ours::from_rgba, theirs: filled::planes };

const RUST: Call = Call {
    ours: ours::from_rgba_rust,
    theirs: |rgba, Size { width, height }| {
        Yuv444Frame::from_rgba(rgba, width, height).map(|picture| probe::planes(&picture).map(<[u8]>::to_vec))
    },
};

pub const SUITE: Suite = Suite {
    name: "from_rgba",
    about:
        "systematic: widths and heights to 33; the pixels and each plane a byte short, exact or longer, in all 81 ways, and the map alone and
with planes that are changed otherwise
random: sizes to 1,024 by 1,024, or 4,096 wide or high, seldom with something too short; 65,535x1 and 1x65,535
the original is given the pixels with the last column, then the last row repeated to a whole number of 16s",
    run: |run| every_size(run, &FILLED),
    replay: |run, words| replay(run, words, &FILLED),
};

pub const RUST_SUITE: Suite = Suite {
    name: "from_rgba_rust",
    about: "the cases of from_rgba; the original is given the pixels as they are",
    run: |run| every_size(run, &RUST),
    replay: |run, words| replay(run, words, &RUST),
};

fn replay(run: &mut Run, words: &[u64], call: &Call) -> Result<(), String> {
    let words = <[u64; 8]>::try_from(words).map_err(|_| {
        "a case is width, height, the lengths of Y, U, V and the map, how many bytes of pixels there are, and the place of all bytes"
    })?;
    let [sizes @ .., pixels, place] = words;
    let sizes = Mapped::of_words(sizes)?;
    if pixels > LONGEST as u64 {
        return Err(format!("{pixels} bytes of pixels are too many for a case"));
    }
    check(run, call, &Noise::new(LONGEST), sizes, pixels as usize, place);
    Ok(())
}

fn every_size(run: &mut Run, call: &Call) {
    let noise = Noise::new(1 << 22);
    for width in 0..=33 {
        for height in 0..=33 {
            for sizes in Mapped::exact(width, height).all_lengths() {
                for way in 0..3 {
                    let place = run.random.between(0, 999_999);
                    check(run, call, &noise, sizes, lengths::changed(exact(sizes.size()), way), place);
                }
            }
        }
    }
    for (width, height) in [(65_535, 1), (1, 65_535)] {
        let sizes = Mapped::exact(width, height);
        check(run, call, &noise, sizes, exact(sizes.size()), 0);
    }
    while run.more() {
        let sizes = Mapped::anyhow(&mut run.random);
        let way = if run.random.between(0, 9) == 0 { 1 } else { 0 };
        let place = run.random.between(0, 999_999);
        check(run, call, &noise, sizes, lengths::changed(exact(sizes.size()), way), place);
    }
}

/// How many bytes of pixels are read.
fn exact(Size { width, height }: Size) -> usize {
    usize::from(width) * usize::from(height) * 4
}

fn check(run: &mut Run, call: &Call, noise: &Noise, sizes: Mapped, pixels: usize, place: u64) {
    let planes = Planes::new(&sizes, noise, place);
    let rgba = noise.bytes(place ^ 0x5_5555, pixels);
    let ours = run.ours(call.our_outcome(rgba, &sizes, planes.clone()));
    run.refused(ours.number);
    let theirs = call.their_outcome(rgba, &sizes, planes);
    run.compare(&ours, &theirs, sizes.weight() + pixels as u64, || format!("{} {pixels} {place}", sizes.words()));
}

impl Call {
    fn our_outcome(&self, rgba: &[u8], sizes: &Mapped, mut planes: Planes) -> Outcome {
        let number = (self.ours)(rgba, sizes.size(), planes.lent());
        Outcome { number, count: 0, buffers: planes.whole() }
    }

    /// Refusals: 2, 1.
    fn their_outcome(&self, rgba: &[u8], sizes: &Mapped, mut planes: Planes) -> Outcome {
        let Some(written) = (self.theirs)(rgba, sizes.size()) else {
            return Outcome::unwritten(2, planes.whole());
        };
        if sizes.is_short() {
            return Outcome::unwritten(1, planes.whole());
        }
        planes.take_planes(written.each_ref().map(Vec::as_slice));
        planes.map()[..sizes.blocks()].fill(COMPLETE);
        Outcome { number: 0, count: 0, buffers: planes.whole() }
    }
}
