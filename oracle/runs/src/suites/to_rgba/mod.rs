//! `haythaw_to_rgba` beside `Yuv444Frame::to_rgba`.
//!
//! The original answers a `Vec`, so what it answers says how long an output has to be. It does not count what it filters: the probe does,
//! where the original's filter answers another value. It has no map: pixels that lie in blocks that are not complete are counted one by one
//! (`map.rs`).

mod bench;
pub mod shown;

use original::avc444::{probe, Yuv444Frame};

use super::lengths::changed;
use super::lists::{self, Rect};
use super::map::stale;
use super::noise::{Noise, LONGEST};
use super::pictures::{Mapped, Planes};
use super::Suite;
use crate::ours::{self, Size};
use crate::outcome::{Lent, Outcome};
use crate::random::Random;
use crate::run::Run;

pub use self::bench::{BENCH, ODD_EDGES, PLACES, SCALE, SMALL_BENCH, SMOOTH_BENCH};
use self::shown::{Counts, Shown};

pub const SUITE: Suite = Suite {
    name: "to_rgba",
    about: "systematic: widths and heights to 33, with left and top from 0 to 3, right and bottom from 3 before the edge to 1
past it, and 23 rectangles that are empty, reversed or off the picture; the output exact, and a byte short or longer;
each plane a byte short, exact or longer, and the map too; 65,535x1 and 1x65,535; rectangles of 62 to 66 and of 126 to 130 columns from each
column from 0 to 66 on, at two rows and at three
random: sizes to 4,096, any rectangle",
    run: all_pictures,
    replay,
};

/// A picture on both sides; the original has none where a buffer is too short.
struct Case<'a> {
    sizes: Mapped,
    place: u64,
    planes: [&'a [u8]; 3],
    map: Vec<u8>,
    theirs: Option<Yuv444Frame>,
}

impl<'a> Case<'a> {
    fn new(noise: &'a Noise, sizes: Mapped, place: u64) -> Self {
        let theirs = (!sizes.is_short()).then(|| Planes::new(&sizes, noise, place).original(&sizes.planes));
        let (planes, map) = (noise.planes(place, sizes.planes.lengths), noise.map(place, sizes.map));
        Self { sizes, place, planes, map, theirs }
    }

    /// What the original answers, how many samples of U and of V it filtered, and how many pixels are stale; nothing where it has no picture.
    fn written(&self, rect: Rect) -> (Vec<u8>, Counts) {
        let Some(picture) = &self.theirs else {
            return Default::default();
        };
        let theirs = lists::original_of(rect);
        let filtered = probe::filtered(picture, &theirs);
        (picture.to_rgba(&theirs), Counts { filtered, stale: stale(&self.map, self.sizes.size(), rect) })
    }

    /// The call with an output that is just long enough, and then with one that `way` makes shorter or longer.
    fn check(&self, run: &mut Run, rect: Rect, way: u64) {
        let Size { width, height } = self.sizes.size();
        let [left, top, right, bottom] = rect;
        let clipped = |from: u16, to: u16, limit: u16| usize::from(to.min(limit).saturating_sub(from));
        let exact = 4 * clipped(left, right, width) * clipped(top, bottom, height);
        let written = self.written(rect);
        self.check_output(run, rect, &written, exact);
        self.check_output(run, rect, &written, changed(exact, way));
    }

    /// The call with an output of so many bytes. Refusals: 1, 6.
    fn check_output(&self, run: &mut Run, rect: Rect, written: &(Vec<u8>, Counts), length: usize) {
        let output = Lent::new(length);
        let ours = run.ours(self.our_outcome(rect, output.clone()));
        run.refused(ours.outcome.number);
        let theirs = match self.theirs {
            Some(_) => Shown::of(Outcome::written(&written.0, output), written.1),
            None => Shown::of(Outcome::unwritten(1, vec![output.whole()]), Counts::default()),
        };
        run.compare(&ours, &theirs, self.sizes.weight() + length as u64, || {
            let [left, top, right, bottom] = rect;
            format!("{} {} {left} {top} {right} {bottom} {length}", self.sizes.words(), self.place)
        });
    }

    fn our_outcome(&self, rect: Rect, mut output: Lent) -> Shown {
        let [y, u, v] = self.planes;
        let pixels = ours::to_rgba(self.sizes.size(), [y, u, v, &self.map], rect, output.lent());
        Shown::ours(pixels, vec![output.whole()])
    }
}

fn replay(run: &mut Run, words: &[u64]) -> Result<(), String> {
    let words = <[u64; 12]>::try_from(words).map_err(|_| {
        "a case is width, height, the lengths of Y, U, V and the map, the place of their bytes, left, top, right, bottom, and \
         the output's length"
    })?;
    let [sizes @ .., place, left, top, right, bottom, length] = words;
    let edges = lists::of_words(&[left, top, right, bottom])?;
    let rect = edges.try_into().expect("four edges");
    if length > 4 * LONGEST as u64 {
        return Err(format!("{length} is too long for an output of a case"));
    }
    let noise = Noise::new(LONGEST);
    let case = Case::new(&noise, Mapped::of_words(sizes)?, place);
    case.check_output(run, rect, &case.written(rect), length as usize);
    Ok(())
}

fn all_pictures(run: &mut Run) {
    let noise = Noise::new(LONGEST);
    for width in 0..=33 {
        for height in 0..=33 {
            let place = run.random.between(0, 999_999);
            small_picture(run, &noise, Mapped::exact(width, height), place);
        }
    }
    for (width, height) in [(65_535, 1), (1, 65_535)] {
        let case = Case::new(&noise, Mapped::exact(width, height), 1);
        let odd = [width.min(3), height.min(3), width - 1, height - 1];
        for rect in [lists::whole(case.sizes.size()), odd].into_iter().chain(lists::odd_ones(case.sizes.size())) {
            case.check(run, rect, 1);
        }
    }
    part_borders(run, &noise);
    while run.more() {
        let sizes = random_sizes(&mut run.random);
        let place = run.random.between(0, 999_999);
        let case = Case::new(&noise, sizes, place);
        for way in [1, 2] {
            let rect = lists::any_rect(&mut run.random, sizes.size());
            case.check(run, rect, way);
        }
    }
}

/// A row is written in parts of 64 pixels: rectangles that end a few columns before and behind the border of a part, from even and odd
/// columns on.
fn part_borders(run: &mut Run, noise: &Noise) {
    let case = Case::new(noise, Mapped::exact(200, 4), 7);
    for columns in (62..=66).chain(126..=130) {
        for left in 0..=66 {
            for (top, bottom) in [(0, 3), (1, 3)] {
                case.check(run, [left, top, left + columns, bottom], 1);
            }
        }
    }
}

/// All the rectangles of a small picture, and some with buffers that are too short.
fn small_picture(run: &mut Run, noise: &Noise, sizes: Mapped, place: u64) {
    let case = Case::new(noise, sizes, place);
    let ends = |limit: u16| limit.saturating_sub(3)..=limit + 1;
    for left in 0..4 {
        for top in 0..4 {
            for right in ends(sizes.size().width) {
                for bottom in ends(sizes.size().height) {
                    case.check(run, [left, top, right, bottom], 1 + u64::from((left ^ top ^ right ^ bottom) & 1));
                }
            }
        }
    }
    for rect in lists::odd_ones(sizes.size()) {
        case.check(run, rect, 1);
    }
    for sizes in sizes.all_lengths() {
        Case::new(noise, sizes, place).check(run, lists::whole(sizes.size()), 1);
    }
}

/// Pictures to 4,096 wide and high; one of 250 may be both.
fn random_sizes(random: &mut Random) -> Mapped {
    if random.between(0, 249) == 0 {
        return Mapped::exact(random.between(2048, 4096) as u16, random.between(2048, 4096) as u16);
    }
    Mapped::anyhow(random)
}
