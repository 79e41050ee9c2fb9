//! `haythaw_view_to_rgba` beside `Yuv420Frame::to_rgba`.
//!
//! The original answers a `Vec`, so what it answers says how long an output has to be.

use std::hint::black_box;

use original::decode::Yuv420Frame;

use super::lengths::changed;
use super::look::Look;
use super::noise::LONGEST;
use super::views::{self, original_of, Sizes, Source};
use super::Suite;
use crate::bench::{sample, scale, Bench, Over, Pass, Sides, Weighing, SCALES};
use crate::ours::{self, View};
use crate::outcome::{Lent, Outcome};
use crate::run::Run;

pub const SUITE: Suite = Suite {
    name: "view_to_rgba",
    about: "systematic: widths and heights to 33, strides from width - 1 to width + 3, and padded to 16; the output exact, a byte
short and longer; every plane a byte short, exact or longer, with an output that is exact and one a byte short; widths from 62
to 66 and from 126 to 130, heights to 5, both padded to 16 and not
random: larger views, to 65,535 wide or high",
    run: all_views,
    replay,
};

/// One view on both sides.
struct Case<'a> {
    sizes: Sizes,
    view: View<'a>,
    /// What the original answers, or the number of its refusal.
    theirs: Result<Vec<u8>, u32>,
}

impl<'a> Case<'a> {
    fn new(source: &'a Source, sizes: Sizes) -> Self {
        let view = source.view(&sizes);
        Self { sizes, view, theirs: original_of(view).0.map(|frame| frame.to_rgba().into_data()) }
    }

    /// The call with an output as long as what a call that is not refused writes, shorter, and longer.
    fn check(&self, run: &mut Run, ways: &[u64]) {
        let exact = usize::from(self.sizes.width) * usize::from(self.sizes.height) * 4;
        for &way in ways {
            self.check_output(run, changed(exact, way));
        }
    }

    /// The call with an output of so many bytes. Refusals: 3, 4, 6.
    fn check_output(&self, run: &mut Run, length: usize) {
        let output = Lent::new(length);
        let ours = run.ours(self.our_outcome(output.clone()));
        run.refused(ours.number);
        let theirs = match &self.theirs {
            Ok(written) => Outcome::written(written, output),
            Err(number) => Outcome::unwritten(*number, vec![output.whole()]),
        };
        run.compare(&ours, &theirs, self.sizes.weight(length), || format!("{} {length}", self.sizes.words()));
    }

    fn our_outcome(&self, mut output: Lent) -> Outcome {
        let ours::Answer { number, count } = ours::view_to_rgba(self.view, output.lent());
        Outcome { number, count, buffers: vec![output.whole()] }
    }
}

fn replay(run: &mut Run, words: &[u64]) -> Result<(), String> {
    let words = <[u64; 8]>::try_from(words).map_err(|_| {
        "a case is width, height, luma stride, chroma stride, the lengths of Y, U and V, and the output's length"
    })?;
    let [sizes @ .., length] = words;
    if length > LONGEST as u64 {
        return Err(format!("{length} is too long for an output of a case"));
    }
    Case::new(&Source::new(), Sizes::of_words(sizes)?).check_output(run, length as usize);
    Ok(())
}

fn all_views(run: &mut Run) {
    let source = Source::new();
    for sizes in views::small() {
        Case::new(&source, sizes).check(run, &[0, 1, 2]);
        sizes.other_lengths().for_each(|sizes| Case::new(&source, sizes).check(run, &[0, 1]));
    }
    for width in 0..=33 {
        for height in 0..=33 {
            Case::new(&source, cropped(width, height)).check(run, &[0, 1, 2]);
        }
    }
    // A row is written in parts of 64 pixels, and two rows at a time.
    for width in (62..=66).chain(126..=130) {
        for height in 1..=5 {
            for sizes in [Sizes::tight(width, height), cropped(width, height)] {
                Case::new(&source, sizes).check(run, &[0, 1, 2]);
            }
        }
    }
    while run.more() {
        let sizes = views::anyhow(&mut run.random);
        Case::new(&source, sizes).check(run, &[0, 1, 2]);
    }
}

/// A view whose planes are padded to whole macroblocks.
fn cropped(width: u16, height: u16) -> Sizes {
    let padded = Sizes::padded(width, height);
    padded.cropped(padded.width - width, padded.height - height)
}

pub const BENCH: Bench = Bench {
    name: "view_to_rgba",
    input: ", noise, strides the widths; the original allocates its answer",
    bound: Some(0.25),
    over: Over::Frames(|width, height| sides(Look::Noise, width, height)),
};

pub const SMOOTH_BENCH: Bench = Bench {
    name: "view_to_rgba",
    input: ", smooth, strides the widths; the original allocates its answer",
    bound: None,
    over: Over::Frames(|width, height| sides(Look::Smooth, width, height)),
};

pub const SMALL_BENCH: Bench = Bench {
    name: "view_to_rgba_small",
    input: "16x16, smooth, strides the widths; the original allocates its answer",
    bound: None,
    over: Over::One(|| repeated(200, Look::Smooth, 16, 16)),
};

pub const SCALE: Weighing = Weighing {
    name: "view_to_rgba",
    input: SCALES,
    bound: Some(2.0),
    passes: || scale(|width, height| pass(Look::Noise, width, height)),
};

fn sides(look: Look, width: u16, height: u16) -> Sides {
    repeated(2, look, width, height)
}

fn repeated(calls: u64, look: Look, width: u16, height: u16) -> Sides {
    let frame = original_of(look.view(width, height).view()).0.expect("the planes are exact");
    Sides::repeated(calls, pass(look, width, height), move || their_sum(black_box(&frame)))
}

/// A call of ours, which answers the number, the count and a sum of bytes.
fn pass(look: Look, width: u16, height: u16) -> Pass {
    let pixels = u64::from(width) * u64::from(height);
    let view = look.view(width, height);
    let mut out = vec![0; 4 * pixels as usize];
    Pass::new(pixels, move || {
        let ours::Answer { number, count } = ours::view_to_rgba(black_box(view.view()), &mut out);
        u64::from(number) + count as u64 + sample(&out)
    })
}

#[inline(never)]
fn their_sum(frame: &Yuv420Frame) -> u64 {
    let rgba = frame.to_rgba();
    rgba.data().len() as u64 + sample(rgba.data())
}
