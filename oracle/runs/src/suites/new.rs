//! `haythaw_new` beside `Yuv444Frame::new`; the map, which the original has not, is to be 0.

use original::avc444::{probe, Yuv444Frame};

use super::map::NEVER;
use super::noise::{Noise, LONGEST};
use super::pictures::{Mapped, Planes};
use super::Suite;
use crate::bench::{sample, scale, Bench, Over, Pass, Sides, Weighing, SCALES};
use crate::ours;
use crate::outcome::Outcome;
use crate::run::Run;

pub const SUITE: Suite = Suite {
    name: "new",
    about: "systematic: widths and heights to 33, with each plane a byte short, exact or longer, and the map alone and with planes that
are changed otherwise
random: sizes to 1,024 by 1,024, or 4,096 wide or high, seldom with a buffer too short",
    run: every_size,
    replay,
};

pub const BENCH: Bench = Bench {
    name: "new",
    input: "; the original allocates, and the zeros of Y come with that",
    bound: None,
    over: Over::Frames(|width, height| Sides::repeated(8, pass(width, height), move || their_sum(width, height))),
};

pub const SCALE: Weighing = Weighing { name: "new", input: SCALES, bound: Some(2.0), passes: || scale(pass) };

/// A call of ours, which answers the number and a sum of bytes of the planes.
fn pass(width: u16, height: u16) -> Pass {
    let sizes = Mapped::exact(width, height);
    let mut planes = Planes::new(&sizes, &Noise::new(LONGEST), 0);
    Pass::new(u64::from(width) * u64::from(height), move || {
        let number = ours::new(sizes.size(), planes.lent());
        u64::from(number) + planes.sample()
    })
}

#[inline(never)]
fn their_sum(width: u16, height: u16) -> u64 {
    probe::planes(&Yuv444Frame::new(width, height)).map(sample).iter().sum()
}

fn replay(run: &mut Run, words: &[u64]) -> Result<(), String> {
    let words = <[u64; 7]>::try_from(words)
        .map_err(|_| "a case is width, height, the lengths of Y, U, V and the map, and the place of their bytes")?;
    let [sizes @ .., place] = words;
    check(run, &Noise::new(LONGEST), Mapped::of_words(sizes)?, place);
    Ok(())
}

fn every_size(run: &mut Run) {
    let noise = Noise::new(1 << 20);
    for width in 0..=33 {
        for height in 0..=33 {
            for sizes in Mapped::exact(width, height).all_lengths() {
                let place = run.random.between(0, 999);
                check(run, &noise, sizes, place);
            }
        }
    }
    while run.more() {
        let sizes = Mapped::anyhow(&mut run.random);
        let place = run.random.between(0, 999);
        check(run, &noise, sizes, place);
    }
}

fn check(run: &mut Run, noise: &Noise, sizes: Mapped, place: u64) {
    let planes = Planes::new(&sizes, noise, place);
    let ours = run.ours(our_outcome(&sizes, planes.clone()));
    run.refused(ours.number);
    run.compare(&ours, &their_outcome(&sizes, planes), sizes.weight(), || format!("{} {place}", sizes.words()));
}

fn our_outcome(sizes: &Mapped, mut planes: Planes) -> Outcome {
    let number = ours::new(sizes.size(), planes.lent());
    Outcome { number, count: 0, buffers: planes.whole() }
}

/// Refusal: 1.
fn their_outcome(sizes: &Mapped, mut planes: Planes) -> Outcome {
    if sizes.is_short() {
        return Outcome::unwritten(1, planes.whole());
    }
    planes.take(&Yuv444Frame::new(sizes.size().width, sizes.size().height));
    planes.map()[..sizes.blocks()].fill(NEVER);
    Outcome { number: 0, count: 0, buffers: planes.whole() }
}
