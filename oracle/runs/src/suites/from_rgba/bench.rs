//! The times of both calls beside the original's, which fills no edge.

use std::hint::black_box;

use original::avc444::{probe, Yuv444Frame};

use super::{Call, FILLED, RUST};
use crate::bench::{sample, scale, Bench, Over, Pass, Sides, Weighing, SCALES};
use crate::suites::look::Look;
use crate::suites::noise::{Noise, LONGEST};
use crate::suites::pictures::{Mapped, Planes};

pub const BENCH: Bench = Bench {
    name: "from_rgba",
    input: ", noise; the original allocates the planes, and fills no edge",
    bound: Some(0.35),
    over: Over::Frames(|width, height| sides(&FILLED, Look::Noise, width, height)),
};

pub const SMOOTH_BENCH: Bench = Bench {
    name: "from_rgba",
    input: ", smooth; the original allocates the planes, and fills no edge",
    bound: Some(0.40),
    over: Over::Frames(|width, height| sides(&FILLED, Look::Smooth, width, height)),
};

pub const RUST_BENCH: Bench = Bench {
    name: "from_rgba_rust",
    input: ", noise; the original allocates the planes",
    bound: Some(0.35),
    over: Over::Frames(|width, height| sides(&RUST, Look::Noise, width, height)),
};

pub const SCALE: Weighing = Weighing {
    name: "from_rgba",
    input: SCALES,
    bound: Some(2.0),
    passes: || scale(|width, height| pass(&FILLED, Look::Noise, width, height)),
};

/// In the rows below 1080 the default has other bytes than the original. No sum takes one of them, or the bench would stop there.
fn sides(call: &'static Call, look: Look, width: u16, height: u16) -> Sides {
    let pixels = look.pixels(width, height);
    Sides::repeated(2, pass(call, look, width, height), move || their_sum(black_box(&pixels), width, height))
}

/// A call of ours, which answers the number and a sum of bytes of the planes.
fn pass(call: &'static Call, look: Look, width: u16, height: u16) -> Pass {
    let sizes = Mapped::exact(width, height);
    let pixels = look.pixels(width, height);
    let mut planes = Planes::new(&sizes, &Noise::new(LONGEST), 0);
    Pass::new(u64::from(width) * u64::from(height), move || {
        let number = (call.ours)(black_box(&pixels), sizes.size(), planes.lent());
        u64::from(number) + planes.sample()
    })
}

#[inline(never)]
fn their_sum(pixels: &[u8], width: u16, height: u16) -> u64 {
    Yuv444Frame::from_rgba(pixels, width, height).map_or(2, |picture| probe::planes(&picture).map(sample).iter().sum())
}
