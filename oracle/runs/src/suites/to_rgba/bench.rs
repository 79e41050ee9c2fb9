//! Picture to RGBA timed.

use std::hint::black_box;

use original::avc444::{probe, Yuv444Frame};
use original::ExclusiveRectangle;

use crate::bench::{sample, scale, Bench, Over, Pass, Sides, Weighing, SCALES};
use crate::ours::{self, Size};
use crate::suites::lists::{self, Rect};
use crate::suites::look::Look;
use crate::suites::map::COMPLETE;

pub const BENCH: Bench = Bench {
    name: "to_rgba",
    input: ", noise; the original allocates its answer",
    bound: Some(0.25),
    over: Over::Frames(|width, height| sides(Look::Noise, width, height)),
};

pub const SMOOTH_BENCH: Bench = Bench {
    name: "to_rgba",
    input: ", smooth; the original allocates its answer",
    bound: None,
    over: Over::Frames(|width, height| sides(Look::Smooth, width, height)),
};

pub const SMALL_BENCH: Bench = Bench {
    name: "to_rgba_small",
    input: "1920x1080, a rectangle of 16x16, smooth; the original allocates its answer",
    bound: None,
    over: Over::One(|| {
        let size = Size { width: 1920, height: 1080 };
        let rect = [960, 544, 976, 560];
        let picture = original_of(Look::Smooth, size);
        let theirs = lists::original_of(rect);
        Sides::repeated(200, pass(Look::Smooth, size, rect, FAR), move || their_sum(black_box(&picture), &theirs))
    }),
};

pub const ODD_EDGES: Weighing = Weighing {
    name: "to_rgba",
    input: "1920x1080: columns 1 to below 1918 against 0 to below 1918",
    bound: Some(1.2),
    passes: || {
        let size = Size { width: 1920, height: 1080 };
        [[1, 0, 1918, 1080], [0, 0, 1918, 1080]].map(|rect| pass(Look::Noise, size, rect, FAR))
    },
};

pub const SCALE: Weighing = Weighing {
    name: "to_rgba",
    input: SCALES,
    bound: Some(2.0),
    passes: || scale(|width, height| whole(width, height, FAR)),
};

pub const PLACES: Weighing = Weighing {
    name: "to_rgba",
    input: "1280x720: the output right behind V against far from it",
    bound: Some(1.2),
    passes: || [0, FAR].map(|gap| whole(1280, 720, gap)),
};

/// Bytes between V and an output that is far from it.
const FAR: usize = 1 << 17;

fn sides(look: Look, width: u16, height: u16) -> Sides {
    let size = Size { width, height };
    let whole = lists::whole(size);
    let picture = original_of(look, size);
    let rect = lists::original_of(whole);
    Sides::repeated(2, pass(look, size, whole, FAR), move || their_sum(black_box(&picture), &rect))
}

fn original_of(look: Look, Size { width, height }: Size) -> Yuv444Frame {
    probe::with_planes(width, height, look.planes(width, height).each_ref().map(Vec::as_slice))
}

fn whole(width: u16, height: u16, gap: usize) -> Pass {
    let size = Size { width, height };
    pass(Look::Noise, size, lists::whole(size), gap)
}

/// A call of ours for a rectangle inside the picture, which answers the number, the count and a sum of bytes. The planes stand
/// one behind the other, then, so many bytes on, the output, and then the map: where buffers lie is not left to chance. All blocks are
/// complete.
fn pass(look: Look, size: Size, rect: Rect, gap: usize) -> Pass {
    let [left, top, right, bottom] = rect;
    let pixels = u64::from(right - left) * u64::from(bottom - top);
    let mut memory = look.planes(size.width, size.height).concat();
    let (length, written) = (memory.len() / 3, 4 * pixels as usize);
    memory.resize(3 * length + gap + written, 0);
    memory.resize(3 * length + gap + written + length / 4, COMPLETE);
    Pass::new(pixels, move || {
        let (planes, rest) = black_box(&mut memory).split_at_mut(3 * length);
        let (out, map) = rest[gap..].split_at_mut(written);
        let (y, chroma) = planes.split_at(length);
        let (u, v) = chroma.split_at(length);
        let ours::Pixels { number, count, .. } = ours::to_rgba(size, [y, u, v, map], rect, out);
        u64::from(number) + count as u64 + sample(out)
    })
}

#[inline(never)]
fn their_sum(picture: &Yuv444Frame, rect: &ExclusiveRectangle) -> u64 {
    let rgba = picture.to_rgba(rect);
    rgba.len() as u64 + sample(&rgba)
}
