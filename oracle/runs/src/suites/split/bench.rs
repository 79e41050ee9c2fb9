//! The splits timed.

use std::hint::black_box;

use original::avc444::{probe, Avc444Layout, Yuv444Frame};
use original::decode::Yuv420Frame;

use super::case::Call;
use super::{V1, V2, V2_32};
use crate::bench::{scale, Bench, Over, Pass, Sides, Weighing, SCALES};
use crate::ours::Views;
use crate::suites::noise::{Noise, LONGEST};
use crate::suites::pictures::Sizes;

const INPUT: &str = "; the original allocates the views";

pub const V1_BENCH: Bench =
    Bench { name: "split_v1", input: INPUT, bound: Some(0.5), over: Over::Frames(|w, h| sides(&V1, w, h)) };
pub const V2_BENCH: Bench =
    Bench { name: "split_v2", input: INPUT, bound: Some(0.4), over: Over::Frames(|w, h| sides(&V2, w, h)) };

/// The frames are multiples of 32 wide, so that the original's split is the same.
pub const V2_32_BENCH: Bench =
    Bench { name: "split_v2_32", input: INPUT, bound: Some(0.4), over: Over::Frames(|w, h| sides(&V2_32, w, h)) };

/// What the padding costs, a byte of the views: on a large picture, and on one whose rows are short.
pub const V2_32_BYTES: Weighing = Weighing {
    name: "split_v2_32",
    input: "1904x1080, W 1920, a byte written, against split_v2",
    bound: Some(1.15),
    passes: || bytes(1904, 1080),
};
pub const V2_32_SMALL: Weighing = Weighing {
    name: "split_v2_32",
    input: "240x240, W 256, a byte written, against split_v2",
    bound: Some(1.15),
    passes: || bytes(240, 240),
};

pub const V1_SCALE: Weighing = Weighing { name: "split_v1", input: SCALES, bound: Some(2.0), passes: || scaled(&V1) };
pub const V2_SCALE: Weighing = Weighing { name: "split_v2", input: SCALES, bound: Some(2.0), passes: || scaled(&V2) };

fn scaled(call: &'static Call) -> [Pass; 2] {
    scale(|width, height| pass(call, width, height))
}

fn bytes(width: u16, height: u16) -> [Pass; 2] {
    [&V2_32, &V2].map(|call| Pass { units: written(call, width, height), ..pass(call, width, height) })
}

/// Bytes of both views.
fn written(call: &'static Call, width: u16, height: u16) -> u64 {
    call.outputs(&Sizes::exact(width, height)).0.iter().sum::<usize>() as u64
}

fn sides(call: &'static Call, width: u16, height: u16) -> Sides {
    let sizes = Sizes::exact(width, height);
    let picture = probe::with_planes(width, height, Noise::new(LONGEST).planes(0, sizes.lengths));
    Sides::repeated(2, pass(call, width, height), move || their_sum(black_box(&picture), call.layout))
}

/// A call of ours, which answers the number and a sum of bytes of the views.
fn pass(call: &'static Call, width: u16, height: u16) -> Pass {
    let sizes = Sizes::exact(width, height);
    let planes = Noise::new(LONGEST).planes(0, sizes.lengths).map(<[u8]>::to_vec);
    let mut outputs = call.outputs(&sizes).0.map(|length| vec![0; length]);
    Pass::new(u64::from(width) * u64::from(height), move || {
        let planes = planes.each_ref().map(|plane| black_box(plane.as_slice()));
        let views = call.ours(sizes.size, planes, outputs.each_mut().map(Vec::as_mut_slice));
        let Views { number, width, height, luma_stride, chroma_stride } = views;
        let plane = |at: usize, stride: usize, rows: u16| few(rows.into(), |row| outputs[at].get(row * stride..));
        let sums = [0, 3].map(|first| {
            plane(first, luma_stride, height)
                + plane(first + 1, chroma_stride, height / 2)
                + plane(first + 2, chroma_stride, height / 2)
        });
        u64::from(number) + u64::from(width) + sums.iter().sum::<u64>()
    })
}

#[inline(never)]
fn their_sum(picture: &Yuv444Frame, layout: Avc444Layout) -> u64 {
    let (main, auxiliary) = picture.split(layout).expect("the picture is not too large");
    let sum = |view: &Yuv420Frame| {
        let (rows, half_rows) = (usize::from(view.height()), usize::from(view.height() / 2));
        few(rows, |row| view.luma_row(row))
            + few(half_rows, |row| view.u_row(row))
            + few(half_rows, |row| view.v_row(row))
    };
    u64::from(main.width()) + sum(&main) + sum(&auxiliary)
}

/// A sum over the beginnings of a few rows.
fn few<'a>(rows: usize, row: impl Fn(usize) -> Option<&'a [u8]>) -> u64 {
    (0..rows).step_by(67).filter_map(row).filter_map(<[u8]>::first).map(|&byte| u64::from(byte)).sum()
}
