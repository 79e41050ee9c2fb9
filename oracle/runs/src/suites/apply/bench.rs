//! The apply calls timed.

use std::cell::RefCell;
use std::hint::black_box;
use std::rc::Rc;

use original::avc444::{probe, Yuv444Frame};
use original::decode::Yuv420Frame;
use original::ExclusiveRectangle;

use super::case::Call;
use super::{MAIN, MAIN_STRICT, V1, V1_STRICT, V2, V2_32, V2_STRICT};
use crate::bench::{sample, scale, Bench, Over, Pass, Sides, Weighing, SCALES};
use crate::suites::lists;
use crate::suites::noise::{Noise, LONGEST};
use crate::suites::pictures::{Mapped, Planes};
use crate::suites::views::{original_of, Owned};

pub const MAIN_BENCH: Bench =
    Bench { name: "apply_main_view", input: WHOLE, bound: Some(0.15), over: Over::Frames(|w, h| whole(&MAIN, w, h)) };

pub const MAIN_RECTS_BENCH: Bench = Bench {
    name: "apply_main_view_rects",
    input: ODD_RECTS,
    bound: Some(0.6),
    over: Over::One(|| sides(&MAIN, 1920, 1080, odd_rects())),
};

pub const MAIN_SMALL_RECTS_BENCH: Bench = Bench {
    name: "apply_main_view_small",
    input: SMALL_RECTS,
    bound: None,
    over: Over::One(|| sides(&MAIN, 1920, 1080, small_rects())),
};

pub const V1_BENCH: Bench =
    Bench { name: "apply_auxiliary_v1", input: WHOLE, bound: Some(0.70), over: Over::Frames(|w, h| whole(&V1, w, h)) };

pub const V1_RECTS_BENCH: Bench = Bench {
    name: "apply_auxiliary_v1_rects",
    input: ODD_RECTS,
    bound: Some(0.6),
    over: Over::One(|| sides(&V1, 1920, 1080, odd_rects())),
};

pub const V1_SMALL_RECTS_BENCH: Bench = Bench {
    name: "apply_auxiliary_v1_small",
    input: SMALL_RECTS,
    bound: Some(1.0),
    over: Over::One(|| sides(&V1, 1920, 1080, small_rects())),
};

pub const V2_BENCH: Bench =
    Bench { name: "apply_auxiliary_v2", input: WHOLE, bound: Some(0.40), over: Over::Frames(|w, h| whole(&V2, w, h)) };

/// The frames are multiples of 32 wide, so that the original's V2 is the same; the suite's way to it would time the widening.
const V2_32_FRAMES: Call = Call { theirs: V2.theirs, ..V2_32 };

pub const V2_32_BENCH: Bench = Bench {
    name: "apply_auxiliary_v2_32",
    input: WHOLE,
    bound: Some(0.40),
    over: Over::Frames(|w, h| whole(&V2_32_FRAMES, w, h)),
};

pub const V2_RECTS_BENCH: Bench = Bench {
    name: "apply_auxiliary_v2_rects",
    input: ODD_RECTS,
    bound: Some(0.45),
    over: Over::One(|| sides(&V2, 1920, 1080, odd_rects())),
};

pub const V2_SMALL_RECTS_BENCH: Bench = Bench {
    name: "apply_auxiliary_v2_small",
    input: SMALL_RECTS,
    bound: Some(1.0),
    over: Over::One(|| sides(&V2, 1920, 1080, small_rects())),
};

pub const MAIN_SCALE: Weighing =
    Weighing { name: "apply_main_view", input: SCALES, bound: Some(2.0), passes: || scaled(&MAIN) };

/// What is left to gain in the main view: the second pass moves as many bytes from and to as many, by copies alone.
pub const MAIN_COPIES: Weighing = Weighing {
    name: "apply_main_view",
    input: "1920x1080 against copies of as many bytes",
    bound: Some(1.2),
    passes: || [pass(&MAIN, 1920, 1080, vec![0, 0, 1920, 1080]), copies(1920, 1080)],
};

pub const V1_SCALE: Weighing =
    Weighing { name: "apply_auxiliary_v1", input: SCALES, bound: Some(2.0), passes: || scaled(&V1) };

pub const V2_SCALE: Weighing =
    Weighing { name: "apply_auxiliary_v2", input: SCALES, bound: Some(2.0), passes: || scaled(&V2) };

/// What it costs to test a list: 1.05 over 500 rectangles is laid down.
pub const MAIN_STRICT_RECTS: Weighing = Weighing {
    name: "apply_main_view_strict",
    input: STRICT_ODD_RECTS,
    bound: Some(1.05),
    passes: || beside(&MAIN_STRICT, &MAIN, 8, odd_rects()),
};

pub const MAIN_STRICT_SMALL: Weighing = Weighing {
    name: "apply_main_view_strict",
    input: STRICT_SMALL_RECTS,
    bound: None,
    passes: || beside(&MAIN_STRICT, &MAIN, 80, small_rects()),
};

pub const V1_STRICT_RECTS: Weighing = Weighing {
    name: "apply_auxiliary_v1_strict",
    input: STRICT_ODD_RECTS,
    bound: Some(1.05),
    passes: || beside(&V1_STRICT, &V1, 8, odd_rects()),
};

pub const V1_STRICT_SMALL: Weighing = Weighing {
    name: "apply_auxiliary_v1_strict",
    input: STRICT_SMALL_RECTS,
    bound: None,
    passes: || beside(&V1_STRICT, &V1, 80, small_rects()),
};

pub const V2_STRICT_RECTS: Weighing = Weighing {
    name: "apply_auxiliary_v2_strict",
    input: STRICT_ODD_RECTS,
    bound: Some(1.05),
    passes: || beside(&V2_STRICT, &V2, 8, odd_rects()),
};

pub const V2_STRICT_SMALL: Weighing = Weighing {
    name: "apply_auxiliary_v2_strict",
    input: STRICT_SMALL_RECTS,
    bound: None,
    passes: || beside(&V2_STRICT, &V2, 80, small_rects()),
};

const WHOLE: &str = ", the whole frame";
const ODD_RECTS: &str = "1920x1080, 500 rectangles of about 64x16 with odd edges";
const SMALL_RECTS: &str = "1920x1080, 100 rectangles of 16x16";
const STRICT_ODD_RECTS: &str = "500 rectangles of about 64x16 with odd edges: strict against clipping";
const STRICT_SMALL_RECTS: &str = "100 rectangles of 16x16: strict against clipping";

fn whole(call: &'static Call, width: u16, height: u16) -> Sides {
    sides(call, width, height, vec![0, 0, width, height])
}

/// 500 rectangles from 62 by 14 to 65 by 17, whose left and top are odd.
fn odd_rects() -> Vec<u16> {
    (0..500_u16)
        .flat_map(|place| {
            let (left, top) = ((place * 67 % 1850) | 1, (place * 31 % 1060) | 1);
            [left, top, left + 62 + place % 4, top + 14 + place / 4 % 4]
        })
        .collect()
}

/// 100 macroblocks, no two of them the same.
fn small_rects() -> Vec<u16> {
    (0..100_u16)
        .flat_map(|place| {
            let (left, top) = (place * 7 % 120 * 16, place * 13 % 67 * 16);
            [left, top, left + 16, top + 16]
        })
        .collect()
}

/// The whole of a large and of a small picture.
fn scaled(call: &'static Call) -> [Pass; 2] {
    scale(|width, height| pass(call, width, height, vec![0, 0, width, height]))
}

fn sides(call: &'static Call, width: u16, height: u16, list: Vec<u16>) -> Sides {
    let noise = Noise::new(LONGEST);
    let sizes = Mapped::exact(width, height);
    let rects = lists::originals_of(&list).expect("whole fours");
    let mut picture = Planes::new(&sizes, &noise, 1).original(&sizes.planes);
    let frame = original_of(Owned::new(&noise, width, height).view()).0.expect("the planes are exact");
    Sides::repeated(8, pass(call, width, height, list), move || {
        their_sum(call, &mut picture, black_box(&frame), black_box(&rects))
    })
}

/// A call of ours, which answers the number and a sum of bytes of the planes.
fn pass(call: &'static Call, width: u16, height: u16, list: Vec<u16>) -> Pass {
    let noise = Noise::new(LONGEST);
    let sizes = Mapped::exact(width, height);
    let view = Owned::new(&noise, width, height);
    let mut planes = Planes::new(&sizes, &noise, 1);
    Pass::new(u64::from(width) * u64::from(height), move || {
        let number = (call.ours)(sizes.size(), planes.lent(), black_box(&list), black_box(view.view()));
        u64::from(number) + planes.sample()
    })
}

/// A strict call and the call that clips over the same list and the same buffers, each so often in a pass: the time a rectangle.
fn beside(strict: &'static Call, clips: &'static Call, calls: u64, list: Vec<u16>) -> [Pass; 2] {
    let noise = Noise::new(LONGEST);
    let sizes = Mapped::exact(1920, 1080);
    let lent = Rc::new((RefCell::new(Planes::new(&sizes, &noise, 1)), Owned::new(&noise, 1920, 1080), list));
    [strict, clips].map(|call| {
        let lent = Rc::clone(&lent);
        Pass::new(calls * lent.2.len() as u64 / 4, move || {
            let (planes, view, list) = &*lent;
            let mut planes = planes.borrow_mut();
            let mut number = || (call.ours)(sizes.size(), planes.lent(), black_box(list), black_box(view.view()));
            let refused: u64 = (0..calls).map(|_| u64::from(number())).sum();
            assert_eq!(refused, 0, "the lists of the bench are sound");
            refused + planes.sample()
        })
    })
}

/// The rows of a view copied into planes: a luma row as it is, a chroma row into each half of two rows. The sizes are even, and the width
/// is a stride.
fn copies(width: u16, height: u16) -> Pass {
    let noise = Noise::new(LONGEST);
    let owned = Owned::new(&noise, width, height);
    let mut planes = Planes::new(&Mapped::exact(width, height), &noise, 1);
    let (stride, half) = (usize::from(width), usize::from(width / 2));
    Pass::new(u64::from(width) * u64::from(height), move || {
        let view = black_box(owned.view());
        let [y, u, v] = planes.lent_planes();
        for (row, from) in y.chunks_exact_mut(stride).zip(view.y.chunks_exact(stride)) {
            row.copy_from_slice(from);
        }
        for (plane, from) in [(u, view.u), (v, view.v)] {
            for (rows, from) in plane.chunks_exact_mut(2 * stride).zip(from.chunks_exact(half)) {
                rows.chunks_exact_mut(half).for_each(|part| part.copy_from_slice(from));
            }
        }
        planes.sample()
    })
}

#[inline(never)]
fn their_sum(call: &Call, picture: &mut Yuv444Frame, view: &Yuv420Frame, rects: &[ExclusiveRectangle]) -> u64 {
    (call.theirs)(picture, view, rects);
    probe::planes(picture).map(sample).iter().sum()
}
