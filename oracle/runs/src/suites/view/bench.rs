//! The view calls timed.

use std::hint::black_box;

use original::decode::Yuv420Frame;

use crate::bench::{Bench, Over, Sides};
use crate::ours::{self, Row, View};
use crate::suites::views::{original_of, Sizes, Source};

pub const NUMBER_BENCH: Bench = Bench {
    name: "view",
    input: "16x16; the original's time has the copies of the planes that it keeps",
    bound: None,
    over: Over::One(number_sides),
};

pub const ROW_BENCH: Bench = Bench {
    name: "luma_row",
    input: "rows of 1920x1088; ours checks the view in each call, the original has before",
    bound: Some(2.0),
    over: Over::One(|| row_sides(1920, 1088)),
};

pub const SMALL_ROW_BENCH: Bench = Bench {
    name: "luma_row_small",
    input: "rows of 16x16; the same",
    bound: Some(2.0),
    over: Over::One(|| row_sides(16, 16)),
};

fn number_sides() -> Sides {
    const CALLS: u64 = 1 << 16;
    let sizes = Sizes::exact(16, 16, 16, 8);
    let (source, same) = (Source::new(), Source::new());
    Sides {
        calls: CALLS,
        ours: Box::new(move || {
            let view = black_box(source.view(&sizes));
            (0..CALLS).map(|_| u64::from(ours::view_number(view))).sum()
        }),
        theirs: Box::new(move || {
            let view = black_box(same.view(&sizes));
            (0..CALLS).map(|_| their_number(view)).sum()
        }),
    }
}

#[inline(never)]
fn their_number(view: View<'_>) -> u64 {
    original_of(view).0.err().unwrap_or(0).into()
}

/// Both sides ask for every row, over and over. A pass sums where the rows end.
fn row_sides(width: u16, height: u16) -> Sides {
    let (stride, rows) = (usize::from(width), usize::from(height));
    let sizes = Sizes::exact(width, height, stride, stride.div_ceil(2));
    let times = (1 << 16) / rows;
    let source = Source::new();
    let (frame, [place, ..]) = original_of(source.view(&sizes));
    let frame = frame.expect("the planes are exact");
    Sides {
        calls: (times * rows) as u64,
        ours: Box::new(move || {
            let view = black_box(source.view(&sizes));
            let end = |row: Row| (row.start + row.length) as u64;
            (0..times).map(|_| (0..rows).map(|row| end(ours::luma_row(view, row))).sum::<u64>()).sum()
        }),
        theirs: Box::new(move || {
            let frame = black_box(&frame);
            let end = |row: &[u8]| (row.as_ptr() as usize - place + row.len()) as u64;
            (0..times).map(|_| (0..rows).map(|row| their_row(frame, row).map_or(0, end)).sum::<u64>()).sum()
        }),
    }
}

#[inline(never)]
fn their_row(frame: &Yuv420Frame, row: usize) -> Option<&[u8]> {
    frame.luma_row(row)
}
