//! The checks timed beside the split of the same picture, on the same buffers: a yes, which looks at every sample. A check compares bytes and
//! branches on none of them, so that noise and a smooth picture take as long; these are noise.

use std::cell::RefCell;
use std::hint::black_box;
use std::rc::Rc;

use super::case::Call;
use super::{V1, V2, V2_32};
use crate::bench::{bound, Pass, Weighing};
use crate::ours::View;
use crate::suites::noise::{Noise, LONGEST};
use crate::suites::pictures::Sizes;

macro_rules! weighings {
    ($($name:literal $call:ident against $split:literal: $($width:literal x $height:literal $($bound:literal)?),*;)*) => {
        &[$($(Weighing {
            name: $name,
            input: concat!($width, "x", $height, ", a pixel, against ", $split),
            bound: bound(&[$($bound)?]),
            passes: || beside(&$call, $width, $height),
        }),*),*]
    };
}

/// 1.5 at 1920x1080 is laid down.
pub const WEIGHINGS: &[Weighing] = weighings! {
    "check_v1" V1 against "split_v1": 1920 x 1080 1.5, 640 x 480, 128 x 128, 48 x 48, 16 x 16;
    "check_v2" V2 against "split_v2": 1920 x 1080 1.5, 640 x 480, 128 x 128, 48 x 48, 16 x 16;
    "check_v2_32" V2_32 against "split_v2_32": 1920 x 1080 1.5, 640 x 480, 128 x 128, 48 x 48, 16 x 16;
};

/// The check and the split, each so often in a pass that it has about as many pixels as a large frame.
fn beside(call: &'static Call, width: u16, height: u16) -> [Pass; 2] {
    let sizes = Sizes::exact(width, height);
    let planes = Rc::new(Noise::new(LONGEST).planes(0, sizes.lengths).map(<[u8]>::to_vec));
    let views = Rc::new(RefCell::new(call.split.outputs(&sizes).0.map(|length| vec![0; length])));
    let pixels = u64::from(width) * u64::from(height);
    let calls = (1920 * 1080 / pixels).max(1);
    let (wide, rows) = (call.split.wide(&sizes) as u16, height.next_multiple_of(16));
    let split = {
        let (planes, views) = (Rc::clone(&planes), Rc::clone(&views));
        move || {
            let mut views = views.borrow_mut();
            let planes = planes.each_ref().map(|plane| black_box(plane.as_slice()));
            let number = call.split.ours(sizes.size, planes, views.each_mut().map(Vec::as_mut_slice)).number;
            assert_eq!(number, 0, "the picture splits");
            black_box(&*views);
            u64::from(number)
        }
    };
    split();
    let check = move || {
        let views = views.borrow();
        let planes = planes.each_ref().map(|plane| black_box(plane.as_slice()));
        let view = |first: usize| View {
            width: wide,
            height: rows,
            luma_stride: wide.into(),
            chroma_stride: (wide / 2).into(),
            y: black_box(&views[first]),
            u: black_box(&views[first + 1]),
            v: black_box(&views[first + 2]),
        };
        let checked = (call.ours)(sizes.size, planes, view(0), view(3));
        assert!(checked.same, "a split is the same");
        u64::from(checked.column)
    };
    [
        Pass::new(calls * pixels, move || (0..calls).map(|_| check()).sum()),
        Pass::new(calls * pixels, move || (0..calls).map(|_| split()).sum()),
    ]
}
