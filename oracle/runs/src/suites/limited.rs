//! The calls of limited range timed beside those of full range, on the same buffers. The original gives limited range to another library, so
//! that there is no suite of them; tests/limited.py and bind/c/test/limited.h have every triple.

use std::cell::RefCell;
use std::hint::black_box;
use std::rc::Rc;

use super::look::Look;
use super::noise::{Noise, LONGEST};
use super::pictures::{Mapped, Planes};
use crate::bench::{bound, sample, Pass, Weighing};
use crate::ours::{self, Answer, Size, View};

macro_rules! weighings {
    ($($name:literal against $other:literal, $beside:ident($ours:path, $theirs:path): $($width:literal x $height:literal $($bound:literal)?),*;)*) => {
        &[$($(
            Weighing {
                name: $name,
                input: concat!($width, "x", $height, ", noise, a pixel, against ", $other),
                bound: bound(&[$($bound)?]),
                passes: || $beside([$ours, $theirs], Look::Noise, $width, $height),
            },
            Weighing {
                name: $name,
                input: concat!($width, "x", $height, ", smooth, a pixel, against ", $other),
                bound: bound(&[$($bound)?]),
                passes: || $beside([$ours, $theirs], Look::Smooth, $width, $height),
            }
        ),*),*]
    };
}

/// 1.5 at 1920x1080 is laid down.
pub const WEIGHINGS: &[Weighing] = weighings! {
    "view_to_rgba_limited" against "view_to_rgba", views(ours::view_to_rgba_limited, ours::view_to_rgba):
        1920 x 1080 1.5, 640 x 480, 16 x 16;
    "from_rgba_limited" against "from_rgba", pictures(ours::from_rgba_limited, ours::from_rgba):
        1920 x 1080 1.5, 640 x 480, 16 x 16;
};

/// A view to RGBA: 0, 3, 4 or 6, and a count.
type Showing = fn(View<'_>, &mut [u8]) -> Answer;

/// A picture from RGBA: 0, 2 or 1.
type Making = fn(&[u8], Size, [&mut [u8]; 4]) -> u32;

/// How often a call is made in a pass, so that a pass has about as many pixels as a large frame.
fn often(width: u16, height: u16) -> (u64, u64) {
    let pixels = u64::from(width) * u64::from(height);
    ((1920 * 1080 / pixels).max(1), pixels)
}

/// Two calls on one view, into one output.
fn views(calls: [Showing; 2], look: Look, width: u16, height: u16) -> [Pass; 2] {
    let (times, pixels) = often(width, height);
    let view = Rc::new(look.view(width, height));
    let out = Rc::new(RefCell::new(vec![0; 4 * pixels as usize]));
    calls.map(|call| {
        let (view, out) = (Rc::clone(&view), Rc::clone(&out));
        let once = move || {
            let mut out = out.borrow_mut();
            let Answer { number, count } = call(black_box(view.view()), &mut out);
            assert_eq!(number, 0, "a whole view, and room for its pixels");
            count as u64 + sample(&out)
        };
        Pass::new(times * pixels, move || (0..times).map(|_| once()).sum())
    })
}

/// Two calls on the same pixels, into the planes and the map of one picture.
fn pictures(calls: [Making; 2], look: Look, width: u16, height: u16) -> [Pass; 2] {
    let (times, count) = often(width, height);
    let sizes = Mapped::exact(width, height);
    let pixels = Rc::new(look.pixels(width, height));
    let planes = Rc::new(RefCell::new(Planes::new(&sizes, &Noise::new(LONGEST), 0)));
    calls.map(|call| {
        let (pixels, planes) = (Rc::clone(&pixels), Rc::clone(&planes));
        let once = move || {
            let mut planes = planes.borrow_mut();
            let number = call(black_box(&pixels), Size { width, height }, planes.lent());
            assert_eq!(number, 0, "all pixels, and planes of their size");
            planes.sample()
        };
        Pass::new(times * count, move || (0..times).map(|_| once()).sum())
    })
}
