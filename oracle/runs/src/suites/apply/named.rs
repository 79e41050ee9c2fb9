//! Cases with a name: worked examples, what other implementations get wrong, and the kinds of call behind known holes.
//!
//! CVE-2026-25941 lies in this part too: the cases of the three others stand for it.

use super::case::{Call, Case, Sources};
use crate::run::Run;
use crate::suites::lists::Rect;
use crate::suites::{pictures, views};

struct Named {
    /// Width and height of the picture.
    picture: (u16, u16),
    /// Width and height of the view.
    view: (u16, u16),
    rects: &'static [Rect],
}

const NAMED: &[Named] = &[
    // Worked by hand: a 5x5 picture and a 16x16 view.
    Named { picture: (5, 5), view: (16, 16), rects: &[[5, 0, 5, 4]] },
    Named { picture: (5, 5), view: (16, 16), rects: &[[4, 0, 4, 4]] },
    Named { picture: (5, 5), view: (16, 16), rects: &[[3, 0, 6, 2]] },
    Named { picture: (5, 5), view: (16, 16), rects: &[[3, 0, 5, 2]] },
    Named { picture: (5, 5), view: (16, 16), rects: &[[0, 0, 2, 6]] },
    // Odd edges are widened to whole blocks.
    Named { picture: (64, 32), view: (64, 32), rects: &[[1, 0, 33, 16]] },
    Named { picture: (64, 32), view: (64, 32), rects: &[[0, 1, 64, 17]] },
    // Rows and columns count from the picture's own corner, not the rectangle's.
    Named { picture: (64, 32), view: (64, 32), rects: &[[0, 8, 64, 24]] },
    Named { picture: (64, 32), view: (64, 32), rects: &[[2, 0, 62, 16]] },
    // Widths that are no multiple of 16, and the whole frame at one that is.
    Named { picture: (20, 16), view: (20, 16), rects: &[[0, 0, 20, 16]] },
    Named { picture: (34, 16), view: (34, 16), rects: &[[0, 0, 34, 16]] },
    Named { picture: (62, 16), view: (62, 16), rects: &[[0, 0, 62, 16]] },
    Named { picture: (64, 32), view: (64, 32), rects: &[[0, 0, 64, 32]] },
    Named { picture: (16, 12), view: (16, 12), rects: &[[0, 0, 16, 12]] },
    // An odd number of macroblocks: a quarter of the width is no multiple of 8.
    Named { picture: (48, 16), view: (48, 16), rects: &[[0, 0, 48, 16]] },
    Named { picture: (80, 32), view: (80, 32), rects: &[[0, 0, 80, 32]] },
    Named { picture: (69, 31), view: (80, 32), rects: &[[3, 5, 69, 31]] },
    Named { picture: (69, 31), view: (69, 31), rects: &[[3, 5, 69, 31]] },
    // Order and repetition have no effect.
    Named { picture: (64, 32), view: (64, 32), rects: &[[1, 0, 33, 16], [0, 1, 64, 17], [1, 0, 33, 16]] },
    Named { picture: (64, 32), view: (64, 32), rects: &[[0, 1, 64, 17], [1, 0, 33, 16]] },
    // CVE-2023-40188: the rectangle reads past what the view has.
    Named { picture: (64, 64), view: (16, 16), rects: &[[0, 0, 64, 64]] },
    Named { picture: (64, 64), view: (64, 1), rects: &[[0, 0, 64, 64]] },
    Named { picture: (64, 64), view: (1, 64), rects: &[[0, 0, 64, 64]] },
    Named { picture: (64, 64), view: (16, 16), rects: &[[15, 15, 64, 64]] },
    Named { picture: (64, 64), view: (16, 16), rects: &[[16, 16, 64, 64]] },
    // CVE-2026-29774: rectangles outside the frame.
    Named { picture: (64, 64), view: (64, 64), rects: &[[0, 0, 65_535, 65_535]] },
    Named { picture: (64, 64), view: (64, 64), rects: &[[64, 0, 128, 64]] },
    Named { picture: (64, 64), view: (64, 64), rects: &[[0, 64, 64, 128]] },
    Named { picture: (64, 64), view: (64, 64), rects: &[[65_520, 65_520, 65_535, 65_535]] },
    Named { picture: (64, 64), view: (64, 64), rects: &[[32, 32, 96, 96], [0, 0, 8, 8]] },
    Named { picture: (63, 63), view: (64, 64), rects: &[[62, 62, 64, 64], [63, 63, 64, 64]] },
    // CVE-2026-33986: picture, view and rectangle each of another size.
    Named { picture: (16, 16), view: (256, 256), rects: &[[0, 0, 256, 256]] },
    Named { picture: (16, 16), view: (256, 256), rects: &[[8, 8, 200, 200]] },
    Named { picture: (17, 250), view: (250, 17), rects: &[[0, 0, 250, 250]] },
    Named { picture: (250, 17), view: (17, 250), rects: &[[0, 0, 250, 250]] },
    Named { picture: (0, 64), view: (64, 64), rects: &[[0, 0, 64, 64]] },
    Named { picture: (64, 0), view: (64, 64), rects: &[[0, 0, 64, 64]] },
    Named { picture: (64, 64), view: (0, 0), rects: &[[0, 0, 64, 64]] },
];

/// Every case with a name: as it is; with the view's last byte of each plane missing; and with planes, or a map, of
/// the picture that are as long as those of a picture a macroblock smaller.
pub fn every(run: &mut Run, call: &'static Call, sources: &Sources) {
    for &Named { picture: (width, height), view, rects } in NAMED {
        let picture = pictures::Mapped::exact(width, height);
        let view = views::Sizes::tight(view.0, view.1);
        let list = rects.concat();
        Case::new(call, sources, picture, 0, view).check(run, &list);
        for other in view.other_lengths() {
            Case::new(call, sources, picture, 0, other).check(run, &list);
        }
        let smaller = pictures::Mapped::exact(width.saturating_sub(16), height.saturating_sub(16));
        let lengths = smaller.planes.lengths;
        let short_planes = pictures::Mapped { planes: pictures::Sizes { lengths, ..picture.planes }, ..picture };
        let short_map = pictures::Mapped { map: smaller.map, ..picture };
        Case::new(call, sources, short_planes, 0, view).check(run, &list);
        Case::new(call, sources, short_map, 0, view).check(run, &list);
    }
}
