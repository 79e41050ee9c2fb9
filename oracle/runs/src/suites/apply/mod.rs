//! `haythaw_apply_main_view`, `haythaw_apply_auxiliary_v1` and `_v2` beside `Yuv444Frame::apply_main_view` and
//! `apply_auxiliary_view`; and `haythaw_apply_auxiliary_v2_32` and `_v2_exact`, which the original has no calls for, beside the latter over
//! wider planes and over a view that is laid out anew. The map, which the original has not, is beside the rules (`map.rs`). The strict calls
//! are beside the same, of lists that are sound; any other has to be refused with 12.

mod bench;
mod case;
mod cases;
mod exact;
mod named;
mod wide;

use original::avc444::{Avc444Layout, Yuv444Frame};

use self::case::{Call, Case, Sources, LONGEST};
use super::map::Kind;
use super::{lists, pictures, views, Suite};
use crate::ours;
use crate::run::Run;

pub use self::bench::{
    MAIN_BENCH, MAIN_COPIES, MAIN_RECTS_BENCH, MAIN_SCALE, MAIN_SMALL_RECTS_BENCH, MAIN_STRICT_RECTS,
    MAIN_STRICT_SMALL, V1_BENCH, V1_RECTS_BENCH, V1_SCALE, V1_SMALL_RECTS_BENCH, V1_STRICT_RECTS, V1_STRICT_SMALL,
    V2_32_BENCH, V2_BENCH, V2_RECTS_BENCH, V2_SCALE, V2_SMALL_RECTS_BENCH, V2_STRICT_RECTS, V2_STRICT_SMALL,
};

const MAIN: Call = Call {
    ours: ours::apply_main_view,
    theirs: Yuv444Frame::apply_main_view,
    kind: Kind::Main,
    unit: 16,
    strict: false,
};

const V1: Call = Call {
    ours: ours::apply_auxiliary_v1,
    theirs: |picture, view, rects| picture.apply_auxiliary_view(Avc444Layout::V1, view, rects),
    kind: Kind::V1,
    unit: 16,
    strict: false,
};

const V2: Call = Call {
    ours: ours::apply_auxiliary_v2,
    theirs: |picture, view, rects| picture.apply_auxiliary_view(Avc444Layout::V2, view, rects),
    kind: Kind::V2,
    unit: 16,
    strict: false,
};

const V2_32: Call =
    Call { ours: ours::apply_auxiliary_v2_32, theirs: wide::apply, kind: Kind::V2By32, unit: 32, strict: false };

const V2_EXACT: Call =
    Call { ours: ours::apply_auxiliary_v2_exact, theirs: exact::apply, kind: Kind::V2Exact, unit: 16, strict: false };

const MAIN_STRICT: Call = Call { ours: ours::apply_main_view_strict, strict: true, ..MAIN };

const V1_STRICT: Call = Call { ours: ours::apply_auxiliary_v1_strict, strict: true, ..V1 };

const V2_STRICT: Call = Call { ours: ours::apply_auxiliary_v2_strict, strict: true, ..V2 };

const V2_32_STRICT: Call = Call { ours: ours::apply_auxiliary_v2_32_strict, strict: true, ..V2_32 };

const V2_EXACT_STRICT: Call = Call { ours: ours::apply_auxiliary_v2_exact_strict, strict: true, ..V2_EXACT };

pub const MAIN_SUITE: Suite = Suite {
    name: "apply_main_view",
    about: cases::ABOUT,
    run: |run| cases::every(run, &MAIN),
    replay: |run, words| replay(run, words, &MAIN),
};

pub const V1_SUITE: Suite = Suite {
    name: "apply_auxiliary_v1",
    about: "the cases of apply_main_view",
    run: |run| cases::every(run, &V1),
    replay: |run, words| replay(run, words, &V1),
};

pub const V2_SUITE: Suite = Suite {
    name: "apply_auxiliary_v2",
    about: "the cases of apply_main_view",
    run: |run| cases::every(run, &V2),
    replay: |run, words| replay(run, words, &V2),
};

pub const V2_32_SUITE: Suite = Suite {
    name: "apply_auxiliary_v2_32",
    about: cases::ABOUT_WIDTHS,
    run: |run| cases::by_width(run, &V2_32),
    replay: |run, words| replay(run, words, &V2_32),
};

pub const V2_EXACT_SUITE: Suite = Suite {
    name: "apply_auxiliary_v2_exact",
    about: cases::ABOUT_EXACT,
    run: |run| cases::by_width(run, &V2_EXACT),
    replay: |run, words| replay(run, words, &V2_EXACT),
};

pub const MAIN_STRICT_SUITE: Suite = Suite {
    name: "apply_main_view_strict",
    about: cases::ABOUT_STRICT,
    run: |run| cases::strict(run, &MAIN_STRICT),
    replay: |run, words| replay(run, words, &MAIN_STRICT),
};

pub const V1_STRICT_SUITE: Suite = Suite {
    name: "apply_auxiliary_v1_strict",
    about: ABOUT_OTHER_STRICT,
    run: |run| cases::strict(run, &V1_STRICT),
    replay: |run, words| replay(run, words, &V1_STRICT),
};

pub const V2_STRICT_SUITE: Suite = Suite {
    name: "apply_auxiliary_v2_strict",
    about: ABOUT_OTHER_STRICT,
    run: |run| cases::strict(run, &V2_STRICT),
    replay: |run, words| replay(run, words, &V2_STRICT),
};

pub const V2_32_STRICT_SUITE: Suite = Suite {
    name: "apply_auxiliary_v2_32_strict",
    about: ABOUT_OTHER_STRICT,
    run: |run| cases::strict(run, &V2_32_STRICT),
    replay: |run, words| replay(run, words, &V2_32_STRICT),
};

pub const V2_EXACT_STRICT_SUITE: Suite = Suite {
    name: "apply_auxiliary_v2_exact_strict",
    about: ABOUT_OTHER_STRICT,
    run: |run| cases::strict(run, &V2_EXACT_STRICT),
    replay: |run, words| replay(run, words, &V2_EXACT_STRICT),
};

const ABOUT_OTHER_STRICT: &str = "the cases of apply_main_view_strict";

fn replay(run: &mut Run, words: &[u64], call: &'static Call) -> Result<(), String> {
    let Some((&words, list)) = words.split_first_chunk::<14>() else {
        return Err("a case is the picture's width, height, the lengths of Y, U, V and the map, and the place of their bytes; the view's \
                    width, height, luma stride, chroma stride, and the lengths of its Y, U and V; and the list"
            .to_owned());
    };
    let [width, height, y, u, v, map, place, view @ ..] = words;
    let picture = pictures::Mapped::of_words([width, height, y, u, v, map])?;
    if picture.planes.lengths.iter().any(|&length| length > LONGEST) || picture.map > LONGEST {
        return Err(format!("a plane of a case, and its map, has at most {LONGEST} bytes"));
    }
    let sources = Sources::new();
    Case::new(call, &sources, picture, place, views::Sizes::of_words(view)?).check(run, &lists::of_words(list)?);
    Ok(())
}

#[cfg(test)]
mod tests {
    use super::*;
    use crate::ours::{Size, View};
    use crate::run::Budget;

    /// In how many cases about what is just sound a call differs, which is to be strict.
    fn differences(call: &'static Call) -> u64 {
        let (sources, mut run) = (Sources::new(), Run::new("strict", 1, Budget::Cases(0)));
        for (width, height) in [(5, 5), (16, 3), (0, 5)] {
            cases::Small { call, sources: &sources, size: Size { width, height } }.just_sound(&mut run);
        }
        run.finish().differences
    }

    /// A call that is strict but for lists that `accepts` takes.
    fn but(
        accepts: impl Fn(Size, lists::Rect) -> bool,
        size: Size,
        planes: [&mut [u8]; 4],
        list: &[u16],
        view: View<'_>,
    ) -> u32 {
        let accepted = list.chunks_exact(4).all(|rect| accepts(size, rect.try_into().expect("four")));
        let call = if accepted { ours::apply_main_view } else { ours::apply_main_view_strict };
        call(size, planes, list, view)
    }

    const FORGETS_LEFT: Call = Call {
        ours: |s, p, l, v| but(|s, [_, t, r, b]| t < b && r <= s.width && b <= s.height, s, p, l, v),
        ..MAIN_STRICT
    };
    const FORGETS_TOP: Call = Call {
        ours: |s, p, l, v| but(|s, [l, _, r, b]| l < r && r <= s.width && b <= s.height, s, p, l, v),
        ..MAIN_STRICT
    };
    const FORGETS_RIGHT: Call =
        Call { ours: |s, p, l, v| but(|s, [l, t, r, b]| l < r && t < b && b <= s.height, s, p, l, v), ..MAIN_STRICT };
    const FORGETS_BOTTOM: Call =
        Call { ours: |s, p, l, v| but(|s, [l, t, r, b]| l < r && t < b && r <= s.width, s, p, l, v), ..MAIN_STRICT };
    const CLIPS: Call = Call { ours: ours::apply_main_view, ..MAIN_STRICT };
    const FIRST_ALONE: Call = Call {
        ours: |size, planes, list, view| match lists::are_sound(&list[..list.len().min(4)], size) {
            true => ours::apply_main_view(size, planes, list, view),
            false => 12,
        },
        ..MAIN_STRICT
    };
    const SERVES_THE_SOUND: Call = Call {
        ours: |size, [y, u, v, map], list, view| {
            let number = ours::apply_main_view_strict(size, [y, u, v, map], list, view);
            for rect in list.chunks_exact(4).filter(|_| number == 12) {
                ours::apply_main_view_strict(size, [y, u, v, map], rect, view);
            }
            number
        },
        ..MAIN_STRICT
    };

    #[test]
    fn a_strict_call_differs_nowhere_and_each_wrong_one_somewhere() {
        assert_eq!(differences(&MAIN_STRICT), 0);
        let wrong =
            [&FORGETS_LEFT, &FORGETS_TOP, &FORGETS_RIGHT, &FORGETS_BOTTOM, &CLIPS, &FIRST_ALONE, &SERVES_THE_SOUND];
        assert!(wrong.map(differences).iter().all(|&differences| differences > 0));
    }
}
