//! `haythaw_check_v1` and `_v2` beside `Yuv444Frame::split`: the original's own views have to be answered yes, and any other pair as a plain
//! search for the first difference from them says; `haythaw_check_v2_32` beside the same function on a picture whose planes are as wide as the
//! 32 rule takes them to be.

mod bench;
mod case;
mod cases;

use self::case::{Call, Given, Pair, Place};
use super::pictures::Sizes;
use super::split;
use super::views::{self, Source, LONGEST};
use super::Suite;
use crate::ours;
use crate::run::Run;

pub use self::bench::WEIGHINGS;

const V1: Call = Call { ours: ours::check_v1, split: &split::V1 };
const V2: Call = Call { ours: ours::check_v2, split: &split::V2 };
const V2_32: Call = Call { ours: ours::check_v2_32, split: &split::V2_32 };

pub const V1_SUITE: Suite = Suite {
    name: "check_v1",
    about: cases::ABOUT,
    run: |run| cases::every(run, &V1),
    replay: |run, words| replay(run, words, &V1),
};

pub const V2_SUITE: Suite = Suite {
    name: "check_v2",
    about: "the cases of check_v1",
    run: |run| cases::every(run, &V2),
    replay: |run, words| replay(run, words, &V2),
};

pub const V2_32_SUITE: Suite = Suite {
    name: "check_v2_32",
    about: "the cases of check_v1; the original splits the picture whose planes are widened to a multiple of 32, with Y 0, and U and V 128",
    run: |run| cases::every(run, &V2_32),
    replay: |run, words| replay(run, words, &V2_32),
};

fn replay(run: &mut Run, words: &[u64], call: &'static Call) -> Result<(), String> {
    let Some((&words, altered)) = words.split_first_chunk::<19>() else {
        return Err("a case is the picture's width, height and the lengths of Y, U and V; of the main view and of the auxiliary view \
                    width, height, luma stride, chroma stride and the lengths of Y, U and V; and plane (0 to 5), row and column of each \
                    altered sample"
            .to_owned());
    };
    let [width, height, y, u, v, views @ ..] = words;
    let sizes = Sizes::of_words([width, height, y, u, v])?;
    if sizes.lengths.iter().any(|&length| length > LONGEST) {
        return Err(format!("a plane of a case has at most {LONGEST} bytes"));
    }
    let (main, auxiliary) = views.split_at(7);
    let of_words = |words: &[u64]| views::Sizes::of_words(words.try_into().expect("seven"));
    let source = Source::new();
    let given = Given::new(call, &source, sizes);
    Pair::new(&given, &source, [of_words(main)?, of_words(auxiliary)?]).check(run, &Place::of_words(altered)?);
    Ok(())
}

#[cfg(test)]
mod tests {
    use super::*;
    use crate::ours::{Checked, Size, View};
    use crate::run::Budget;

    /// In how many cases on small pictures a check differs.
    fn differences(call: &'static Call) -> u64 {
        let (source, mut run) = (Source::new(), Run::new("check", 1, Budget::Cases(0)));
        for (width, height) in [(5, 5), (17, 33), (0, 5)] {
            cases::small(&mut run, call, &source, Size { width, height });
        }
        run.finish().differences
    }

    /// What ours answers, changed.
    fn but(change: impl Fn(&mut Checked), s: Size, p: [&[u8]; 3], main: View<'_>, auxiliary: View<'_>) -> Checked {
        let mut checked = ours::check_v1(s, p, main, auxiliary);
        change(&mut checked);
        checked
    }

    const NEXT_COLUMN: Call = Call { ours: |s, p, m, a| but(|c| c.column += u16::from(c.named), s, p, m, a), ..V1 };
    const NEXT_ROW: Call = Call { ours: |s, p, m, a| but(|c| c.row += u16::from(c.named), s, p, m, a), ..V1 };
    const NEVER_MAIN: Call = Call { ours: |s, p, m, a| but(|c| c.view |= u8::from(c.named), s, p, m, a), ..V1 };
    const V_FOR_U: Call = Call { ours: |s, p, m, a| but(|c| c.plane += u8::from(c.plane == 1), s, p, m, a), ..V1 };
    const YES_TO_SIZES: Call =
        Call { ours: |s, p, m, a| but(|c| c.same |= c.number == 0 && !c.named, s, p, m, a), ..V1 };
    const SIZES_NAMED: Call =
        Call { ours: |s, p, m, a| but(|c| c.named |= c.number == 0 && !c.same, s, p, m, a), ..V1 };
    const NEVER_5: Call = Call { ours: |s, p, m, a| but(|c| c.number = c.number % 5, s, p, m, a), ..V1 };
    const AUXILIARY_NUMBER: Call = Call {
        ours: |s, p, m, a| match ours::view_number(a) {
            0 => ours::check_v1(s, p, m, a),
            number => but(|c| c.number = if c.number > 2 { number } else { c.number }, s, p, m, a),
        },
        ..V1
    };
    const STRIDE_FOR_WIDTH: Call =
        Call { ours: |s, p, m, a| ours::check_v1(s, p, View { width: m.luma_stride as u16, ..m }, a), ..V1 };
    const OTHER_LAYOUT: Call = Call { ours: ours::check_v2, ..V1 };
    const VIEWS_EXCHANGED: Call = Call { ours: |s, p, m, a| ours::check_v1(s, p, a, m), ..V1 };
    const ONE_VIEW: Call = Call { ours: |s, p, m, _| ours::check_v1(s, p, m, m), ..V1 };

    #[test]
    fn a_check_differs_nowhere_and_each_wrong_one_somewhere() {
        assert_eq!([&V1, &V2, &V2_32].map(differences), [0; 3]);
        let wrong = [
            &NEXT_COLUMN,
            &NEXT_ROW,
            &NEVER_MAIN,
            &V_FOR_U,
            &YES_TO_SIZES,
            &SIZES_NAMED,
            &AUXILIARY_NUMBER,
            &STRIDE_FOR_WIDTH,
            &OTHER_LAYOUT,
            &VIEWS_EXCHANGED,
            &ONE_VIEW,
        ];
        assert_eq!(wrong.map(|call| differences(call) == 0), [false; 11]);
        // 5 is met by the named cases alone
        let mut run = Run::new("check", 1, Budget::Cases(0));
        cases::named(&mut run, &NEVER_5, &Source::new());
        assert!(run.finish().differences > 0);
    }
}
