//! `haythaw_split_v1` and `_v2` beside `Yuv444Frame::split`; and `haythaw_split_v2_32`, which the original has no call for, beside the same
//! function on a picture whose planes are as wide as the 32 rule takes them to be.

mod bench;
mod case;
mod cases;

use original::avc444::Avc444Layout;

use self::case::Case;
use super::pictures::Sizes;
use super::views::{Source, LONGEST};
use super::Suite;
use crate::ours;
use crate::run::Run;

pub use self::bench::{V1_BENCH, V1_SCALE, V2_32_BENCH, V2_32_BYTES, V2_32_SMALL, V2_BENCH, V2_SCALE};
pub use self::case::{their_views, Call, Made, Outputs};

pub const V1: Call = Call { ours: ours::split_v1, layout: Avc444Layout::V1, unit: 16 };
pub const V2: Call = Call { ours: ours::split_v2, layout: Avc444Layout::V2, unit: 16 };
pub const V2_32: Call = Call { ours: ours::split_v2_32, layout: Avc444Layout::V2, unit: 32 };

pub const V1_SUITE: Suite = Suite {
    name: "split_v1",
    about: cases::ABOUT,
    run: |run| cases::every(run, &V1),
    replay: |run, words| replay(run, words, &V1),
};

pub const V2_SUITE: Suite = Suite {
    name: "split_v2",
    about: "the cases of split_v1",
    run: |run| cases::every(run, &V2),
    replay: |run, words| replay(run, words, &V2),
};

pub const V2_32_SUITE: Suite = Suite {
    name: "split_v2_32",
    about: "the cases of split_v1; the original splits the picture whose planes are widened to a multiple of 32, with Y 0, and U and V 128",
    run: |run| cases::every(run, &V2_32),
    replay: |run, words| replay(run, words, &V2_32),
};

fn replay(run: &mut Run, words: &[u64], call: &'static Call) -> Result<(), String> {
    let words = <[u64; 11]>::try_from(words).map_err(|_| {
        "a case is width, height, the lengths of Y, U and V, and the lengths of the outputs for the main view's Y, U and V and \
         the auxiliary view's"
    })?;
    let [width, height, y, u, v, outputs @ ..] = words;
    let sizes = Sizes::of_words([width, height, y, u, v])?;
    if sizes.lengths.iter().any(|&length| length > LONGEST) {
        return Err(format!("a plane of a case has at most {LONGEST} bytes"));
    }
    Case::new(call, &Source::new(), sizes).check(run, Outputs::of_words(outputs)?);
    Ok(())
}
