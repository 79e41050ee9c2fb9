//! `haythaw_allocation_size` beside `Yuv444Frame::allocation_size`; and `haythaw_map_size`, which the original has no call for, beside a twelfth
//! of it: three planes, and a byte of the map for each four of one.

use original::avc444::Yuv444Frame;

use super::Suite;
use crate::ours::{self, Size};
use crate::run::Run;

/// A size of ours, and the original's.
struct Call {
    ours: fn(Size) -> usize,
    theirs: fn(u16, u16) -> usize,
}

const PLANES: Call = Call { ours: ours::allocation_size, theirs: Yuv444Frame::allocation_size };

const MAP: Call =
    Call { ours: ours::map_size, theirs: |width, height| Yuv444Frame::allocation_size(width, height) / 12 };

pub const SUITE: Suite = Suite {
    name: "allocation_size",
    about: "all widths with each of 70 heights",
    run: |run| every_width(run, &PLANES),
    replay: |run, words| replay(run, words, &PLANES),
};

pub const MAP_SUITE: Suite = Suite {
    name: "map_size",
    about: "the cases of allocation_size; the original's bytes of three planes have 12 for each byte of the map",
    run: |run| every_width(run, &MAP),
    replay: |run, words| replay(run, words, &MAP),
};

fn replay(run: &mut Run, words: &[u64], call: &Call) -> Result<(), String> {
    match words {
        &[width @ 0..=65_535, height @ 0..=65_535] => {
            check(run, call, Size { width: width as u16, height: height as u16 });
            Ok(())
        }
        _ => Err("a case is a width and a height".to_owned()),
    }
}

fn every_width(run: &mut Run, call: &Call) {
    for width in 0..=65_535 {
        for height in (0..=33).chain([1080, 4096, 32_767]).chain(65_503..=65_535) {
            check(run, call, Size { width, height });
        }
    }
}

fn check(run: &mut Run, call: &Call, size: Size) {
    let Size { width, height } = size;
    let ours = run.ours((call.ours)(size));
    let theirs = (call.theirs)(width, height);
    run.compare(&ours, &theirs, u64::from(width) + u64::from(height), || format!("{width} {height}"));
}
