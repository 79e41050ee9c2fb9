//! `haythaw_forward` beside `rgb_to_yuv`.

use original::avc444::probe;

use super::{bytes, Suite};
use crate::bench::{Bench, Over};
use crate::ours;
use crate::run::Run;

pub const SUITE: Suite = Suite {
    name: "forward",
    about: "all 2^24 RGB triples",
    run: |run| bytes::triples().for_each(|(place, rgb)| check(run, place, rgb)),
    replay: |run, words| bytes::of_case(words).map(|rgb| check(run, 0, rgb)),
};

pub const BENCH: Bench = Bench {
    name: "forward",
    input: bytes::INPUT,
    bound: None,
    over: Over::One(|| {
        bytes::sides(
            |[r, g, b, _]| bytes::as_number(ours::forward(r, g, b)),
            |[r, g, b, _]| bytes::as_number(probe::forward(r, g, b)),
        )
    }),
};

fn check(run: &mut Run, place: u64, [r, g, b]: [u8; 3]) {
    let ours = run.ours(ours::forward(r, g, b));
    let theirs = probe::forward(r, g, b);
    run.compare(&ours, &theirs, place, || format!("{r} {g} {b}"));
}
