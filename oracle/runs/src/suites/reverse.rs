//! `haythaw_reverse` beside `yuv_to_rgba`.

use original::avc444::probe;

use super::{bytes, Suite};
use crate::bench::{Bench, Over};
use crate::ours;
use crate::run::Run;

pub const SUITE: Suite = Suite {
    name: "reverse",
    about: "all 2^24 YUV triples, all four bytes of each pixel",
    run: |run| bytes::triples().for_each(|(place, yuv)| check(run, place, yuv)),
    replay: |run, words| bytes::of_case(words).map(|yuv| check(run, 0, yuv)),
};

pub const BENCH: Bench = Bench {
    name: "reverse",
    input: bytes::INPUT,
    bound: None,
    over: Over::One(|| {
        bytes::sides(
            |[y, u, v, _]| bytes::as_number(ours::reverse(y, u, v)),
            |[y, u, v, _]| bytes::as_number(probe::reverse(y, u, v)),
        )
    }),
};

fn check(run: &mut Run, place: u64, [y, u, v]: [u8; 3]) {
    let ours = run.ours(ours::reverse(y, u, v));
    let theirs = probe::reverse(y, u, v);
    run.compare(&ours, &theirs, place, || format!("{y} {u} {v}"));
}
