//! `haythaw_filter` beside `reverse_filter`, which was applied where it answers another value than the average.

use original::avc444::probe;

use super::{bytes, Suite};
use crate::bench::{Bench, Over};
use crate::ours;
use crate::run::Run;

pub const SUITE: Suite = Suite {
    name: "filter",
    about: "every average with every sum of the three others, each sum made in 4 ways",
    run: every_pair,
    replay: |run, words| bytes::of_case(words).map(|block| check(run, 0, block)),
};

pub const BENCH: Bench = Bench {
    name: "filter",
    input: bytes::INPUT,
    bound: None,
    over: Over::One(|| {
        bytes::sides(|[a, b, c, d]| ours::filter(a, b, c, d)[0].into(), |[a, b, c, d]| probe::filter(a, b, c, d).into())
    }),
};

fn every_pair(run: &mut Run) {
    for a in 0..=255 {
        for sum in 0..=3 * 255 {
            for [b, c, d] in bytes::splittings(sum, 1, &mut run.random) {
                check(run, u64::from(a) + sum, [a, b, c, d]);
            }
        }
    }
}

fn check(run: &mut Run, size: u64, [a, b, c, d]: [u8; 4]) {
    let ours = run.ours(ours::filter(a, b, c, d));
    let value = probe::filter(a, b, c, d);
    let theirs = [value, u8::from(value != a)];
    run.compare(&ours, &theirs, size, || format!("{a} {b} {c} {d}"));
}
