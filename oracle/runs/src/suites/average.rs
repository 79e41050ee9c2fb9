//! `haythaw_average` beside `average`.

use original::avc444::probe;

use super::{bytes, Suite};
use crate::bench::{Bench, Over};
use crate::ours;
use crate::run::Run;

pub const SUITE: Suite = Suite {
    name: "average",
    about: "every sum of four bytes, each made in 19 ways",
    run: every_sum,
    replay: |run, words| bytes::of_case(words).map(|block| check(run, 0, block)),
};

pub const BENCH: Bench = Bench {
    name: "average",
    input: bytes::INPUT,
    bound: None,
    over: Over::One(|| {
        bytes::sides(|[a, b, c, d]| ours::average(a, b, c, d).into(), |[a, b, c, d]| probe::average(a, b, c, d).into())
    }),
};

fn every_sum(run: &mut Run) {
    for sum in 0..=4 * 255 {
        for block in bytes::splittings(sum, 16, &mut run.random) {
            check(run, sum, block);
        }
    }
}

fn check(run: &mut Run, sum: u64, [a, b, c, d]: [u8; 4]) {
    let ours = run.ours(ours::average(a, b, c, d));
    let theirs = probe::average(a, b, c, d);
    run.compare(&ours, &theirs, sum, || format!("{a} {b} {c} {d}"));
}
