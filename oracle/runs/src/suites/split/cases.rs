//! The cases of every split: pictures to 49 by 49, wider and higher ones, and refusals.

use super::case::{Call, Case, Outputs};
use crate::random::Random;
use crate::run::Run;
use crate::suites::pictures::{is_about_16, Sizes};
use crate::suites::views::Source;

/// What `every` makes, in words.
pub const ABOUT: &str =
    "systematic: pictures to 49 by 49, with the outputs exact, all longer, and each alone a byte short or longer; each buffer of
the picture a byte short, exact or longer; widths and heights about 16, 32 and 48 with the outputs in all 729 ways, and with the
picture too short as well; every number of macroblocks to 65 wide or high
named: widths 20, 34 and 62, where FreeRDP's encoder and combiner disagree; 65,520, which splits, and 65,521, which does not, in
each direction, with the other side 0 and 1; 65,504 and 65,505 likewise, where the 32 rule ends
random: pictures to 300 by 300, or 4,096 wide or high, seldom with something too short";

/// Every case of a split.
pub fn every(run: &mut Run, call: &'static Call) {
    let source = Source::new();
    named(run, call, &source);
    for width in 0..=49 {
        for height in 0..=49 {
            small(run, call, &source, Sizes::exact(width, height));
        }
    }
    for blocks in 0..=65 {
        for (width, height) in [(16 * blocks, 33), (33, 16 * blocks)] {
            let sizes = Sizes::exact(width, height);
            each_alone(run, &Case::new(call, &source, sizes), call.outputs(&sizes));
        }
    }
    while run.more() {
        let sizes = random_sizes(&mut run.random);
        let ways = random_ways(&mut run.random);
        Case::new(call, &source, sizes).check(run, call.outputs(&sizes).changed(ways));
    }
}

/// Widths that others get wrong, and both sides of the limit. A picture that is too large is refused before its outputs are.
fn named(run: &mut Run, call: &'static Call, source: &Source) {
    for width in [20, 34, 62] {
        let sizes = Sizes::exact(width, 16);
        Case::new(call, source, sizes).check(run, call.outputs(&sizes));
    }
    for long in [65_504, 65_505, 65_519, 65_520, 65_521, 65_535] {
        for (width, height) in [(long, 0), (0, long), (long, 1), (1, long)] {
            let sizes = Sizes::exact(width, height);
            let outputs = call.outputs(&sizes);
            let case_of = |sizes| Case::new(call, source, sizes);
            case_of(sizes).check(run, outputs);
            case_of(sizes).check(run, outputs.changed([0, 0, 0, 0, 0, 1]));
            case_of(sizes).check(run, Outputs([0; 6]));
            case_of(Sizes { lengths: [0; 3], ..sizes }).check(run, outputs);
        }
    }
}

/// All that a small picture is split into.
fn small(run: &mut Run, call: &'static Call, source: &Source, sizes: Sizes) {
    let exact = call.outputs(&sizes);
    let whole = Case::new(call, source, sizes);
    each_alone(run, &whole, exact);
    let every_way = is_about_16(sizes.size);
    if every_way {
        every_ways().for_each(|ways| whole.check(run, exact.changed(ways)));
    }
    for sizes in sizes.all_lengths() {
        let case = Case::new(call, source, sizes);
        case.check(run, exact);
        if every_way {
            each_alone(run, &case, exact);
        }
    }
}

/// The outputs exact and all longer; and each alone a byte short, and longer.
fn each_alone(run: &mut Run, case: &Case<'_>, exact: Outputs) {
    case.check(run, exact);
    case.check(run, exact.changed([2; 6]));
    for output in 0..6 {
        for way in [1, 2] {
            let mut ways = [0; 6];
            ways[output] = way;
            case.check(run, exact.changed(ways));
        }
    }
}

/// Each of six as it is, a byte short, or longer.
fn every_ways() -> impl Iterator<Item = [u64; 6]> {
    (0..729).map(|number| [1, 3, 9, 27, 81, 243].map(|power| number / power % 3))
}

/// Middling, wide or high pictures, seldom with a buffer too short.
fn random_sizes(random: &mut Random) -> Sizes {
    let (most_width, most_height) = [(300, 300), (4096, 64), (64, 4096)][random.between(0, 2) as usize];
    let exact = Sizes::exact(random.between(0, most_width) as u16, random.between(0, most_height) as u16);
    match random.between(0, 19) {
        0 => exact.all_lengths().nth(random.between(1, 26) as usize).expect("one of 27"),
        _ => exact,
    }
}

/// Mostly no output too short.
fn random_ways(random: &mut Random) -> [u64; 6] {
    let seldom_short = |_| match random.between(0, 49) {
        0 => 1,
        1..=9 => 2,
        _ => 0,
    };
    [0; 6].map(seldom_short)
}

#[cfg(test)]
mod tests {
    use super::*;

    #[test]
    fn there_are_729_ways() {
        let all: Vec<[u64; 6]> = every_ways().collect();
        assert_eq!((all[0], all[728]), ([0; 6], [2; 6]));
        assert_eq!(all.iter().filter(|ways| !ways.contains(&1)).count(), 64);
    }
}
