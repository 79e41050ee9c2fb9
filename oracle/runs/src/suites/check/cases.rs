//! The cases of every check: the original's own views, each with one sample altered, sizes, strides and refusals.

use super::case::{sides, Call, Given, Pair, Place};
use crate::ours::Size;
use crate::random::Random;
use crate::run::Run;
use crate::suites::pictures::{is_about_16, Sizes};
use crate::suites::views::{self, Source};

/// What `every` makes, in words.
pub const ABOUT: &str =
    "systematic: pictures to 49 by 49, with the original's views as they are and with wider rows, and then the first and the last sample of
each plane altered, and two at once; views one column or row too large or too small, or sixteen; widths and heights about 16, 32
and 48 with each buffer of the picture and each plane of a view a byte short, exact or longer, and strides a byte below
named: widths 20, 34 and 62, with every sample altered in its turn; 65,504 and 65,520, which split, and 65,505 and 65,521, of which the
one does not by the 32 rule and the other not at all, in each direction, with the other side 0 and 1
random: pictures to 300 by 300, or 4,096 wide or high, with up to three samples altered, seldom with a wrong size or something too short";

/// Every case of a check.
pub fn every(run: &mut Run, call: &'static Call) {
    let source = Source::new();
    named(run, call, &source);
    for width in 0..=49 {
        for height in 0..=49 {
            small(run, call, &source, Size { width, height });
        }
    }
    while run.more() {
        let given = Given::new(call, &source, random_sizes(&mut run.random));
        let views = random_views(&mut run.random, &given);
        let altered =
            (0..run.random.between(0, 3)).filter_map(|_| any_place(&mut run.random, &given)).collect::<Vec<_>>();
        Pair::new(&given, &source, views).check(run, &altered);
    }
}

/// Widths that others get wrong, and both sides of the limit.
pub fn named(run: &mut Run, call: &'static Call, source: &Source) {
    for width in [20, 34, 62] {
        let given = Given::new(call, source, Sizes::exact(width, 16));
        let mut pair = Pair::new(&given, source, [wider(&given, 3, 1), wider(&given, 0, 2)]);
        for plane in 0..6 {
            let (columns, rows) = sides(plane % 3, given.views());
            for (row, column) in (0..rows).flat_map(|row| (0..columns).map(move |column| (row, column))) {
                pair.check(run, &[Place { plane, row, column }]);
            }
        }
    }
    for long in [65_504, 65_505, 65_520, 65_521, 65_535] {
        for (width, height) in [(long, 0), (0, long), (long, 1), (1, long)] {
            let given = Given::new(call, source, Sizes::exact(width, height));
            let mut pair = Pair::new(&given, source, [wider(&given, 0, 0); 2]);
            pair.check(run, &[]);
            corners(&given).for_each(|place| pair.check(run, &[place]));
            let small = [views::Sizes::tight(16, 16); 2];
            Pair::new(&given, source, small).check(run, &[]);
            let short = Given::new(call, source, Sizes { lengths: [0; 3], ..given.sizes });
            Pair::new(&short, source, small).check(run, &[]);
        }
    }
}

/// All that is made of a small picture.
pub fn small(run: &mut Run, call: &'static Call, source: &Source, size: Size) {
    let sizes = Sizes::exact(size.width, size.height);
    let given = Given::new(call, source, sizes);
    let right = wider(&given, 0, 0);
    for views in [[right; 2], [wider(&given, 1, 2), wider(&given, 7, 3)]] {
        let mut pair = Pair::new(&given, source, views);
        pair.check(run, &[]);
        corners(&given).for_each(|place| pair.check(run, &[place]));
        let two = [any_place(&mut run.random, &given), any_place(&mut run.random, &given)];
        pair.check(run, &two.into_iter().flatten().collect::<Vec<_>>());
    }
    for wrong in wrong_sizes(&given) {
        let altered: Vec<Place> = any_place(&mut run.random, &given).into_iter().collect();
        for views in [[wrong, right], [right, wrong], [wrong, wrong]] {
            Pair::new(&given, source, views).check(run, &altered);
        }
    }
    if is_about_16(size) {
        refusals(run, call, source, &given);
    }
}

/// 1, 3 and 4, alone and in pairs.
fn refusals(run: &mut Run, call: &'static Call, source: &Source, given: &Given<'_>) {
    let right = wider(given, 0, 0);
    let narrow = [
        views::Sizes { luma_stride: right.luma_stride.saturating_sub(1), ..right },
        views::Sizes { chroma_stride: right.chroma_stride.saturating_sub(1), ..right },
    ];
    let short: Vec<views::Sizes> = right.other_lengths().collect();
    for bad in narrow.into_iter().chain(short.iter().copied()) {
        for views in [[bad, right], [right, bad], [bad, narrow[0]], [narrow[0], bad], [bad, short[0]], [short[0], bad]]
        {
            Pair::new(given, source, views).check(run, &[]);
        }
    }
    for sizes in given.sizes.all_lengths() {
        let given = Given::new(call, source, sizes);
        for views in [[right; 2], [narrow[0], right], [right, short[0]]] {
            Pair::new(&given, source, views).check(run, &[]);
        }
    }
}

/// The view that is right, with rows so many bytes longer.
fn wider(given: &Given<'_>, luma: usize, chroma: usize) -> views::Sizes {
    let (width, height) = given.views();
    views::Sizes::exact(width, height, usize::from(width) + luma, usize::from(width.div_ceil(2)) + chroma)
}

/// Sizes that are one or sixteen off, as far as there are such.
fn wrong_sizes(given: &Given<'_>) -> impl Iterator<Item = views::Sizes> {
    let (width, height) = given.views();
    let off = |side: u16| [side.checked_sub(16), side.checked_sub(1), side.checked_add(1), side.checked_add(16)];
    let widths = off(width).into_iter().flatten().map(move |width| (width, height));
    let heights = off(height).into_iter().flatten().map(move |height| (width, height));
    widths.chain(heights).chain([(height, width)]).map(|(width, height)| views::Sizes::tight(width, height))
}

/// The first and the last sample of each plane, if there are any.
fn corners(given: &Given<'_>) -> impl Iterator<Item = Place> {
    let size = given.views();
    (0..6).flat_map(move |plane| {
        let (columns, rows) = sides(plane % 3, size);
        let last = (rows.checked_sub(1)).zip(columns.checked_sub(1)).filter(|_| rows * columns > 0);
        let places = last.map(|(row, column)| [Place { plane, row: 0, column: 0 }, Place { plane, row, column }]);
        places.into_iter().flatten()
    })
}

/// A sample of one of the planes, if it has any.
fn any_place(random: &mut Random, given: &Given<'_>) -> Option<Place> {
    let plane = random.between(0, 5) as usize;
    let (columns, rows) = sides(plane % 3, given.views());
    (columns > 0 && rows > 0).then(|| Place {
        plane,
        row: random.between(0, rows as u64 - 1) as usize,
        column: random.between(0, columns as u64 - 1) as usize,
    })
}

/// Middling, wide or high pictures, seldom with a buffer too short.
fn random_sizes(random: &mut Random) -> Sizes {
    let (most_width, most_height) = [(300, 300), (4096, 64), (64, 4096)][random.between(0, 2) as usize];
    let exact = Sizes::exact(random.between(0, most_width) as u16, random.between(0, most_height) as u16);
    match random.between(0, 19) {
        0 => exact.all_lengths().nth(random.between(1, 26) as usize).expect("one of 27"),
        _ => exact,
    }
}

/// Views with rows as long as they are wide or longer, seldom of a wrong size, too narrow or too short.
fn random_views(random: &mut Random, given: &Given<'_>) -> [views::Sizes; 2] {
    [0; 2].map(|_| {
        let (luma, chroma) = (random.between(0, 20) as usize, random.between(0, 20) as usize);
        let right = wider(given, luma, chroma);
        match random.between(0, 29) {
            0 => wrong_sizes(given).nth(random.between(0, 8) as usize).unwrap_or(right),
            1 => views::Sizes { luma_stride: right.luma_stride.saturating_sub(luma + 1), ..right },
            2 => right.other_lengths().nth(random.between(0, 25) as usize).unwrap_or(right),
            _ => right,
        }
    })
}
