//! `haythaw_view` and the three row calls beside `Yuv420Frame`.

mod bench;
mod case;

use self::case::{Case, PLANES};
use super::views::{self, Sizes, Source};
use super::Suite;
use crate::run::Run;

pub use self::bench::{NUMBER_BENCH, ROW_BENCH, SMALL_ROW_BENCH};

pub const SUITE: Suite = Suite {
    name: "view",
    about:
        "systematic: widths and heights to 33, strides from width - 1 to width + 3; all rows of exact planes; the number
and 5 rows of each plane, with every plane a byte short, exact or longer; strides whose product wraps
random: larger views, to 65,535 wide or high",
    run: all_views,
    replay,
};

fn replay(run: &mut Run, words: &[u64]) -> Result<(), String> {
    let words = <[u64; 9]>::try_from(words).map_err(|_| {
        "a case is width, height, luma stride, chroma stride, the lengths of Y, U and V, which call (0 the number, 1 luma row, \
         2 U row, 3 V row), and the row"
    })?;
    let [sizes @ .., call, row] = words;
    let source = Source::new();
    let case = Case::new(&source, Sizes::of_words(sizes)?);
    match call {
        0 => case.check_number(run),
        1..=3 => case.check_row(run, call as usize - 1, row as usize),
        _ => return Err(format!("{call} is no call")),
    }
    Ok(())
}

fn all_views(run: &mut Run) {
    let source = Source::new();
    small_views(run, &source);
    wrapping_views(run, &source);
    while run.more() {
        let sizes = views::anyhow(&mut run.random);
        let case = Case::new(&source, sizes);
        case.check_edges(run);
        for plane in 0..PLANES {
            let row = run.random.between(0, u64::from(sizes.height));
            case.check_row(run, plane, row as usize);
        }
    }
}

/// Every size to 33 with strides about the width and planes about their length.
fn small_views(run: &mut Run, source: &Source) {
    for sizes in views::small() {
        Case::new(source, sizes).check_all(run);
        sizes.other_lengths().for_each(|sizes| Case::new(source, sizes).check_edges(run));
    }
}

/// Strides that are too large for a product with the height, or for the planes.
fn wrapping_views(run: &mut Run, source: &Source) {
    for height in 0..=33_u16 {
        let most = usize::MAX / usize::from(height.max(1));
        let half = usize::MAX / usize::from(height.div_ceil(2).max(1));
        for large in [1 << 32, 1 << 63, usize::MAX, most, most.saturating_add(1), half, half.saturating_add(1)] {
            for width in [0, 1, 33_u16] {
                let small = usize::from(width);
                for (luma_stride, chroma_stride) in [(large, small), (small, large), (large, large)] {
                    let lengths = [40 * small, 40 * small, 40 * small];
                    let sizes = Sizes { width, height, luma_stride, chroma_stride, lengths };
                    Case::new(source, sizes).check_edges(run);
                }
            }
        }
    }
}
