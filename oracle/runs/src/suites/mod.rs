//! The suites and the benches: one file or folder for each call, one line in each table.

mod allocation_size;
mod annex_b;
mod apply;
mod avc444;
pub mod avc444_payload;
mod avc444_write;
mod avc_format;
mod average;
mod bytes;
mod check;
mod filter;
mod forward;
pub(crate) mod from_rgba;
mod lengths;
mod limited;
mod lists;
mod look;
mod map;
mod new;
mod noise;
mod payloads;
mod pictures;
mod reverse;
mod round_trip;
mod split;
mod to_rgba;
mod view;
mod view_to_rgba;
pub(crate) mod views;

use crate::bench::{Bench, Weighing};
use crate::run::Run;

/// A suite of comparisons.
pub struct Suite {
    pub name: &'static str,
    /// What it compares, in words, in one line or more.
    pub about: &'static str,
    pub run: fn(&mut Run),
    /// Compares the one case that the words are.
    pub replay: fn(&mut Run, &[u64]) -> Result<(), String>,
}

pub const SUITES: &[Suite] = &[
    forward::SUITE,
    reverse::SUITE,
    filter::SUITE,
    average::SUITE,
    view::SUITE,
    avc_format::SUITE,
    annex_b::SUITE,
    allocation_size::SUITE,
    allocation_size::MAP_SUITE,
    new::SUITE,
    from_rgba::SUITE,
    from_rgba::RUST_SUITE,
    to_rgba::SUITE,
    view_to_rgba::SUITE,
    apply::MAIN_SUITE,
    apply::V1_SUITE,
    apply::V2_SUITE,
    apply::V2_32_SUITE,
    apply::V2_EXACT_SUITE,
    apply::MAIN_STRICT_SUITE,
    apply::V1_STRICT_SUITE,
    apply::V2_STRICT_SUITE,
    apply::V2_32_STRICT_SUITE,
    apply::V2_EXACT_STRICT_SUITE,
    split::V1_SUITE,
    split::V2_SUITE,
    split::V2_32_SUITE,
    check::V1_SUITE,
    check::V2_SUITE,
    check::V2_32_SUITE,
    round_trip::SUITE,
    avc444::WRITE_SUITE,
    avc444::READ_SUITE,
];

pub const BENCHES: &[Bench] = &[
    forward::BENCH,
    reverse::BENCH,
    average::BENCH,
    filter::BENCH,
    view::NUMBER_BENCH,
    view::ROW_BENCH,
    view::SMALL_ROW_BENCH,
    avc_format::BENCH,
    annex_b::BENCH,
    new::BENCH,
    from_rgba::BENCH,
    from_rgba::SMOOTH_BENCH,
    from_rgba::RUST_BENCH,
    to_rgba::BENCH,
    to_rgba::SMOOTH_BENCH,
    to_rgba::SMALL_BENCH,
    view_to_rgba::BENCH,
    view_to_rgba::SMOOTH_BENCH,
    view_to_rgba::SMALL_BENCH,
    apply::MAIN_BENCH,
    apply::MAIN_RECTS_BENCH,
    apply::MAIN_SMALL_RECTS_BENCH,
    apply::V1_BENCH,
    apply::V1_RECTS_BENCH,
    apply::V1_SMALL_RECTS_BENCH,
    apply::V2_BENCH,
    apply::V2_RECTS_BENCH,
    apply::V2_SMALL_RECTS_BENCH,
    apply::V2_32_BENCH,
    split::V1_BENCH,
    split::V2_BENCH,
    split::V2_32_BENCH,
];

/// Two calls of the library against each other.
pub const WEIGHINGS: &[Weighing] = &[
    to_rgba::ODD_EDGES,
    to_rgba::PLACES,
    to_rgba::SCALE,
    view_to_rgba::SCALE,
    from_rgba::SCALE,
    new::SCALE,
    apply::MAIN_SCALE,
    apply::MAIN_COPIES,
    apply::V1_SCALE,
    apply::V2_SCALE,
    apply::MAIN_STRICT_RECTS,
    apply::MAIN_STRICT_SMALL,
    apply::V1_STRICT_RECTS,
    apply::V1_STRICT_SMALL,
    apply::V2_STRICT_RECTS,
    apply::V2_STRICT_SMALL,
    split::V1_SCALE,
    split::V2_SCALE,
    split::V2_32_BYTES,
    split::V2_32_SMALL,
];

/// The checks of two views against the split.
pub const CHECKS: &[Weighing] = check::WEIGHINGS;

/// Limited range against full range.
pub const LIMITED: &[Weighing] = limited::WEIGHINGS;

/// The reader of the AVC444 payload against plain Rust.
pub const PAYLOADS: &[Weighing] = &[
    avc444_payload::READ,
    avc444_payload::READ_WORDS,
    avc444_payload::RECTS,
    avc444_payload::RECTS_WORDS,
    avc444_payload::RECTANGLE,
    avc444_payload::RECTANGLE_WORDS,
];

/// The writer of the AVC444 payload against plain copies.
pub const WRITES: &[Weighing] = &[avc444_write::DATA, avc444_write::RECTS, avc444_write::SMALL];

/// The suite of a name.
pub fn named(name: &str) -> Result<&'static Suite, String> {
    SUITES.iter().find(|suite| suite.name == name).ok_or_else(|| {
        let names: Vec<&str> = SUITES.iter().map(|suite| suite.name).collect();
        format!("{name} is no suite; there are {}", names.join(", "))
    })
}
