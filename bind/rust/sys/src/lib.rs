#![doc = include_str!("../README.md")]
#![no_std]
#![deny(missing_docs)]

// The names and the types are those of bind/c/haythaw.h, in the files that crates/haythaw has.
mod annex_b;
mod apply;
mod avc444;
mod check;
mod picture;
mod split;
mod strict;
mod text;
mod to_rgba;
mod view;

pub use annex_b::*;
pub use apply::*;
pub use avc444::*;
pub use check::*;
pub use picture::*;
pub use split::*;
pub use strict::*;
pub use text::*;
pub use to_rgba::*;
pub use view::*;

/// `haythaw_answer`: 0 or the number of a refusal, and how many elements of the slice were written.
#[repr(C)]
#[derive(Debug, Clone, Copy, PartialEq, Eq)]
pub struct Answer {
    /// 0, or the number of a refusal.
    pub number: u32,
    /// How many elements were written.
    pub count: usize,
}
