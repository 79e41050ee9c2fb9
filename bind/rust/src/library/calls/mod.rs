//! The functions of the proved library that have a place in `bind/c/haythaw.h`, each in safe Rust, in the files that `crates/haythaw`
//! has; `haythaw-sys` declares them. These files name nothing of the crate around them: the runs beside the Rust original
//! (`oracle/runs`) compile them too, so that what is compared there is called as it is here.
//!
//! A slice passes as a pointer and an element count. The library asks two things of its caller that it cannot check: every count is
//! true, and a slice that is written overlaps no other. Here both hold by the types. A pointer and its count are always those of one
//! slice, which is borrowed until the call is over; and what is written is a `&mut` slice, which no other borrow overlaps. Of an empty
//! slice no byte is touched. Nothing else is asked: every call is proved for all numbers, lengths and contents, touches the slices
//! alone, keeps no pointer, and ends.

mod annex_b;
mod apply;
mod avc444;
mod check;
mod picture;
mod split;
mod strict;
mod to_rgba;
mod view;

pub use annex_b::*;
pub use apply::*;
pub use avc444::*;
pub use check::*;
pub use picture::*;
pub use split::*;
pub use strict::*;
pub use to_rgba::*;
pub use view::*;
