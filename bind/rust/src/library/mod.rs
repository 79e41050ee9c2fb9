//! All that is unsafe in this crate: the functions of the proved library (`calls`, whose head says why calling them is safe), and lists
//! of rectangles and of pairs lent to them without a copy (`rects`, `pairs`).

mod calls;
mod pairs;
mod rects;

pub use calls::*;
pub use haythaw_sys::{Checked, Pair, Pixels, Places, Rectangle, Row, Views};
pub use pairs::{bytes_of, pairs_of};
pub use rects::{numbers_of, numbers_of_mut};

/// Goes on after a call that the types of this crate leave no reason to refuse.
///
/// # Panics
///
/// Unless the number is 0, which would be a bug of this crate.
#[track_caller]
pub fn done(call: &str, number: u32) {
    assert_eq!(number, 0, "haythaw: {call} refused what this crate lent it");
}
