//! The Rust original, unchanged, as `original.sh` lays it out in `oracle/build/original`.
//!
//! `avc444` ends with one line that is not the original's: it declares `avc444::probe`.

#[path = "../../build/original/avc444.rs"]
pub mod avc444;

#[path = "../../build/original/decode.rs"]
pub mod decode;

#[path = "../../build/original/avc.rs"]
pub mod pdu;

pub use ironrdp_pdu::geometry::ExclusiveRectangle;
pub use ironrdp_pdu::{Decode, Encode, Error, ReadCursor, WriteCursor};
