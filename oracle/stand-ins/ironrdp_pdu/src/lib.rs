//! Stands in for the crate `ironrdp-pdu`: written from the names that the Rust original uses, and from how it uses them. The crate itself
//! was not at hand.
//!
//! What is assumed of it: numbers are little-endian; a cursor's length is what is left of its bytes; a cursor that is asked for more than
//! that panics, and the macros ask before; one that is refused has moved no further.

mod cursor;
mod error;
pub mod geometry;

pub use cursor::{ReadCursor, WriteCursor};
pub use error::{DecodeResult, EncodeResult, Error};

/// What is written to a cursor.
pub trait Encode {
    fn encode(&self, dst: &mut WriteCursor<'_>) -> EncodeResult<()>;
    fn name(&self) -> &'static str;
    /// How many bytes are written.
    fn size(&self) -> usize;
}

/// What is read from a cursor.
pub trait Decode<'de>: Sized {
    fn decode(src: &mut ReadCursor<'de>) -> DecodeResult<Self>;
}
