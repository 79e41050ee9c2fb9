//! The rectangle.

use crate::{ensure_fixed_part_size, Decode, DecodeResult, Encode, EncodeResult, ReadCursor, WriteCursor};

/// A rectangle whose right and bottom edges are outside it.
#[derive(Debug, Clone, Copy, PartialEq, Eq)]
pub struct ExclusiveRectangle {
    pub left: u16,
    pub top: u16,
    pub right: u16,
    pub bottom: u16,
}

impl ExclusiveRectangle {
    pub const ENCODED_SIZE: usize = Self::FIXED_PART_SIZE;

    const FIXED_PART_SIZE: usize = 8;
}

// Left, top, right, bottom, of any values.
impl Encode for ExclusiveRectangle {
    fn encode(&self, dst: &mut WriteCursor<'_>) -> EncodeResult<()> {
        ensure_fixed_part_size!(in: dst);
        dst.write_u16(self.left);
        dst.write_u16(self.top);
        dst.write_u16(self.right);
        dst.write_u16(self.bottom);
        Ok(())
    }

    fn name(&self) -> &'static str {
        "ExclusiveRectangle"
    }

    fn size(&self) -> usize {
        Self::FIXED_PART_SIZE
    }
}

impl<'de> Decode<'de> for ExclusiveRectangle {
    fn decode(src: &mut ReadCursor<'de>) -> DecodeResult<Self> {
        ensure_fixed_part_size!(in: src);
        Ok(Self { left: src.read_u16(), top: src.read_u16(), right: src.read_u16(), bottom: src.read_u16() })
    }
}
