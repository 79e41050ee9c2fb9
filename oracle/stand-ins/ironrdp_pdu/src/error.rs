//! Why something was not written or read, and the macros that say so.

/// One error for both ways.
#[derive(Debug, Clone, PartialEq, Eq)]
pub enum Error {
    /// A cursor has fewer bytes left than are asked for.
    NotEnoughBytes { received: usize, expected: usize },
    /// A field has a value that it must not have.
    InvalidField { field: &'static str, reason: &'static str },
}

pub type EncodeResult<T> = Result<T, Error>;
pub type DecodeResult<T> = Result<T, Error>;

/// Returns an error unless the cursor has so many bytes left.
#[macro_export]
macro_rules! ensure_size {
    (ctx: $context:expr, in: $cursor:ident, size: $size:expr) => {{
        let _: &str = $context;
        $crate::ensure_size!(in: $cursor, size: $size)
    }};
    (in: $cursor:ident, size: $size:expr) => {{
        let (received, expected) = ($cursor.len(), $size);
        if received < expected {
            return Err($crate::Error::NotEnoughBytes { received, expected });
        }
    }};
}

/// Returns an error unless the cursor has as many bytes left as the type's `FIXED_PART_SIZE` says.
#[macro_export]
macro_rules! ensure_fixed_part_size {
    (in: $cursor:ident) => {
        $crate::ensure_size!(in: $cursor, size: Self::FIXED_PART_SIZE)
    };
}

/// The error of a field.
#[macro_export]
macro_rules! invalid_field_err {
    ($field:expr, $reason:expr, in: $cursor:ident) => {
        $crate::Error::InvalidField { field: $field, reason: $reason }
    };
}

/// A length as the number that the place wants, or the error of the field.
#[macro_export]
macro_rules! cast_length {
    ($field:expr, $length:expr, in: $cursor:ident) => {
        $length.try_into().map_err(|_| $crate::invalid_field_err!($field, "does not fit", in: $cursor))
    };
}
