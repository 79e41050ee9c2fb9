//! Stands in for the crate `bitflags`: written from the names that the Rust original uses, and from how it uses them. The crate itself was
//! not at hand.
//!
//! What is assumed of it: a type around a number, each of whose values is kept as it is, since the original declares every bit as known
//! (`const _ = !0`).

/// A type around a number, and names for some of its values.
#[macro_export]
macro_rules! bitflags {
    (
        $(#[$attribute:meta])*
        $visible:vis struct $name:ident: $number:ty {
            $(const $flag:ident = $value:expr;)*
            const _ = !0;
        }
    ) => {
        $(#[$attribute])*
        $visible struct $name($number);

        impl $name {
            $(pub const $flag: Self = Self($value);)*

            /// The number.
            pub const fn bits(&self) -> $number {
                self.0
            }

            /// The value of a number, whichever it is.
            pub const fn from_bits_retain(bits: $number) -> Self {
                Self(bits)
            }
        }
    };
}
