//! The stored input and output of the replays in tests/stored: cases from a seed, and the Rust original's answers as text.
//!
//! Nothing here calls the library.

mod layouts;
mod payloads;
mod pictures;
mod views;

use std::fmt::Write;

/// What a replay is run on, and what it has to print.
pub struct Sample {
    /// The name of its files.
    pub name: &'static str,
    pub cases: usize,
    pub input: Vec<u8>,
    pub output: String,
}

/// The samples of a seed, one for each replay.
pub fn samples(seed: u64) -> Vec<Sample> {
    vec![payloads::sample(seed), views::sample(seed), pictures::sample(seed), layouts::sample(seed)]
}

/// Adler-32 (RFC 1950), which the replays take too.
fn checksum(bytes: &[u8]) -> u32 {
    let (mut a, mut b) = (1, 0);
    for byte in bytes {
        a = (a + u32::from(*byte)) % 65521;
        b = (b + a) % 65521;
    }
    b << 16 | a
}

/// Bytes in hexadecimal, two digits each.
fn hex(bytes: &[u8]) -> String {
    bytes.iter().fold(String::new(), |mut text, byte| {
        write!(text, "{byte:02x}").expect("a string takes all that is written");
        text
    })
}

/// A number as a little-endian field of two bytes.
fn two(number: usize) -> [u8; 2] {
    u16::try_from(number).expect("a field of two bytes").to_le_bytes()
}

#[cfg(test)]
mod tests {
    use super::checksum;

    #[test]
    fn the_checksum_is_adler_32() {
        assert_eq!(checksum(b""), 1);
        assert_eq!(checksum(b"Wikipedia"), 0x11E6_0398);
    }
}
