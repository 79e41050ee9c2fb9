//! Bytes for the suites and benches of calls that take a few of them.

use std::rc::Rc;

use crate::bench::Sides;
use crate::random::Random;

/// The words of a case that `--replay` gave, as bytes.
pub fn all(words: &[u64]) -> Result<Vec<u8>, String> {
    words.iter().map(|&word| u8::try_from(word).map_err(|_| format!("{word} is not a byte"))).collect()
}

/// The bytes of a case that has so many.
pub fn of_case<const N: usize>(words: &[u64]) -> Result<[u8; N], String> {
    <[u8; N]>::try_from(all(words)?).map_err(|bytes| format!("{N} bytes make a case, not {}", bytes.len()))
}

/// All triples of bytes, in order, with their place in it.
pub fn triples() -> impl Iterator<Item = (u64, [u8; 3])> {
    (0..1_u32 << 24).map(|place| {
        let [_, a, b, c] = place.to_be_bytes();
        (u64::from(place), [a, b, c])
    })
}

/// `sum` as `N` bytes in different ways: filled from the left, from the right, evenly, and `random` times anyhow.
///
/// # Panics
///
/// Panics if `N` bytes cannot have that sum.
pub fn splittings<const N: usize>(sum: u64, random: u64, numbers: &mut Random) -> Vec<[u8; N]> {
    let mut left = [0; N];
    fill(&mut left, sum, |rest, _| rest.min(255));
    let mut right = left;
    right.reverse();
    let mut even = [0; N];
    fill(&mut even, sum, |rest, after| rest / (after + 1));
    let mut all = vec![left, right, even];
    for _ in 0..random {
        let mut anyhow = [0; N];
        fill(&mut anyhow, sum, |rest, after| numbers.between(rest.saturating_sub(255 * after), rest.min(255)));
        all.push(anyhow);
    }
    all
}

/// Fills the bytes with what `take` takes of the rest of the sum, given how many bytes come after.
fn fill<const N: usize>(bytes: &mut [u8; N], sum: u64, mut take: impl FnMut(u64, u64) -> u64) {
    let mut rest = sum;
    for (byte, after) in bytes.iter_mut().zip((0..N as u64).rev()) {
        let taken = take(rest, after);
        *byte = u8::try_from(taken).expect("at most 255 is taken");
        rest -= taken;
    }
    assert_eq!(rest, 0, "{N} bytes have no sum {sum}");
}

/// What `sides` runs over, in words.
pub const INPUT: &str = "2^22 random inputs";

/// Sides that call a function on each of the same 2^22 inputs.
pub fn sides(ours: impl Fn([u8; 4]) -> u64 + 'static, theirs: impl Fn([u8; 4]) -> u64 + 'static) -> Sides {
    let mut random = Random::new(0, "bench");
    let inputs: Rc<[[u8; 4]]> = (0..1 << 22).map(|_| (random.number() as u32).to_le_bytes()).collect();
    let same = Rc::clone(&inputs);
    Sides {
        calls: inputs.len() as u64,
        ours: Box::new(move || inputs.iter().map(|&input| ours(input)).sum()),
        theirs: Box::new(move || same.iter().map(|&input| theirs(input)).sum()),
    }
}

/// A few bytes as a number, so that a sum of answers depends on each of their bytes.
#[inline]
pub fn as_number<const N: usize>(bytes: [u8; N]) -> u64 {
    bytes.iter().fold(0, |number, &byte| number << 8 | u64::from(byte))
}

#[cfg(test)]
mod tests {
    use super::*;

    #[test]
    fn splittings_have_their_sum() {
        let mut numbers = Random::new(1, "test");
        for sum in 0..=1020 {
            for bytes in splittings::<4>(sum, 5, &mut numbers) {
                assert_eq!(bytes.iter().map(|&byte| u64::from(byte)).sum::<u64>(), sum);
            }
        }
    }

    #[test]
    fn triples_are_all_triples() {
        assert_eq!(triples().count(), 1 << 24);
        assert_eq!(triples().nth(0x01_02_03), Some((0x01_02_03, [1, 2, 3])));
    }
}
