//! Payloads for the suites and benches of calls that take one.

use std::collections::BTreeSet;

use super::bytes;
use crate::random::Random;
use crate::run::Run;

/// A payload, made from a few words.
#[derive(Debug, Clone, PartialEq, Eq)]
pub enum Payload {
    /// These bytes.
    Listed(Vec<u8>),
    /// Units with these lengths in front, cut off after so many bytes.
    Units { kept: usize, lengths: Vec<u32> },
    /// So many random bytes of a seed.
    Random { length: usize, seed: u64 },
}

impl Payload {
    /// Its words, as a person reads them, and `of_words` too.
    pub fn words(&self) -> String {
        let words: Vec<u64> = match self {
            Self::Listed(bytes) => [0].into_iter().chain(bytes.iter().map(|&byte| byte.into())).collect(),
            Self::Units { kept, lengths } => {
                [1, *kept as u64].into_iter().chain(lengths.iter().map(|&length| length.into())).collect()
            }
            Self::Random { length, seed } => vec![2, *length as u64, *seed],
        };
        words.iter().map(u64::to_string).collect::<Vec<_>>().join(" ")
    }

    pub fn of_words(words: &[u64]) -> Result<Self, String> {
        match *words {
            [0, ref bytes @ ..] => bytes::all(bytes).map(Self::Listed),
            [1, kept, ref lengths @ ..] => {
                let length = |&word: &u64| u32::try_from(word).map_err(|_| format!("{word} is no length of a unit"));
                Ok(Self::Units { kept: kept as usize, lengths: lengths.iter().map(length).collect::<Result<_, _>>()? })
            }
            [2, length @ ..=0x10_0000, seed] => Ok(Self::Random { length: length as usize, seed }),
            _ => Err("a payload is 0 and its bytes; 1, how many bytes are kept and the units' lengths; \
                      or 2, how many random bytes and their seed"
                .to_owned()),
        }
    }

    pub fn bytes(&self) -> Vec<u8> {
        match self {
            Self::Listed(bytes) => bytes.clone(),
            Self::Units { kept, lengths } => {
                let mut bytes = units(lengths);
                bytes.truncate(*kept);
                bytes
            }
            Self::Random { length, seed } => {
                let mut random = Random::new(*seed, "payload");
                (0..*length).map(|_| random.number() as u8).collect()
            }
        }
    }
}

/// The most bytes that a unit of a case has behind its length, whatever that says.
const LONGEST: u32 = 2000;

/// Lengths, and units of that many bytes, or as many as a case has.
pub fn units(lengths: &[u32]) -> Vec<u8> {
    let mut bytes = Vec::new();
    for length in lengths {
        bytes.extend(length.to_be_bytes());
        let at = bytes.len();
        bytes.extend((at..at + *length.min(&LONGEST) as usize).map(|place| (place + place / 256 * 89) as u8));
    }
    bytes
}

/// What `every` makes, in words.
pub const ABOUT: &str =
    "systematic: strings of 0 to 6 bytes 0, 1, 2, 3 or 255; 1 to 3 units of lengths about 0, 1, 255, 256, 511
and 512, cut at each place near a unit's ends and at four others
random: units, some of a length to 2^32 - 1, and bytes";

/// Every payload that is compared.
pub fn every(run: &mut Run, mut check: impl FnMut(&mut Run, &Payload)) {
    for length in 0..=6 {
        for number in 0..5_u32.pow(length) {
            let digits = (0..length).map(|digit| [0, 1, 2, 3, 255][(number / 5_u32.pow(digit) % 5) as usize]);
            check(run, &Payload::Listed(digits.collect()));
        }
    }
    for lengths in few_units() {
        for kept in cuts(&lengths, &mut run.random) {
            check(run, &Payload::Units { kept, lengths: lengths.clone() });
        }
    }
    while run.more() {
        let payload = anyhow(&mut run.random);
        check(run, &payload);
    }
}

const LENGTHS: [u32; 11] = [0, 1, 2, 254, 255, 256, 257, 510, 511, 512, 513];

/// One, two and three units of each of the lengths.
fn few_units() -> impl Iterator<Item = Vec<u32>> {
    (1..=3).flat_map(|count| {
        (0..LENGTHS.len().pow(count)).map(move |number| {
            (0..count).map(|digit| LENGTHS[number / LENGTHS.len().pow(digit) % LENGTHS.len()]).collect()
        })
    })
}

/// The places near a unit's start, its first byte and its end, and four anywhere.
fn cuts(lengths: &[u32], random: &mut Random) -> BTreeSet<usize> {
    let mut ends = vec![0];
    for length in lengths {
        let start = ends[ends.len() - 1] + 4;
        ends.extend([start, start + *length as usize]);
    }
    let whole = ends[ends.len() - 1];
    let near = ends.iter().flat_map(|end| end.saturating_sub(5)..=end + 5).filter(|&place| place <= whole);
    near.chain((0..4).map(|_| random.between(0, whole as u64) as usize)).collect()
}

fn anyhow(random: &mut Random) -> Payload {
    match random.between(0, 3) {
        0 => {
            let length = random.between(0, 40);
            Payload::Listed((0..length).map(|_| [0, 0, 0, 1, 2, 5, 9, 255][random.between(0, 7) as usize]).collect())
        }
        1 => Payload::Random { length: random.between(0, 4096) as usize, seed: random.number() },
        _ => {
            let count = random.between(1, 12);
            let lengths: Vec<u32> = (0..count).map(|_| unit_length(random)).collect();
            let whole = units(&lengths).len() as u64;
            let kept = if random.between(0, 1) == 0 { whole } else { random.between(0, whole) };
            Payload::Units { kept: kept as usize, lengths }
        }
    }
}

/// A length that a unit of a case has, or seldom one that it has not.
fn unit_length(random: &mut Random) -> u32 {
    match random.between(0, 19) {
        0 => [LONGEST + 1, 1 << 24, (1 << 31) - 1, 1 << 31, u32::MAX - 3, u32::MAX][random.between(0, 5) as usize],
        1..=6 => LENGTHS[random.between(0, LENGTHS.len() as u64 - 1) as usize],
        _ => random.between(0, LONGEST.into()) as u32,
    }
}

#[cfg(test)]
mod tests {
    use super::*;

    #[test]
    fn words_are_read_back() {
        let mut random = Random::new(1, "test");
        for _ in 0..100 {
            let payload = anyhow(&mut random);
            let words: Vec<u64> = payload.words().split(' ').map(|word| word.parse().unwrap()).collect();
            assert_eq!(Payload::of_words(&words), Ok(payload));
        }
    }

    #[test]
    fn units_are_lengths_and_bytes() {
        assert_eq!(units(&[2, 0, 1]), [0, 0, 0, 2, 4, 5, 0, 0, 0, 0, 0, 0, 0, 1, 14]);
        assert_eq!(units(&[u32::MAX]).len(), 4 + LONGEST as usize);
    }
}
