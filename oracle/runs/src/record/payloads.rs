//! `replay_payload`: payloads, whether each is length-prefixed, and its conversion to Annex B.
//!
//! A case of the input is its length in two bytes, then the payload itself.

use std::collections::BTreeSet;

use original::pdu::{avc_to_annex_b_into, is_avc_format};

use super::{checksum, hex, two, Sample};
use crate::random::Random;

/// Longer outputs are written as their first and last bytes and a checksum of all.
const WHOLE: usize = 64;
const ENDS: usize = 16;

pub fn sample(seed: u64) -> Sample {
    let cases = cases(&mut Random::new(seed, "replay_payload"));
    let mut sample = Sample { name: "replay_payload", cases: cases.len(), input: Vec::new(), output: String::new() };
    for (index, case) in cases.iter().enumerate() {
        sample.input.extend(two(case.len()));
        sample.input.extend(case);
        sample.output += &line(index, case);
    }
    sample
}

/// What the original answers.
fn line(index: usize, case: &[u8]) -> String {
    let mut out = Vec::new();
    avc_to_annex_b_into(case, &mut out);
    let format = if is_avc_format(case) { "yes" } else { "no" };
    let bytes = if out.is_empty() {
        String::new()
    } else if out.len() <= WHOLE {
        format!(" {}", hex(&out))
    } else {
        format!(" {}..{} {:08x}", hex(&out[..ENDS]), hex(&out[out.len() - ENDS..]), checksum(&out))
    };
    format!("{index}: {format} {}{bytes}\n", out.len())
}

/// The cases: each edge of the rules, then chains of units with the last one whole, cut or followed by a remainder.
fn cases(random: &mut Random) -> Vec<Vec<u8>> {
    let mut cases = Cases::default();
    short(&mut cases);
    one_unit(&mut cases, random);
    large_lengths(&mut cases);
    chains(&mut cases, random);
    altered(&mut cases, random);
    cases.list
}

/// Cases in their order, each once.
#[derive(Default)]
struct Cases {
    list: Vec<Vec<u8>>,
    seen: BTreeSet<Vec<u8>>,
}

impl Cases {
    fn add(&mut self, case: Vec<u8>) {
        if self.seen.insert(case.clone()) {
            self.list.push(case);
        }
    }
}

/// A unit: its length, then so many bytes.
fn unit(length: u32, bytes: &[u8]) -> Vec<u8> {
    [&length.to_be_bytes(), bytes].concat()
}

fn bytes(random: &mut Random, count: usize) -> Vec<u8> {
    (0..count).map(|_| random.number().to_le_bytes()[0]).collect()
}

/// A unit of so many bytes.
fn whole(random: &mut Random, count: usize) -> Vec<u8> {
    unit(u32::try_from(count).expect("a unit of a sample"), &bytes(random, count))
}

/// Everything of up to 4 bytes that is 0, 1 or 2, and both start codes with something after them.
fn short(cases: &mut Cases) {
    for length in 0..=4_u32 {
        for number in 0..3_u32.pow(length) {
            cases.add((0..length).map(|place| (number / 3_u32.pow(place) % 3) as u8).collect());
        }
    }
    for code in [&[0, 0, 1][..], &[0, 0, 0, 1], &[0, 0, 2], &[0, 0, 0, 2], &[0, 1, 0], &[0, 0, 0, 0]] {
        for after in [&[103][..], &[103, 66], &[103, 66, 0, 0, 0, 1, 104], &[0, 0, 0, 1, 103], &[0, 0, 0, 0]] {
            cases.add([code, after].concat());
        }
    }
}

/// One unit of a length at an edge: the bytes that are there are fewer, as many, or more, up to a second length.
fn one_unit(cases: &mut Cases, random: &mut Random) {
    for length in [0_usize, 1, 2, 3, 4, 5, 59, 60, 61, 64, 255, 256, 257, 258, 510, 511, 512, 513, 768] {
        for over in [-4_isize, -1, 0, 1, 3, 4, 5] {
            let Some(there) = length.checked_add_signed(over) else { continue };
            cases.add(unit(u32::try_from(length).expect("a length of the list"), &bytes(random, there)));
        }
    }
}

/// Lengths far past the end, alone, after a whole unit, and in each byte of the length.
fn large_lengths(cases: &mut Cases) {
    for length in [u32::MAX, u32::MAX - 3, u32::MAX - 4, 1 << 31, (1 << 31) - 1, 1 << 24, 1 << 16, 1 << 8] {
        for there in [0, 1, 4] {
            cases.add(unit(length, &vec![103; there]));
            cases.add([unit(2, &[103, 66]), unit(length, &vec![104; there])].concat());
            cases.add([unit(0, &[]), unit(length, &vec![104; there])].concat());
        }
    }
}

/// Chains of up to 6 units, in some of them empty ones, and then nothing, a remainder, or a unit that is cut.
fn chains(cases: &mut Cases, random: &mut Random) {
    for _ in 0..220 {
        let least = random.between(0, 2).min(1);
        let mut case = Vec::new();
        for _ in 0..random.between(1, 6) {
            let count = random.between(least, 20) as usize;
            case.extend(whole(random, count));
        }
        match random.between(0, 5) {
            0..=3 => {}
            4 => {
                let count = random.between(1, 3) as usize;
                case.extend(bytes(random, count));
            }
            _ => {
                let there = random.between(0, 6) as u32;
                let length = there + random.between(1, 3) as u32;
                case.extend(unit(length, &bytes(random, there as usize)));
            }
        }
        cases.add(case);
    }
}

/// Whole chains with one byte altered, or cut somewhere.
fn altered(cases: &mut Cases, random: &mut Random) {
    for _ in 0..120 {
        let mut case = Vec::new();
        for _ in 0..random.between(1, 4) {
            let count = random.between(1, 9) as usize;
            case.extend(whole(random, count));
        }
        let at = random.between(0, case.len() as u64 - 1) as usize;
        if random.between(0, 1) == 0 {
            case.truncate(at);
        } else {
            case[at] ^= 1 << random.between(0, 7);
        }
        cases.add(case);
    }
}
