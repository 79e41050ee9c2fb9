//! `replay_view`: views, whether each is accepted, and rows of its planes.
//!
//! A case of the input is 28 bytes, all little-endian: width, height, the lengths of Y, U and V and a seed in two bytes each, then the
//! luma stride and the chroma stride in eight. Byte k of Y is (31 k + seed) % 251; U has seed + 83 and V seed + 167 for it.

use std::fmt::Write;

use original::decode::Yuv420Frame;

use super::{checksum, two, Sample};
use crate::random::Random;

#[derive(Clone, Copy)]
struct Case {
    width: u16,
    height: u16,
    luma_stride: usize,
    chroma_stride: usize,
    /// The lengths of Y, U and V.
    lengths: [usize; 3],
    seed: usize,
}

pub fn sample(seed: u64) -> Sample {
    let cases = cases(&mut Random::new(seed, "replay_view"));
    let mut sample = Sample { name: "replay_view", cases: cases.len(), input: Vec::new(), output: String::new() };
    for (index, case) in cases.iter().enumerate() {
        sample.input.extend(case.record());
        writeln!(sample.output, "{index}: {} x {} {}", case.width, case.height, case.answers())
            .expect("a string takes all that is written");
    }
    sample
}

impl Case {
    /// A view whose strides are its widths and whose planes are as long as their rows.
    fn exact(width: u16, height: u16, random: &mut Random) -> Self {
        Self::strided(width, height, usize::from(width), usize::from(width.div_ceil(2)), random)
    }

    /// A view whose planes are as long as their rows, where a sample holds them.
    fn strided(width: u16, height: u16, luma_stride: usize, chroma_stride: usize, random: &mut Random) -> Self {
        let luma = held(luma_stride, usize::from(height));
        let chroma = held(chroma_stride, half_up(height));
        let seed = random.between(0, 250) as usize;
        Self { width, height, luma_stride, chroma_stride, lengths: [luma, chroma, chroma], seed }
    }

    fn record(&self) -> Vec<u8> {
        let [y, u, v] = self.lengths;
        let mut record = Vec::new();
        for field in [usize::from(self.width), usize::from(self.height), y, u, v, self.seed] {
            record.extend(two(field));
        }
        for stride in [self.luma_stride, self.chroma_stride] {
            record.extend((stride as u64).to_le_bytes());
        }
        record
    }

    fn plane(&self, index: usize) -> Vec<u8> {
        let seed = self.seed + [0, 83, 167][index];
        (0..self.lengths[index]).map(|k| ((31 * k + seed) % 251) as u8).collect()
    }

    /// What the original answers.
    fn answers(&self) -> String {
        let made = Yuv420Frame::new(
            self.width,
            self.height,
            self.plane(0),
            self.luma_stride,
            self.plane(1),
            self.plane(2),
            self.chroma_stride,
        );
        let Ok(view) = made else { return "refused".to_owned() };
        format!(
            "accepted\ny{}\nu{}\nv{}",
            rows(usize::from(self.height), |row| view.luma_row(row)),
            rows(half_up(self.height), |row| view.u_row(row)),
            rows(half_up(self.height), |row| view.v_row(row)),
        )
    }
}

fn half_up(size: u16) -> usize {
    usize::from(size.div_ceil(2))
}

/// The length of a plane that is as long as its rows, or 1,000 where that is more than two bytes say.
fn held(stride: usize, rows: usize) -> usize {
    stride.checked_mul(rows).filter(|length| *length <= usize::from(u16::MAX)).unwrap_or(1000)
}

/// Rows 0, 1, the middle, the last, the two after it, and the largest number: each absent, or its start, length and checksum.
fn rows<'a>(height: usize, row: impl Fn(usize) -> Option<&'a [u8]>) -> String {
    let mut text = String::new();
    for number in [0, 1, height / 2, height.wrapping_sub(1), height, height + 1, usize::MAX] {
        match (row(0), row(number)) {
            (Some(first), Some(bytes)) => {
                let start = bytes.as_ptr() as usize - first.as_ptr() as usize;
                write!(text, " {start}+{}:{:08x}", bytes.len(), checksum(bytes))
            }
            (None, Some(_)) => panic!("row {number} is there, and row 0 is not"),
            (_, None) => write!(text, " absent"),
        }
        .expect("a string takes all that is written");
    }
    text
}

/// Sizes for strides and lengths at their edges.
const SIZES: [(u16, u16); 12] =
    [(0, 0), (0, 3), (3, 0), (1, 1), (2, 2), (3, 3), (7, 5), (8, 8), (15, 16), (16, 15), (17, 17), (33, 32)];

fn cases(random: &mut Random) -> Vec<Case> {
    let mut cases = Vec::new();
    sizes(&mut cases, random);
    strides(&mut cases, random);
    lengths(&mut cases, random);
    cropped(&mut cases, random);
    large(&mut cases, random);
    beyond_the_word(&mut cases, random);
    cases
}

/// Each width and each height of 0 to 33, exact.
fn sizes(cases: &mut Vec<Case>, random: &mut Random) {
    for size in 0..=33 {
        for other in [33 - size, size * 5 % 34, random.between(0, 33) as u16] {
            cases.push(Case::exact(size, other, random));
        }
    }
}

/// Each stride one below its width, equal, one above, and some above.
fn strides(cases: &mut Vec<Case>, random: &mut Random) {
    for (width, height) in SIZES {
        for luma in [-1_isize, 0, 1, 13] {
            for chroma in [-1_isize, 0, 1, 6] {
                let luma = usize::from(width).checked_add_signed(luma);
                let chroma = half_up(width).checked_add_signed(chroma);
                if let (Some(luma), Some(chroma)) = (luma, chroma) {
                    cases.push(Case::strided(width, height, luma, chroma, random));
                }
            }
        }
    }
}

/// Each plane one byte short, one longer, and empty; all of them longer.
fn lengths(cases: &mut Vec<Case>, random: &mut Random) {
    for (width, height) in SIZES {
        let stride = usize::from(width) + random.between(0, 3) as usize;
        let exact = Case::strided(width, height, stride, stride.div_ceil(2), random);
        for (plane, length) in exact.lengths.into_iter().enumerate() {
            for length in length.checked_sub(1).into_iter().chain([length + 1, 0]) {
                let mut case = exact;
                case.lengths[plane] = length;
                cases.push(case);
            }
        }
        cases.push(Case { lengths: exact.lengths.map(|length| length + 50), ..exact });
    }
}

/// A part of a larger decoded picture: the planes hold columns and rows that the view does not have.
fn cropped(cases: &mut Vec<Case>, random: &mut Random) {
    for _ in 0..30 {
        let (width, height) = (random.between(0, 33) as u16, random.between(0, 33) as u16);
        let padded = [width, height].map(|size| usize::from(size).next_multiple_of(16));
        let (edge, chroma_edge) = (random.between(0, 32) as usize, random.between(0, 16) as usize);
        let mut case = Case::exact(width, height, random);
        case.luma_stride = padded[0] + edge;
        case.chroma_stride = padded[0] / 2 + chroma_edge;
        case.lengths = [
            case.luma_stride * padded[1],
            case.chroma_stride * padded[1] / 2,
            case.chroma_stride * padded[1] / 2 + random.between(0, 5) as usize,
        ];
        cases.push(case);
    }
}

/// Sizes at the end of their range, as far as a plane of 65,535 bytes holds them, exact and with a plane one byte short.
fn large(cases: &mut Vec<Case>, random: &mut Random) {
    let sizes = [
        (65535, 1),
        (65534, 1),
        (65535, 0),
        (1, 65535),
        (1, 65534),
        (0, 65535),
        (32767, 2),
        (2, 32767),
        (255, 257),
        (256, 255),
        (1023, 64),
        (251, 200),
    ];
    for (width, height) in sizes {
        let exact = Case::exact(width, height, random);
        cases.push(exact);
        for plane in 0..3 {
            if let Some(length) = exact.lengths[plane].checked_sub(1) {
                let mut case = exact;
                case.lengths[plane] = length;
                cases.push(case);
            }
        }
    }
    cases.push(Case::strided(0, 65535, 1, 1, random));
    cases.push(Case::strided(0, 1, 65535, 65535, random));
    cases.push(Case::strided(65535, 0, usize::MAX, usize::MAX, random));
    cases.push(Case::strided(0, 0, usize::MAX, usize::MAX, random));
}

/// Strides whose product with the height is at the end of the machine word, or past it.
fn beyond_the_word(cases: &mut Vec<Case>, random: &mut Random) {
    for height in [1, 2, 3, 4, 255, 65535] {
        let fits = usize::MAX / usize::from(height);
        let chroma_fits = usize::MAX / half_up(height);
        for stride in [fits, fits.saturating_add(1), 1 << 63, 1 << 48, usize::MAX] {
            cases.push(Case::strided(1, height, stride, 1, random));
        }
        for stride in [chroma_fits, chroma_fits.saturating_add(1), 1 << 63, usize::MAX] {
            cases.push(Case::strided(1, height, 1, stride, random));
        }
    }
}
