//! `replay_layouts`: auxiliary views of both layouts applied, and pictures split into both.
//!
//! The input begins with 8,192 random bytes. A case after them is 22 numbers of two bytes, little-endian: the call, a picture's width,
//! height and place, a view's width, height, luma stride, chroma stride and place, the count of rectangles, and three rectangles. A
//! plane is 4,096 of the random bytes from a place on: Y from the place that the case gives, U 83 and V 167 bytes after it.

use std::fmt::Write;

use original::avc444::{probe, Avc444Layout, Yuv444Frame};
use original::decode::Yuv420Frame;

use super::pictures::{any_rect, exclusive, Rect};
use super::{checksum, two, Sample};
use crate::random::Random;
use crate::suites::views::rows_of;

/// How many random bytes there are.
const BYTES: usize = 8192;
/// Bytes of each plane, and of each output: as many as any case reads or writes, or more.
const PLANE: usize = 4096;
/// The last place that leaves enough for V.
const LAST: u64 = (BYTES - PLANE - 167) as u64;
/// What every byte of an output is before a split.
const BEFORE: u8 = 201;

#[derive(Clone, Copy)]
enum Call {
    ApplyV1,
    ApplyV2,
    SplitV1,
    SplitV2,
}

#[derive(Clone, Copy, Default)]
struct View {
    width: u16,
    height: u16,
    luma_stride: u16,
    chroma_stride: u16,
    place: u16,
}

struct Case {
    call: Call,
    width: u16,
    height: u16,
    place: u16,
    view: View,
    rects: Vec<Rect>,
}

pub fn sample(seed: u64) -> Sample {
    let random = &mut Random::new(seed, "replay_layouts");
    let bytes: Vec<u8> = (0..BYTES).map(|_| random.between(0, 255) as u8).collect();
    let cases = cases(random);
    let mut sample = Sample { name: "replay_layouts", cases: cases.len(), input: bytes.clone(), output: String::new() };
    for (index, case) in cases.iter().enumerate() {
        sample.input.extend(case.record());
        writeln!(sample.output, "{index}: {}", case.answer(&bytes)).expect("a string takes all that is written");
    }
    sample
}

/// The planes Y, U and V from a place on.
fn planes(bytes: &[u8], place: u16) -> [Vec<u8>; 3] {
    [0, 83, 167].map(|more| bytes[usize::from(place) + more..][..PLANE].to_vec())
}

/// A lent buffer whose first bytes a call wrote.
fn written(mut before: Vec<u8>, plane: &[u8]) -> Vec<u8> {
    before[..plane.len()].copy_from_slice(plane);
    before
}

/// The checksums of three lent buffers.
fn checksums(buffers: [Vec<u8>; 3]) -> String {
    let [y, u, v] = buffers.map(|buffer| checksum(&buffer));
    format!("y {y:08x} u {u:08x} v {v:08x}")
}

impl Case {
    fn record(&self) -> Vec<u8> {
        let view = self.view;
        let head = [self.call as u16, self.width, self.height, self.place, view.width, view.height];
        let rest = [view.luma_stride, view.chroma_stride, view.place, self.rects.len() as u16];
        let mut rects = self.rects.concat();
        rects.resize(12, 0);
        head.into_iter().chain(rest).chain(rects).flat_map(|number| two(usize::from(number))).collect()
    }

    fn picture(&self, planes: &[Vec<u8>; 3]) -> Yuv444Frame {
        let length = Yuv444Frame::allocation_size(self.width, self.height) / 3;
        probe::with_planes(self.width, self.height, planes.each_ref().map(|plane| &plane[..length]))
    }

    /// What the original answers.
    fn answer(&self, bytes: &[u8]) -> String {
        let (name, answer) = match self.call {
            Call::ApplyV1 => ("apply_auxiliary_v1", self.applied(Avc444Layout::V1, bytes)),
            Call::ApplyV2 => ("apply_auxiliary_v2", self.applied(Avc444Layout::V2, bytes)),
            Call::SplitV1 => ("split_v1", self.split(Avc444Layout::V1, bytes)),
            Call::SplitV2 => ("split_v2", self.split(Avc444Layout::V2, bytes)),
        };
        format!("{name} {} x {}: {answer}", self.width, self.height)
    }

    fn applied(&self, layout: Avc444Layout, bytes: &[u8]) -> String {
        let before = planes(bytes, self.place);
        let mut picture = self.picture(&before);
        let View { width, height, luma_stride, chroma_stride, place } = self.view;
        let [y, u, v] = planes(bytes, place);
        let view = Yuv420Frame::new(width, height, y, luma_stride.into(), u, v, chroma_stride.into())
            .expect("a view of a sample is accepted");
        let rects: Vec<_> = self.rects.iter().copied().map(exclusive).collect();
        picture.apply_auxiliary_view(layout, &view, &rects);
        let [y, u, v] = before;
        let after = probe::planes(&picture);
        checksums([written(y, after[0]), written(u, after[1]), written(v, after[2])])
    }

    fn split(&self, layout: Avc444Layout, bytes: &[u8]) -> String {
        let picture = self.picture(&planes(bytes, self.place));
        let (main, auxiliary) = picture.split(layout).expect("a picture of a sample is not too large");
        let outputs = |view| checksums(rows_of(view).map(|plane| written(vec![BEFORE; PLANE], &plane)));
        let (width, height) = (main.width(), main.height());
        format!("{width} x {height}, main {}, auxiliary {}", outputs(&main), outputs(&auxiliary))
    }
}

/// Sizes below, at and above whole blocks of 2 and of 16; 33 to 35 have an odd number of macroblocks, and so have those to 16.
const SIZES: [(u16, u16); 16] = [
    (0, 5),
    (5, 0),
    (1, 1),
    (2, 2),
    (3, 5),
    (8, 7),
    (15, 16),
    (16, 16),
    (16, 17),
    (17, 15),
    (20, 34),
    (32, 9),
    (33, 31),
    (34, 20),
    (35, 35),
    (33, 33),
];

fn cases(random: &mut Random) -> Vec<Case> {
    let mut cases = Vec::new();
    for call in [Call::ApplyV1, Call::ApplyV2] {
        for size in SIZES {
            applied(&mut cases, call, size, random);
        }
    }
    for call in [Call::SplitV1, Call::SplitV2] {
        for width in [0, 1, 15, 16, 17, 33, 35] {
            for height in [0, 1, 16, 17, 33] {
                let place = any_place(random);
                cases.push(Case { call, width, height, place, view: View::default(), rects: vec![] });
            }
        }
    }
    cases
}

fn any_place(random: &mut Random) -> u16 {
    random.between(0, LAST) as u16
}

fn up_to(most: u16, random: &mut Random) -> u16 {
    random.between(0, most.into()) as u16
}

/// Views as large as the picture, padded to 16, cropped from that by 1 to 15, and of any size; the whole picture, odd edges, the whole
/// plane and more, and lists of none to three rectangles.
fn applied(cases: &mut Vec<Case>, call: Call, (width, height): (u16, u16), random: &mut Random) {
    let padded = (width.next_multiple_of(16), height.next_multiple_of(16));
    for turn in 0..11 {
        let mut crop = |most: u16| most.saturating_sub(1 + up_to(14, random));
        let (view_width, view_height) = match turn {
            0 | 1 => (width, height),
            2..=4 => padded,
            5 => (crop(padded.0), padded.1),
            6 => (padded.0, crop(padded.1)),
            7 | 8 => (crop(padded.0), crop(padded.1)),
            _ => (up_to(48, random), up_to(48, random)),
        };
        let view = View {
            width: view_width,
            height: view_height,
            luma_stride: view_width.max(padded.0) + up_to(7, random),
            chroma_stride: view_width.max(padded.0).div_ceil(2) + up_to(7, random),
            place: any_place(random),
        };
        let rects = match turn {
            0 | 2 | 5 | 6 => vec![[0, 0, width, height]],
            3 => vec![[1, 1, width, height]],
            7 | 9 => vec![[0, 0, u16::MAX, u16::MAX]],
            _ => (0..random.between(0, 3)).map(|_| any_rect(width, height, random)).collect(),
        };
        cases.push(Case { call, width, height, place: any_place(random), view, rects });
    }
}
