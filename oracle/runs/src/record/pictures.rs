//! `replay_picture`: pictures from RGBA as the original makes them and with the edge filled, both conversions to RGBA, and main views
//! applied.
//!
//! A case of the input is 22 numbers of two bytes, little-endian: the call, a picture's width, height and seed, a view's width, height,
//! luma stride, chroma stride and seed, the count of rectangles, and three rectangles. Bytes come from a seed x: for each byte x becomes
//! (75 x + 74) % 65537, and the byte is x % 256. Of a view, Y has the seed, U the seed + 83 and V the seed + 167.

use std::fmt::Write;

use original::avc444::{probe, Yuv444Frame};
use original::decode::Yuv420Frame;
use original::ExclusiveRectangle;

use super::{checksum, two, Sample};
use crate::ours::Size;
use crate::random::Random;
use crate::suites::from_rgba::filled;

/// Bytes of pixels, and of each plane of a view: as many as any case reads, or more.
const PIXELS: usize = 8192;
const PLANE: usize = 4096;

#[derive(Clone, Copy)]
enum Call {
    FromRgbaRust,
    ToRgba,
    ViewToRgba,
    MainOnFresh,
    MainOnPainted,
    FromRgba,
}

#[derive(Clone, Copy, Default)]
struct View {
    width: u16,
    height: u16,
    luma_stride: usize,
    chroma_stride: usize,
    seed: u16,
}

/// Left, top, right, bottom.
pub type Rect = [u16; 4];

struct Case {
    call: Call,
    width: u16,
    height: u16,
    seed: u16,
    view: View,
    rects: Vec<Rect>,
}

pub fn sample(seed: u64) -> Sample {
    let cases = cases(&mut Random::new(seed, "replay_picture"));
    let mut sample = Sample { name: "replay_picture", cases: cases.len(), input: Vec::new(), output: String::new() };
    for (index, case) in cases.iter().enumerate() {
        sample.input.extend(case.record());
        writeln!(sample.output, "{index}: {}", case.answer()).expect("a string takes all that is written");
    }
    sample
}

fn bytes(seed: usize, count: usize) -> Vec<u8> {
    let mut x = seed;
    let next = |_| {
        x = (75 * x + 74) % 65537;
        (x % 256) as u8
    };
    (0..count).map(next).collect()
}

pub fn exclusive([left, top, right, bottom]: Rect) -> ExclusiveRectangle {
    ExclusiveRectangle { left, top, right, bottom }
}

/// A count of RGBA bytes, and their checksum.
fn pixels(rgba: &[u8]) -> String {
    format!("{} {:08x}", rgba.len(), checksum(rgba))
}

fn planes(picture: &Yuv444Frame) -> String {
    checksums(probe::planes(picture))
}

fn checksums(planes: [&[u8]; 3]) -> String {
    let [y, u, v] = planes.map(checksum);
    format!("y {y:08x} u {u:08x} v {v:08x}")
}

impl View {
    /// A view whose strides are its widths and so many bytes more.
    fn wider(width: u16, height: u16, luma: u64, chroma: u64, random: &mut Random) -> Self {
        let luma_stride = usize::from(width) + luma as usize;
        let chroma_stride = usize::from(width.div_ceil(2)) + chroma as usize;
        Self { width, height, luma_stride, chroma_stride, seed: seed(random) }
    }

    fn made(&self) -> Yuv420Frame {
        let plane = |more| bytes(usize::from(self.seed) + more, PLANE);
        Yuv420Frame::new(self.width, self.height, plane(0), self.luma_stride, plane(83), plane(167), self.chroma_stride)
            .expect("a view of a sample is accepted")
    }
}

impl Case {
    /// A case that has no view.
    fn without_view(call: Call, (width, height): (u16, u16), rects: Vec<Rect>, random: &mut Random) -> Self {
        Self { call, width, height, seed: seed(random), view: View::default(), rects }
    }

    fn record(&self) -> Vec<u8> {
        let view = self.view;
        let head = [self.call as u16, self.width, self.height, self.seed, view.width, view.height].map(usize::from);
        let rest = [view.luma_stride, view.chroma_stride, usize::from(view.seed), self.rects.len()];
        let mut rects = self.rects.concat();
        rects.resize(12, 0);
        let rects = rects.into_iter().map(usize::from);
        head.into_iter().chain(rest).chain(rects).flat_map(two).collect()
    }

    /// The picture of pixels that the seed decides.
    fn painted(&self) -> Yuv444Frame {
        Yuv444Frame::from_rgba(&bytes(usize::from(self.seed), PIXELS), self.width, self.height)
            .expect("the pixels of a sample are enough")
    }

    /// The planes of the same pixels with the edge filled, of the original's making.
    fn filled(&self) -> [Vec<u8>; 3] {
        let size = Size { width: self.width, height: self.height };
        filled::planes(&bytes(usize::from(self.seed), PIXELS), size).expect("the pixels of a sample are enough")
    }

    /// What the original answers.
    fn answer(&self) -> String {
        let Self { width, height, view, .. } = *self;
        match self.call {
            Call::FromRgbaRust => format!("from_rgba_rust {width} x {height}: {}", planes(&self.painted())),
            Call::FromRgba => {
                let filled = self.filled();
                format!("from_rgba {width} x {height}: {}", checksums(filled.each_ref().map(Vec::as_slice)))
            }
            Call::ToRgba => {
                let (picture, rect) = (self.painted(), exclusive(self.rects[0]));
                let [u, v] = probe::filtered(&picture, &rect);
                format!("to_rgba {width} x {height}: {}, filtered {u} {v}", pixels(&picture.to_rgba(&rect)))
            }
            Call::ViewToRgba => {
                let rgba = view.made().to_rgba();
                format!("view_to_rgba {} x {}: {}", view.width, view.height, pixels(rgba.data()))
            }
            Call::MainOnFresh => self.applied(Yuv444Frame::new(width, height)),
            Call::MainOnPainted => self.applied(self.painted()),
        }
    }

    fn applied(&self, mut picture: Yuv444Frame) -> String {
        let rects: Vec<_> = self.rects.iter().copied().map(exclusive).collect();
        picture.apply_main_view(&self.view.made(), &rects);
        format!("apply_main_view {} x {}: {}", self.width, self.height, planes(&picture))
    }
}

/// Sizes below, at and above whole blocks of 2 and of 16.
const SIZES: [(u16, u16); 12] =
    [(1, 1), (2, 2), (3, 5), (5, 5), (8, 7), (15, 16), (16, 16), (16, 17), (17, 15), (32, 9), (33, 31), (33, 33)];

fn cases(random: &mut Random) -> Vec<Case> {
    let mut cases = Vec::new();
    painted(&mut cases, Call::FromRgbaRust, random);
    converted(&mut cases, random);
    views(&mut cases, random);
    applied(&mut cases, random);
    painted(&mut cases, Call::FromRgba, random);
    cases
}

fn seed(random: &mut Random) -> u16 {
    random.between(0, u64::from(u16::MAX)) as u16
}

fn up_to(most: u16, random: &mut Random) -> u16 {
    random.between(0, u64::from(most)) as u16
}

/// Edges up to three past the picture: of four rectangles one has them as they come, so that many of these are empty, reversed or off it.
pub fn any_rect(width: u16, height: u16, random: &mut Random) -> Rect {
    let [left, top, right, bottom] = [width, height, width, height].map(|most| up_to(most + 3, random));
    if random.between(0, 3) == 0 {
        [left, top, right, bottom]
    } else {
        [left.min(right), top.min(bottom), left.max(right), top.max(bottom)]
    }
}

/// Each size of 0 to 8, and sizes up to 33.
fn painted(cases: &mut Vec<Case>, call: Call, random: &mut Random) {
    let small = (0..=8).flat_map(|width| (0..=8).map(move |height| (width, height)));
    let large = [(9, 16), (16, 33), (33, 1), (1, 33), (31, 32), (32, 32), (33, 0), (0, 33), (24, 20)];
    for size in small.chain(SIZES).chain(large) {
        cases.push(Case::without_view(call, size, vec![], random));
    }
}

/// The whole picture and more, its edges and corners, rectangles that are empty, reversed or off it, and any.
fn converted(cases: &mut Vec<Case>, random: &mut Random) {
    for (width, height) in [(0, 0), (0, 5), (5, 0)].into_iter().chain(SIZES) {
        let (last, lowest) = (width.saturating_sub(1), height.saturating_sub(1));
        let mut rects = vec![
            [0, 0, width, height],
            [1, 1, width, height],
            [0, 0, u16::MAX, u16::MAX],
            [last, lowest, width + 1, height + 1],
            [width, 0, width + 4, height],
            [0, height, width, height + 4],
            [width, height, 0, 0],
            [last, 0, last, height],
            [0, lowest, width, lowest],
            [u16::MAX, u16::MAX, u16::MAX, u16::MAX],
        ];
        rects.extend((0..9).map(|_| any_rect(width, height, random)));
        for rect in rects {
            cases.push(Case::without_view(Call::ToRgba, (width, height), vec![rect], random));
        }
    }
}

/// Each size of 0 to 5 with strides that are its widths, and sizes up to 33 with wider ones.
fn views(cases: &mut Vec<Case>, random: &mut Random) {
    let mut add = |view| cases.push(Case { call: Call::ViewToRgba, width: 0, height: 0, seed: 0, view, rects: vec![] });
    for width in 0..=5 {
        for height in 0..=5 {
            add(View::wider(width, height, 0, 0, random));
        }
    }
    for (width, height) in SIZES {
        add(View::wider(width, height, 0, 0, random));
        let (luma, chroma) = (random.between(1, 20), random.between(1, 10));
        add(View::wider(width, height, luma, chroma, random));
    }
}

/// Views as large as the picture, larger and smaller; lists of none to three rectangles, the whole picture and any.
fn applied(cases: &mut Vec<Case>, random: &mut Random) {
    for call in [Call::MainOnFresh, Call::MainOnPainted] {
        for (width, height) in [(0, 0), (0, 5), (5, 0)].into_iter().chain(SIZES) {
            for turn in 0..7 {
                let (view_width, view_height) = match turn {
                    0 | 1 => (width, height),
                    2 | 3 => (width.next_multiple_of(16), height.next_multiple_of(16)),
                    _ => (up_to(width + 2, random), up_to(height + 2, random)),
                };
                let (luma, chroma) = (random.between(0, 7), random.between(0, 7));
                let view = View::wider(view_width, view_height, luma, chroma, random);
                let rects = match turn {
                    0 | 2 => vec![[0, 0, width, height]],
                    4 => vec![[0, 0, u16::MAX, u16::MAX]],
                    _ => (0..random.between(0, 3)).map(|_| any_rect(width, height, random)).collect(),
                };
                cases.push(Case { call, width, height, seed: seed(random), view, rects });
            }
        }
    }
}
