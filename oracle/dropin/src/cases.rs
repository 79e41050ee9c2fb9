//! Which cases are run: every size from 0 to 49 by 0 to 49, large and extreme ones, payloads, and then random ones.

use crate::case::{Case, Layout, Picture, Planes, Rect, Step, View};
use crate::random::Random;

/// What `all` makes, in words.
pub const ABOUT: &str = "  pictures of every size from 0 x 0 to 49 x 49, for both layouts and for views that are as large as the padded picture,
  cropped to the picture, and cropped further: the views of another picture over lists of whole, odd, empty, reversed and
  distant rectangles, each step's planes compared
  large pictures, and sides about 65,520
  views of every size from 0 x 0 to 49 x 49, strides and planes exact, too large and too small
  payloads of 0 to 5 bytes 0, 1, 2 or 255, and of units about 255 and 511 bytes long, cut
  errors, frames, sizes
  random: all of these";

/// The largest side of the pictures and views of which every size is run.
const SIDES: u16 = 49;

/// Every case of a seed: those that are always run, and `count` random ones.
pub fn all(seed: u64, count: u64) -> impl Iterator<Item = Case> {
    small_pictures()
        .chain(large_pictures())
        .chain(views())
        .chain(payloads())
        .chain(odds_and_ends())
        .chain((0..count).map(move |number| anyhow(&mut Random::new(seed, &number.to_string()))))
}

fn small_sizes() -> impl Iterator<Item = (u16, u16)> {
    (0..=SIDES).flat_map(|width| (0..=SIDES).map(move |height| (width, height)))
}

fn small_pictures() -> impl Iterator<Item = Case> {
    small_sizes().flat_map(|(width, height)| {
        [Layout::V1, Layout::V2].into_iter().flat_map(move |layout| {
            (0..3).map(move |crop| {
                let cropped = |side: u16| [u16::MAX, side, side.saturating_sub(1 + side / 3)][crop];
                let (vw, vh) = (cropped(width), cropped(height));
                let list = [vec![[0, 0, width, height]], odd_edges(width, height), odd_ones(width, height)];
                let main = View::Sent { seed: 2, width: vw, height: vh };
                let auxiliary = View::Sent { seed: 2, width: vw, height: vh };
                Case::Picture(Picture {
                    width,
                    height,
                    pixels: (crop != 1).then_some((3, usize::from(width % 5))),
                    steps: vec![
                        Step::Main(main, list[crop].clone()),
                        Step::Auxiliary(layout, auxiliary, list[(crop + 1) % 3].clone()),
                        Step::Convert(list[1][0]),
                    ],
                })
            })
        })
    })
}

/// Rectangles inside a picture whose edges are odd, where it is large enough.
fn odd_edges(width: u16, height: u16) -> Vec<Rect> {
    let (right, bottom) = (width.saturating_sub(1) | 1, height.saturating_sub(1) | 1);
    vec![[1, 1, right, bottom], [(width / 2) | 1, 0, right, height / 3], [0, (height / 2) | 1, width / 4, bottom]]
}

/// Empty and reversed rectangles, and such as lie partly or wholly off each edge of a picture.
fn odd_ones(w: u16, h: u16) -> Vec<Rect> {
    let after = u16::saturating_add;
    let (last_col, last_row) = (w.saturating_sub(1), h.saturating_sub(1));
    vec![
        [0, 0, w, 0],
        [1, 0, 1, h],
        [w, h, 0, 0],
        [3, 5, 2, 9],
        [2, 5, 9, 4],
        [w, 0, w, h],
        [0, h, w, h],
        [w, 0, after(w, 1), h],
        [last_col, last_row, after(w, 3), after(h, 3)],
        [after(w, 1), after(h, 1), after(w, 2), after(h, 2)],
        [65_534, 65_534, 65_535, 65_535],
        [65_535, 65_535, 0, 0],
        [w / 2, h / 2, 65_535, 65_535],
    ]
}

fn large_pictures() -> impl Iterator<Item = Case> {
    let split = [(1920, 1080), (1366, 768), (1021, 769), (65_520, 1), (1, 65_520), (4096, 17), (2000, 0), (0, 2000)];
    let others = [(65_521, 0), (0, 65_521), (65_521, 1), (1, 65_535), (65_535, 2)];
    let sent = split.into_iter().map(|(width, height)| {
        let view = || View::Sent { seed: 5, width, height };
        let list = odd_ones(width, height);
        let steps = vec![
            Step::Main(view(), vec![[1, 0, width, height]]),
            Step::Auxiliary(Layout::V1, view(), list.clone()),
            Step::Auxiliary(Layout::V2, view(), vec![[0, 3, width / 2, height]]),
            Step::Convert([1, 1, width / 2, height / 2 + 1]),
        ];
        Case::Picture(Picture { width, height, pixels: Some((6, 0)), steps })
    });
    let noise = others.into_iter().map(|(width, height)| {
        let view = |seed| View::Noise(Planes::exact(width, height, width.into(), width.div_ceil(2).into(), seed));
        let whole = vec![[0, 0, width, height]];
        let steps = vec![
            Step::Main(view(7), whole.clone()),
            Step::Auxiliary(Layout::V1, view(8), whole.clone()),
            Step::Auxiliary(Layout::V2, view(9), whole),
        ];
        Case::Picture(Picture { width, height, pixels: None, steps })
    });
    sent.chain(noise)
}

fn views() -> impl Iterator<Item = Case> {
    let tried = |(width, height): (u16, u16)| {
        let (luma, chroma) = (usize::from(width), usize::from(width.div_ceil(2)));
        let exact = Planes::exact(width, height, luma, chroma, 10);
        let wide = Planes::exact(width, height, luma + 3, chroma + 16, 11);
        let narrow = [
            Planes { luma_stride: luma.wrapping_sub(1), ..exact.clone() },
            Planes { chroma_stride: chroma.wrapping_sub(1), ..exact.clone() },
        ];
        let short = [0, 1, 2].map(|plane| {
            let mut planes = wide.clone();
            planes.lengths[plane] = planes.lengths[plane].saturating_sub(1);
            planes
        });
        [exact, wide].into_iter().chain(narrow).chain(short).map(Case::View)
    };
    small_sizes().flat_map(tried)
}

fn payloads() -> impl Iterator<Item = Case> {
    let strings = (0..=5).flat_map(|length| {
        (0..4_u32.pow(length))
            .map(move |number| (0..length).map(|digit| [0, 1, 2, 255][(number >> (2 * digit) & 3) as usize]).collect())
    });
    let lengths = [0, 1, 2, 255, 256, 511, 512];
    let units = lengths.into_iter().flat_map(move |first| lengths.map(|second| units(&[first, second])));
    let cut = units.flat_map(|whole: Vec<u8>| {
        let cuts = [0, 1, 4, 5, whole.len() / 2];
        cuts.map(|cut| whole[..whole.len().saturating_sub(cut)].to_vec())
    });
    strings.chain(cut).map(|data| Case::Payload { data, before: vec![9; 7] })
}

/// Lengths, and units of that many bytes, or of 3,000 if that is more.
fn units(lengths: &[u32]) -> Vec<u8> {
    let mut data = Vec::new();
    for &length in lengths {
        data.extend(length.to_be_bytes());
        data.extend((0..length.min(3000)).map(|place| (place * 7) as u8));
    }
    data
}

fn odds_and_ends() -> impl Iterator<Item = Case> {
    let texts = ["", "no picture", "a \"quoted\" line\nand another"];
    let errors = texts.map(|text| Case::Error(text.to_owned()));
    let frames = [(0, 0, 0), (4, 1, 1), (3, 1, 1), (0, 7, 0), (24, 3, 2), (25, 3, 2), (8, u32::MAX, u32::MAX)];
    let frames = frames.map(|(length, width, height)| Case::Frame { length, width, height });
    let sides = [0, 1, 15, 16, 17, 49, 65_519, 65_520, 65_521, 65_535];
    let sizes = sides.into_iter().flat_map(move |width| {
        sides.into_iter().flat_map(move |height| {
            let pixels = (usize::from(width) * usize::from(height) * 4).min(20_000);
            [0, pixels.saturating_sub(1), pixels, pixels + 9].map(|rgba| Case::Sizes { width, height, rgba })
        })
    });
    errors.into_iter().chain(frames).chain(sizes)
}

fn anyhow(random: &mut Random) -> Case {
    match random.between(0, 9) {
        0 => any_payload(random),
        1 | 2 => Case::View(any_planes(random, 60, false)),
        3 => {
            let (width, height) = (any_u16(random, 300), any_u16(random, 300));
            Case::Sizes { width, height, rgba: random.between(0, 100_000) as usize }
        }
        _ => any_picture(random),
    }
}

fn any_u16(random: &mut Random, most: u16) -> u16 {
    random.between(0, most.into()) as u16
}

fn any_picture(random: &mut Random) -> Case {
    let (mut width, mut height) = match random.between(0, 49) {
        0 => (any_u16(random, 3000), any_u16(random, 20)),
        1..=9 => (any_u16(random, 200), any_u16(random, 200)),
        _ => (any_u16(random, SIDES), any_u16(random, SIDES)),
    };
    if random.between(0, 1) == 0 {
        (width, height) = (height, width);
    }
    let pixels = (random.between(0, 3) > 0).then(|| (random.number(), random.between(0, 9) as usize));
    let steps = (0..random.between(1, 6)).map(|_| any_step(random, width, height)).collect();
    Case::Picture(Picture { width, height, pixels, steps })
}

fn any_step(random: &mut Random, width: u16, height: u16) -> Step {
    let kind = random.between(0, 7);
    if kind == 0 {
        return Step::Convert(any_rect(random, width, height));
    }
    let view = any_view(random, width, height);
    let rects = (0..random.between(0, 6)).map(|_| any_rect(random, width, height)).collect();
    match kind {
        1..=3 => Step::Main(view, rects),
        4 | 5 => Step::Auxiliary(Layout::V1, view, rects),
        _ => Step::Auxiliary(Layout::V2, view, rects),
    }
}

fn any_view(random: &mut Random, width: u16, height: u16) -> View {
    let cropped = |random: &mut Random, side: u16| match random.between(0, 3) {
        0 => u16::MAX,
        1 => any_u16(random, side),
        _ => side,
    };
    if random.between(0, 1) == 0 {
        View::Sent { seed: random.number(), width: cropped(random, width), height: cropped(random, height) }
    } else {
        View::Noise(any_planes(random, width.max(height) + 20, true))
    }
}

/// The planes of a view that is whole or, unless it has to be, perhaps not.
fn any_planes(random: &mut Random, most: u16, whole: bool) -> Planes {
    let (width, height) = (any_u16(random, most), any_u16(random, most));
    let more = |random: &mut Random| random.between(0, 2) as usize * random.between(0, 20) as usize;
    let (luma, chroma) = (usize::from(width) + more(random), usize::from(width.div_ceil(2)) + more(random));
    let mut planes = Planes::exact(width, height, luma, chroma, random.number());
    for length in &mut planes.lengths {
        *length += more(random);
    }
    if !whole {
        match random.between(0, 9) {
            0 => planes.luma_stride = random.between(0, 2 * u64::from(width)) as usize,
            1 => planes.chroma_stride = random.between(0, u64::from(width)) as usize,
            2 => planes.luma_stride = random.number() as usize,
            3 => planes.chroma_stride = random.number() as usize,
            4 => {
                let plane = &mut planes.lengths[random.between(0, 2) as usize];
                *plane = random.between(0, *plane as u64) as usize;
            }
            _ => {}
        }
    }
    planes
}

/// A rectangle that mostly meets the picture, and seldom is reversed or far off.
fn any_rect(random: &mut Random, width: u16, height: u16) -> Rect {
    let mut pair = |side: u16| {
        let (a, b) = (any_u16(random, side + 3), any_u16(random, side + 3));
        match random.between(0, 19) {
            0 => (a.max(b), a.min(b)),
            1 => (a, u16::MAX),
            2 => (any_u16(random, u16::MAX), any_u16(random, u16::MAX)),
            3 => (a, a),
            _ => (a.min(b), a.max(b)),
        }
    };
    let ((left, right), (top, bottom)) = (pair(width), pair(height));
    [left, top, right, bottom]
}

fn any_payload(random: &mut Random) -> Case {
    let length = |random: &mut Random| match random.between(0, 9) {
        0 => random.number() as u32,
        1 => [255, 256, 511, 512][random.between(0, 3) as usize],
        _ => random.between(0, 400) as u32,
    };
    let lengths: Vec<u32> = (0..random.between(0, 12)).map(|_| length(random)).collect();
    let mut data = units(&lengths);
    if random.between(0, 1) == 0 {
        data.truncate(random.between(0, data.len() as u64) as usize);
    }
    Case::Payload { data, before: vec![9; random.between(0, 5000) as usize] }
}
