//! The calls one after the other: pixels to a picture, split, both views into a fresh picture, and back to pixels.
//!
//! Ours goes through the library from the pixels on, the original through itself. The original has no map: of views that have all samples, the
//! whole picture's blocks are to be complete after both, and those of the padding as they were; of cropped ones it is by the rules (`map.rs`).

use original::avc444::{probe, Avc444Layout, Yuv444Frame};
use original::decode::Yuv420Frame;

use super::map::{self, Applied, Kind, COMPLETE, NEVER, STALE};
use super::noise::{Noise, LONGEST};
use super::pictures::{Mapped, Planes, Sizes};
use super::split::Outputs;
use super::to_rgba::shown::{Counts, Shown};
use super::views::rows_of;
use super::{lists, Suite};
use crate::ours::{self, Size, View, Views};
use crate::outcome::{Lent, Outcome};
use crate::run::Run;

pub const SUITE: Suite = Suite {
    name: "round_trip",
    about: "pixels to a picture, split, the main view and then the auxiliary view into a fresh picture, back to pixels
systematic: widths and heights to 49, in both layouts, with views as wide and high as the planes or as the picture, and the
auxiliary view applied never, once, and twice
named: widths 20, 34 and 62, where FreeRDP's encoder and combiner disagree; the auxiliary view twice, whose second turn changes
FreeRDP 2's planes again; V1, whose main view FreeRDP splits with U and V swapped
random: sizes to 300 by 300",
    run: every_size,
    replay,
};

const LAYOUTS: [Avc444Layout; 2] = [Avc444Layout::V1, Avc444Layout::V2];

type Splitting = fn(Size, [&[u8]; 3], [&mut [u8]; 3], [&mut [u8]; 3]) -> Views;
type Applying = fn(Size, [&mut [u8]; 4], &[u16], View<'_>) -> u32;

/// Pixels that `place` picks, and the way they go.
#[derive(Clone, Copy)]
struct Case {
    size: Size,
    place: u64,
    layout: Avc444Layout,
    /// Whether the views are cropped to the picture.
    cropped: bool,
    /// How often the auxiliary view is applied.
    times: u64,
}

fn replay(run: &mut Run, words: &[u64]) -> Result<(), String> {
    let words = <[u64; 6]>::try_from(words).map_err(|_| {
        "a case is width, height, the place of the pixels' bytes, the layout (1 or 2), whether the views are cropped (0 or 1), \
         and how often the auxiliary view is applied"
    })?;
    let [width, height, place, layout, cropped, times] = words;
    let Sizes { size, .. } = Sizes::of_words([width, height, 0, 0, 0])?;
    let layout = match layout {
        1 | 2 => LAYOUTS[layout as usize - 1],
        _ => return Err(format!("{layout} is no layout")),
    };
    if 4 * width * height > LONGEST as u64 {
        return Err(format!("{width} by {height} is too large for a case"));
    }
    Case { size, place, layout, cropped: cropped != 0, times }.check(run, &Noise::new(LONGEST));
    Ok(())
}

fn every_size(run: &mut Run) {
    let noise = Noise::new(1 << 20);
    for width in [20, 34, 62] {
        every_way(run, &noise, Size { width, height: 16 });
    }
    for width in 0..=49 {
        for height in 0..=49 {
            every_way(run, &noise, Size { width, height });
        }
    }
    while run.more() {
        let [width, height] = [0; 2].map(|_| run.random.between(0, 300) as u16);
        let layout = LAYOUTS[run.random.between(0, 1) as usize];
        let (cropped, times) = (run.random.between(0, 1) == 1, run.random.between(0, 2));
        let place = run.random.between(0, 999_999);
        Case { size: Size { width, height }, place, layout, cropped, times }.check(run, &noise);
    }
}

fn every_way(run: &mut Run, noise: &Noise, size: Size) {
    for layout in LAYOUTS {
        for cropped in [false, true] {
            for times in 0..=2 {
                let place = run.random.between(0, 999_999);
                Case { size, place, layout, cropped, times }.check(run, noise);
            }
        }
    }
}

impl Case {
    fn check(&self, run: &mut Run, noise: &Noise) {
        let Self { size: Size { width, height }, place, layout, cropped, times } = *self;
        let sizes = Mapped::exact(width, height);
        let (pixels, planes) = (noise.bytes(place, self.pixels()), Planes::new(&sizes, noise, place));
        let ours = run.ours(self.our_outcome(pixels, planes.clone()));
        run.refused(ours.outcome.number);
        run.compare(&ours, &self.their_outcome(pixels, planes), self.pixels() as u64, || {
            let layout = if layout == Avc444Layout::V1 { 1 } else { 2 };
            format!("{width} {height} {place} {layout} {} {times}", u8::from(cropped))
        });
    }

    /// How many bytes of pixels there are.
    fn pixels(&self) -> usize {
        4 * usize::from(self.size.width) * usize::from(self.size.height)
    }

    /// The planes, the map and the pixels at the end, and the first refusal on the way, of which there is to be none.
    fn our_outcome(&self, pixels: &[u8], mut planes: Planes) -> Shown {
        let (split, apply): (Splitting, Applying) = match self.layout {
            Avc444Layout::V1 => (ours::split_v1, ours::apply_auxiliary_v1),
            Avc444Layout::V2 => (ours::split_v2, ours::apply_auxiliary_v2),
        };
        let (size, list) = (self.size, lists::whole(self.size));
        let mut numbers = vec![ours::from_rgba_rust(pixels, size, planes.lent())];

        let mut outputs = Outputs::exact(&Sizes::exact(size.width, size.height)).0.map(|length| vec![0; length]);
        let [y, u, v, aux_y, aux_u, aux_v] = outputs.each_mut().map(Vec::as_mut_slice);
        let views = split(size, planes.lent_planes().map(|plane| &*plane), [y, u, v], [aux_y, aux_u, aux_v]);
        let [y, u, v, aux_y, aux_u, aux_v] = outputs.each_ref().map(Vec::as_slice);
        let (main, auxiliary) = (self.our_view(&views, [y, u, v]), self.our_view(&views, [aux_y, aux_u, aux_v]));
        numbers.push(views.number);

        numbers.push(ours::new(size, planes.lent()));
        numbers.push(ours::apply_main_view(size, planes.lent(), &list, main));
        numbers.extend((0..self.times).map(|_| apply(size, planes.lent(), &list, auxiliary)));

        let mut output = Lent::new(pixels.len());
        let answer = ours::to_rgba(size, planes.lent().map(|plane| &*plane), list, output.lent());
        numbers.push(answer.number);
        let number = numbers.into_iter().find(|&number| number != 0).unwrap_or(0);
        Shown::ours(ours::Pixels { number, ..answer }, planes.whole().into_iter().chain([output.whole()]).collect())
    }

    fn our_view<'a>(&self, views: &Views, [y, u, v]: [&'a [u8]; 3]) -> View<'a> {
        let &Views { width, height, luma_stride, chroma_stride, .. } = views;
        let Size { width, height } = if self.cropped { self.size } else { Size { width, height } };
        View { width, height, luma_stride, chroma_stride, y, u, v }
    }

    fn their_outcome(&self, pixels: &[u8], mut planes: Planes) -> Shown {
        let Size { width, height } = self.size;
        let whole = lists::original_of(lists::whole(self.size));
        let rects = std::slice::from_ref(&whole);
        let picture = Yuv444Frame::from_rgba(pixels, width, height).expect("the pixels are enough");
        let (main, auxiliary) = picture.split(self.layout).expect("the picture is not too large");
        let (main, auxiliary) = (self.their_view(main), self.their_view(auxiliary));
        let mut picture = Yuv444Frame::new(width, height);
        picture.apply_main_view(&main, rects);
        for _ in 0..self.times {
            picture.apply_auxiliary_view(self.layout, &auxiliary, rects);
        }
        planes.take(&picture);
        self.mark(planes.map());
        let stale = map::stale(planes.map(), self.size, lists::whole(self.size));
        let rgba = Outcome::written(&picture.to_rgba(&whole), Lent::new(pixels.len()));
        let outcome = Outcome { buffers: planes.whole().into_iter().chain(rgba.buffers).collect(), ..rgba };
        Shown::of(outcome, Counts { filtered: probe::filtered(&picture, &whole), stale })
    }

    /// The map after all calls, which is as long as it has to be.
    fn mark(&self, map: &mut [u8]) {
        map.fill(NEVER);
        if self.cropped {
            return self.mark_by_rules(map);
        }
        let Size { width, height } = self.size;
        let across = usize::from(width).next_multiple_of(16) / 2;
        for row in 0..usize::from(height.div_ceil(2)) {
            for column in 0..usize::from(width.div_ceil(2)) {
                map[row * across + column] = if self.times == 0 { STALE } else { COMPLETE };
            }
        }
    }

    /// The same where the views are as large as the picture, and may lack samples.
    fn mark_by_rules(&self, map: &mut [u8]) {
        let auxiliary = if self.layout == Avc444Layout::V1 { Kind::V1 } else { Kind::V2 };
        for kind in std::iter::once(Kind::Main).chain((0..self.times).map(|_| auxiliary)) {
            Applied::new(kind, self.size, self.size).mark(&lists::whole(self.size), map);
        }
    }

    fn their_view(&self, view: Yuv420Frame) -> Yuv420Frame {
        if !self.cropped {
            return view;
        }
        let Size { width, height } = self.size;
        let (luma_stride, [y, u, v]) = (usize::from(view.width()), rows_of(&view));
        Yuv420Frame::new(width, height, y, luma_stride, u, v, luma_stride / 2).expect("the planes hold more")
    }
}
