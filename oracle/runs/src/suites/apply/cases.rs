//! The cases of every apply call: pictures to 49 by 49, every kind of view, every kind of rectangle, and refusals.

use super::case::{Call, Case, Sources};
use super::named;
use crate::ours::Size;
use crate::random::Random;
use crate::run::Run;
use crate::suites::lists;
use crate::suites::{lengths, pictures, views};

/// What `every` makes, in words.
pub const ABOUT: &str =
    "systematic: pictures to 49 by 49; every left modulo 4, top modulo 16, and parity of right and bottom, with views that are
padded, exact or cropped; views cropped by 1 to 15 in each direction, and unrelated in size; rectangles that are empty,
reversed or off the picture; lists of 0 to 24 numbers; too short planes and maps, too narrow strides, and both; widths and left edges
about 512 and 1,024
named: the worked rectangles of a 5x5 picture; (1,0,33,16), (0,1,64,17), (0,8,64,24) and left = 2, each of which FreeRDP
gets wrong in some combine; widths 20, 34 and 62; the whole frame; the kinds of call behind CVE-2023-40188, CVE-2026-29774
and CVE-2026-33986: a view that ends before its rows or the rectangle, rectangles outside the frame, dimensions that disagree
random: larger pictures, to 65,535 wide or high, with any view";

/// Every case of an apply call.
pub fn every(run: &mut Run, call: &'static Call) {
    let sources = Sources::new();
    named::every(run, call, &sources);
    for width in 0..=49 {
        for height in 0..=49 {
            let small = Small { call, sources: &sources, size: Size { width, height } };
            small.every(run);
        }
    }
    wide(run, call, &sources);
    while run.more() {
        random_case(run, call, &sources);
    }
}

/// What `by_width` makes, in words.
pub const ABOUT_WIDTHS: &str =
    "the original applies the view, which is made W wide, to the picture, whose planes are made W wide; what the view has not is kept
systematic: the cases of apply_main_view for widths to 81 and heights 0, 1, 5 and 18, with views padded to a multiple of 32 and cropped
by 1 to 31
named: those of apply_main_view; widths about 65,505, where W is 65,536
random: those of apply_main_view";

/// The same of the rule Exact.
pub const ABOUT_EXACT: &str =
    "the original applies the view, whose rows are laid out anew as the 16 rule has them; what the view has not is kept
the cases of apply_auxiliary_v2_32, with views padded to a multiple of 16 and cropped by 1 to 15";

/// Every case of a call by the 32 rule, or by the rule Exact: more widths, and fewer heights, which are to it what they are to the others.
pub fn by_width(run: &mut Run, call: &'static Call) {
    let sources = Sources::new();
    named::every(run, call, &sources);
    far(run, call, &sources);
    for width in 0..=81 {
        for height in [0, 1, 5, 18] {
            let small = Small { call, sources: &sources, size: Size { width, height } };
            small.every(run);
        }
    }
    wide(run, call, &sources);
    while run.more() {
        random_case(run, call, &sources);
    }
}

/// What `strict` makes, in words.
pub const ABOUT_STRICT: &str = "the original applies a list that is sound; any other is to be refused with 12, whole
systematic: the cases of apply_main_view for widths and heights of 0 to 3, 5, about 16 and 32, and 48; 144 rectangles of each picture whose
edges are just sound and just not, alone and as one of three; lists of up to six sound ones
named: those of apply_main_view
random: those of apply_main_view, half of the lists sound or but for one";

/// Every case of a strict call: fewer sizes, and lists at the edge of what is sound.
pub fn strict(run: &mut Run, call: &'static Call) {
    const SIDES: [u16; 12] = [0, 1, 2, 3, 5, 15, 16, 17, 31, 32, 33, 48];
    let sources = Sources::new();
    named::every(run, call, &sources);
    for width in SIDES {
        for height in SIDES {
            let small = Small { call, sources: &sources, size: Size { width, height } };
            small.every(run);
            small.just_sound(run);
        }
    }
    wide(run, call, &sources);
    while run.more() {
        random_case(run, call, &sources);
    }
}

/// The widest pictures, with views that end before V begins and after it, and at the last column.
fn far(run: &mut Run, call: &'static Call, sources: &Sources) {
    for width in [65_503, 65_504, 65_505, 65_520, 65_535] {
        for view_width in [65_535, 65_520, 65_505, 65_504, 40_000, 32_769, 32_768] {
            let picture = pictures::Mapped::exact(width, 2);
            let case = Case::new(call, sources, picture, u64::from(width), views::Sizes::tight(view_width, 2));
            case.check(run, &lists::whole(picture.size()));
            case.check(run, &[width - 9, 0, 65_535, 65_535]);
        }
    }
}

/// Widths and left edges about 512 and 1,024: long rows may be written in parts.
fn wide(run: &mut Run, call: &'static Call, sources: &Sources) {
    for width in (509..=517).chain(1021..=1029) {
        let small = Small { call, sources, size: Size { width, height: 3 } };
        let cropped = [1, 2, 3, 4, 5, 8, 15].map(|right| small.padded().cropped(right, 0));
        for view in [small.padded(), views::Sizes::tight(width, 3)].into_iter().chain(cropped) {
            let case = small.with(view);
            for left in (0..8).chain(508..=516) {
                (0..4).for_each(|right| case.check(run, &[left, 1, width - right, 3]));
            }
        }
    }
}

/// A picture of the systematic cases.
pub struct Small<'a> {
    pub call: &'static Call,
    pub sources: &'a Sources,
    pub size: Size,
}

impl<'a> Small<'a> {
    fn with(&self, view: views::Sizes) -> Case<'a> {
        let Size { width, height } = self.size;
        let place = u64::from(width) * 50 + u64::from(height);
        Case::new(self.call, self.sources, pictures::Mapped::exact(width, height), place, view)
    }

    fn every(&self, run: &mut Run) {
        self.edges(run);
        self.crops(run);
        self.unrelated(run);
        self.lists(run);
        if pictures::is_about_16(self.size) {
            self.refusals(run);
        }
    }

    /// Whole macroblocks, in pairs by the 32 rule.
    fn padded(&self) -> views::Sizes {
        views::Sizes::padded(self.size.width.next_multiple_of(self.call.unit), self.size.height)
    }

    /// Each residue of the edges, and the odd rectangles, with views that are padded, exact and cropped.
    fn edges(&self, run: &mut Run) {
        let Size { width, height } = self.size;
        let views =
            [self.padded(), views::Sizes::tight(width, height), self.padded().cropped(1 + width % 15, 1 + height % 15)];
        let cases = views.map(|view| self.with(view));
        for left in 0..4 {
            for top in 0..16 {
                for (right, bottom) in [(0, 0), (0, 1), (1, 0), (1, 1)] {
                    let rect = [left, top, width.saturating_sub(right), height.saturating_sub(bottom)];
                    cases.iter().for_each(|case| case.check(run, &rect));
                }
            }
        }
        for rect in lists::odd_ones(self.size) {
            cases.iter().for_each(|case| case.check(run, &rect));
        }
    }

    /// Views cropped by 1 to 15 in each direction, or to 31 by the 32 rule: the whole picture, or any rectangle.
    fn crops(&self, run: &mut Run) {
        for right in 1..self.call.unit {
            for below in 1..=15 {
                let rect = match (right + below) % 3 {
                    0 => lists::any_rect(&mut run.random, self.size),
                    _ => lists::whole(self.size),
                };
                self.with(self.padded().cropped(right, below)).check(run, &rect);
            }
        }
    }

    /// Views whose size has nothing to do with the picture's.
    fn unrelated(&self, run: &mut Run) {
        for (width, height) in [(0, 0), (0, 20), (20, 0), (1, 1), (7, 90), (90, 7), (90, 90)] {
            let case = self.with(views::Sizes::tight(width, height));
            case.check(run, &lists::whole(self.size));
            let list = lists::anyhow(&mut run.random, self.size, 8);
            case.check(run, &list);
        }
    }

    /// Lists of every length to six rectangles; those that are no multiple of 4 are refused.
    fn lists(&self, run: &mut Run) {
        let case = self.with(self.padded());
        for numbers in 0..=24 {
            let list = lists::anyhow(&mut run.random, self.size, numbers);
            case.check(run, &list);
        }
        let [left, top, right, bottom] = lists::whole(self.size);
        case.check(run, &[left, top, right, bottom, left, top, right, bottom]);
    }

    /// Rectangles whose edges are just sound and just not, alone and among two that are sound; and lists of sound ones.
    pub fn just_sound(&self, run: &mut Run) {
        let case = self.with(self.padded());
        for (turn, rect) in lists::about_sound(self.size).enumerate() {
            case.check(run, &rect);
            let mut list = lists::sound(&mut run.random, self.size, 2);
            let place = (4 * (turn % 3)).min(list.len());
            list.splice(place..place, rect);
            case.check(run, &list);
        }
        for rects in 0..=6 {
            let list = lists::sound(&mut run.random, self.size, rects);
            case.check(run, &list);
        }
    }

    /// All that is refused, alone and together.
    fn refusals(&self, run: &mut Run) {
        let Size { width, height } = self.size;
        for picture in pictures::Mapped::exact(width, height).all_lengths() {
            for view in bad_views(self.padded()) {
                let case = Case::new(self.call, self.sources, picture, 3, view);
                let rect = lists::whole(self.size);
                case.check(run, &rect);
                case.check(run, &rect[..3]);
            }
        }
    }
}

/// A view that is right, too narrow, too short, or both.
fn bad_views(right: views::Sizes) -> Vec<views::Sizes> {
    let short = |plane: usize, view: views::Sizes| {
        let mut lengths = view.lengths;
        lengths[plane] = lengths::changed(lengths[plane], 1);
        views::Sizes { lengths, ..view }
    };
    let narrow_luma = views::Sizes { luma_stride: right.luma_stride.saturating_sub(1), ..right };
    let narrow_chroma = views::Sizes { chroma_stride: right.chroma_stride.saturating_sub(1), ..right };
    let wrapping = views::Sizes { luma_stride: usize::MAX, ..right };
    let shorts = (0..3).map(|plane| short(plane, right));
    shorts
        .chain([right, narrow_luma, narrow_chroma, short(0, narrow_luma), short(2, narrow_chroma), wrapping])
        .collect()
}

fn random_case(run: &mut Run, call: &'static Call, sources: &Sources) {
    let picture = random_picture(&mut run.random);
    let view = random_view(&mut run.random, picture.size());
    let place = run.random.between(0, 999_999);
    let case = Case::new(call, sources, picture, place, view);
    for _ in 0..2 {
        let numbers = match run.random.between(0, 19) {
            0 => run.random.between(0, 40),
            _ => 4 * run.random.between(0, 6),
        };
        let list = match call.strict && run.random.between(0, 1) == 0 {
            true => nearly_sound(&mut run.random, picture.size()),
            false => lists::anyhow(&mut run.random, picture.size(), numbers as usize),
        };
        case.check(run, &list);
    }
}

/// A list of sound rectangles, or of all but one.
fn nearly_sound(random: &mut Random, size: Size) -> Vec<u16> {
    let rects = random.between(0, 6) as usize;
    let mut list = lists::sound(random, size, rects);
    if random.between(0, 2) == 0 && !list.is_empty() {
        let place = 4 * random.between(0, list.len() as u64 / 4 - 1) as usize;
        list[place..place + 4].copy_from_slice(&lists::any_rect(random, size));
    }
    list
}

/// Small, middling, very wide or very high.
fn random_picture(random: &mut Random) -> pictures::Mapped {
    let (most_width, most_height) = [(49, 49), (300, 300), (65_535, 16), (16, 65_535)][match random.between(0, 19) {
        0 => 2,
        1 => 3,
        2..=9 => 1,
        _ => 0,
    }];
    let exact = pictures::Mapped::exact(random.between(0, most_width) as u16, random.between(0, most_height) as u16);
    match random.between(0, 19) {
        0 => exact.all_lengths().nth(random.between(1, pictures::Mapped::WAYS - 1) as usize).expect("one of its ways"),
        _ => exact,
    }
}

/// A view of about the picture's size, or any.
fn random_view(random: &mut Random, Size { width, height }: Size) -> views::Sizes {
    let mut about =
        |length: u16| length.saturating_add(random.between(0, 20) as u16).saturating_sub(random.between(0, 20) as u16);
    let (about_width, about_height) = (about(width), about(height));
    match random.between(0, 3) {
        0 => views::anyhow(random),
        _ => views::Sizes::exact(
            about_width,
            about_height,
            usize::from(about_width) + random.between(0, 9) as usize,
            usize::from(about_width.div_ceil(2)) + random.between(0, 9) as usize,
        ),
    }
}
