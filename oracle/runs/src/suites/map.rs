//! The map of stale colour, which the original has not: what each call makes of it, by the rules and place by place.
//!
//! A main view sets 1 where it takes any chroma of a block. An auxiliary view turns 1 into 2 where it takes the block's three other places,
//! those not of even row and even column, all in one call. Every other byte stays. What is taken is said by rules R60 to R73.
//!
//! A picture to 17 by 17 is gone through place by place for every list. Of a larger one it is worked out once, place by place, which blocks the
//! view has, and then each rectangle's blocks are gone through: there are millions of lists.

use super::lists::Rect;
use crate::ours::Size;

/// A block that never had a main view.
pub const NEVER: u8 = 0;
/// A block that had a main view, and no auxiliary view that completes it since.
pub const STALE: u8 = 1;
/// A block whose colour is whole.
pub const COMPLETE: u8 = 2;

/// Which view is applied, and by which layout its samples stand in it.
#[derive(Clone, Copy, PartialEq, Eq)]
pub enum Kind {
    Main,
    V1,
    V2,
    V2By32,
    V2Exact,
}

impl Kind {
    /// Whether a view takes what it has to take of a block, by the places that it takes: so many rows and columns after the block's first.
    #[inline]
    fn takes(self, taken: impl Fn(usize, usize) -> bool) -> bool {
        match self {
            Self::Main => taken(0, 0) || taken(0, 1) || taken(1, 0) || taken(1, 1),
            _ => taken(0, 1) && taken(1, 0) && taken(1, 1),
        }
    }

    /// What such a block is after the call.
    #[inline]
    fn state(self, before: u8) -> u8 {
        match (self, before) {
            (Self::Main, _) => STALE,
            (_, STALE) => COMPLETE,
            (_, _) => before,
        }
    }
}

/// A view that is applied to a picture.
pub struct Applied {
    kind: Kind,
    picture: Size,
    view: Samples,
    /// Of each block of a picture that is not small, whether it would be taken within an area.
    takes: Vec<bool>,
}

impl Applied {
    pub fn new(kind: Kind, picture: Size, view: Size) -> Self {
        let view = Samples::of(kind, picture, view);
        let [rows, stride] = if is_small(picture) { [0, 0] } else { padded(picture) };
        let mut takes = Vec::with_capacity(rows / 2 * (stride / 2));
        for top in (0..rows).step_by(2) {
            let of_block = |left: usize| kind.takes(|down, right| view.has(top + down, left + right));
            takes.extend((0..stride / 2).map(|column| of_block(2 * column)));
        }
        Self { kind, picture, view, takes }
    }

    /// What the call with a list of rectangles makes of the map. Bytes after the map stay.
    pub fn mark(&self, list: &[u16], map: &mut [u8]) {
        let areas = list.chunks_exact(4).map(|rect| self.widened(rect.try_into().expect("four")));
        if is_small(self.picture) {
            self.mark_places(&areas.collect::<Vec<_>>(), map);
        } else {
            areas.for_each(|area| self.mark_area(area, map));
        }
    }

    /// Place by place: one is taken that is in some area and that the view has.
    fn mark_places(&self, areas: &[Area], map: &mut [u8]) {
        let [rows, stride] = padded(self.picture);
        let inside = |row: usize, column: usize| areas.iter().any(|area| area.has(row, column));
        let taken = |row: usize, column: usize| inside(row, column) && self.view.has(row, column);
        for top in (0..rows).step_by(2) {
            for left in (0..stride).step_by(2) {
                if self.kind.takes(|down, right| taken(top + down, left + right)) {
                    let state = &mut map[top / 2 * (stride / 2) + left / 2];
                    *state = self.kind.state(*state);
                }
            }
        }
    }

    /// The blocks of one area after the other. An area has whole blocks (R61), and one that was taken is taken again as it is.
    fn mark_area(&self, area: Area, map: &mut [u8]) {
        let across = padded(self.picture)[1] / 2;
        for row in (area.top / 2..area.bottom / 2).filter(|_| area.left < area.right) {
            let blocks = row * across + area.left / 2..row * across + area.right / 2;
            for (state, &takes) in map[blocks.clone()].iter_mut().zip(&self.takes[blocks]) {
                *state = if takes { self.kind.state(*state) } else { *state };
            }
        }
    }

    /// R60.
    fn widened(&self, [left, top, right, bottom]: Rect) -> Area {
        let Size { width, height } = self.picture;
        let [left, top] = [left, top].map(|edge| usize::from(edge) / 2 * 2);
        let [right, bottom] = [right.min(width), bottom.min(height)].map(|edge| usize::from(edge).next_multiple_of(2));
        Area { left, top, right, bottom }
    }
}

/// The widened area of a rectangle. It is empty unless left is below right, and top below bottom.
struct Area {
    left: usize,
    top: usize,
    right: usize,
    bottom: usize,
}

impl Area {
    fn has(&self, row: usize, column: usize) -> bool {
        self.left <= column && column < self.right && self.top <= row && row < self.bottom
    }
}

/// Which samples a view has.
struct Samples {
    kind: Kind,
    luma: [usize; 2],
    chroma: [usize; 2],
    /// By which V2 is laid out: R67, R72, R73.
    w: usize,
}

impl Samples {
    fn of(kind: Kind, picture: Size, view: Size) -> Self {
        let luma = [view.height, view.width].map(usize::from);
        let w = match kind {
            Kind::Main | Kind::V1 => 0,
            Kind::V2 => luma[1].next_multiple_of(16),
            Kind::V2By32 => usize::from(picture.width).next_multiple_of(32),
            Kind::V2Exact => picture.width.into(),
        };
        Self { kind, luma, chroma: luma.map(|length| length.div_ceil(2)), w }
    }

    /// Whether the view has both U and V for a place (R70); an auxiliary view is not asked for one of even row and even column.
    #[inline]
    fn has(&self, row: usize, column: usize) -> bool {
        let luma = |row: usize, column: usize| row < self.luma[0] && column < self.luma[1];
        let chroma = |row: usize, column: usize| row < self.chroma[0] && column < self.chroma[1];
        let n = row - row % 16 + row % 16 / 2;
        match (self.kind, row % 2, column % 2) {
            // R63: from chroma, but at rows and columns that its luma has.
            (Kind::Main, _, _) => luma(row, column),
            // R65.
            (Kind::V1, 1, _) => luma(n, column) && luma(n + 8, column),
            // R66: both from one place, in two planes of one size.
            (Kind::V1, _, _) => chroma(row / 2, column / 2),
            // R68.
            (_, _, 1) => luma(row, column / 2) && luma(row, self.w / 2 + column / 2),
            // R69: both from one plane, whichever it is.
            (_, _, _) => chroma(row / 2, column / 4) && chroma(row / 2, self.w / 4 + column / 4),
        }
    }
}

/// Whether a picture is small enough to go through it place by place for every list: two macroblocks wide and high, or less.
fn is_small(Size { width, height }: Size) -> bool {
    width <= 17 && height <= 17
}

/// How many pixels of a rectangle, clipped to the picture, lie in blocks that are not complete.
pub fn stale(map: &[u8], size: Size, [left, top, right, bottom]: Rect) -> usize {
    let [_, stride] = padded(size);
    let columns = usize::from(left)..usize::from(right.min(size.width));
    let of_row = |row: u16| {
        let blocks = &map[usize::from(row) / 2 * (stride / 2)..];
        columns.clone().filter(|column| blocks[column / 2] != COMPLETE).count()
    };
    (top..bottom.min(size.height)).map(of_row).sum()
}

/// The rows and the stride of a picture: height and width rounded up to 16.
fn padded(Size { width, height }: Size) -> [usize; 2] {
    [height, width].map(|length| usize::from(length).next_multiple_of(16))
}

#[cfg(test)]
mod tests {
    use super::*;
    use crate::random::Random;
    use crate::suites::lists;

    /// The blocks, by row and column, that are otherwise than `before` once a view was applied to a map that is `before` everywhere.
    fn changed(kind: Kind, picture: (u16, u16), view: (u16, u16), list: &[u16], before: u8) -> Vec<(usize, usize)> {
        let size = |(width, height)| Size { width, height };
        let applied = Applied::new(kind, size(picture), size(view));
        let [rows, stride] = padded(applied.picture);
        let mut map = vec![before; stride / 2 * (rows / 2) + 1];
        applied.mark(list, &mut map);
        (0..map.len()).filter(|&at| map[at] != before).map(|at| (at / (stride / 2), at % (stride / 2))).collect()
    }

    /// The blocks of these rows and columns.
    fn blocks(rows: std::ops::Range<usize>, columns: std::ops::Range<usize>) -> Vec<(usize, usize)> {
        rows.flat_map(|row| columns.clone().map(move |column| (row, column))).collect()
    }

    #[test]
    fn an_empty_rectangle_may_widen() {
        assert_eq!(changed(Kind::Main, (5, 5), (16, 16), &[5, 0, 5, 4], NEVER), blocks(0..2, 2..3));
        assert_eq!(changed(Kind::Main, (5, 5), (16, 16), &[4, 0, 4, 4], NEVER), []);
    }

    #[test]
    fn a_main_view_takes_a_block_by_one_place() {
        assert_eq!(changed(Kind::Main, (5, 5), (5, 5), &[0, 0, 9, 9], COMPLETE), blocks(0..3, 0..3));
        assert_eq!(changed(Kind::Main, (5, 5), (4, 3), &[0, 0, 9, 9], 7), blocks(0..2, 0..2));
    }

    #[test]
    fn an_auxiliary_view_turns_1_alone() {
        for kind in [Kind::V1, Kind::V2, Kind::V2By32, Kind::V2Exact] {
            let turned = |before| changed(kind, (16, 16), (32, 16), &[3, 2, 6, 16], before);
            assert_eq!(turned(STALE), blocks(1..8, 1..3));
            assert!([NEVER, COMPLETE, 3, 255].iter().all(|&before| turned(before).is_empty()));
        }
    }

    /// In V1 the odd row r of the first 16 wants luma row 8 + r / 2, and each place but those of even rows its own column.
    #[test]
    fn v1_wants_rows_of_v_and_every_column() {
        let turned = |view| changed(Kind::V1, (16, 16), view, &[0, 0, 16, 16], STALE);
        assert_eq!(turned((16, 12)), blocks(0..4, 0..8));
        assert_eq!(turned((16, 8)), []);
        assert_eq!(turned((15, 16)), blocks(0..8, 0..7));
    }

    /// A view of 48 columns of a picture of 48: W is 48, 64 and 48. By the 32 rule V of luma begins at 32, and V of chroma at 16 of 24.
    #[test]
    fn v2_wants_columns_by_w() {
        let turned = |kind| changed(kind, (48, 16), (48, 16), &[0, 0, 48, 16], STALE);
        assert_eq!(turned(Kind::V2), blocks(0..8, 0..24));
        assert_eq!(turned(Kind::V2By32), blocks(0..8, 0..16));
        assert_eq!(turned(Kind::V2Exact), blocks(0..8, 0..24));
        // W is 32 by the view's width of 20, and so V of luma has 4 columns of it, and V of chroma 2.
        assert_eq!(changed(Kind::V2, (20, 16), (20, 16), &[0, 0, 20, 16], STALE), blocks(0..8, 0..4));
        // W is 20 itself: V of luma begins at 10, and V of chroma at 5 of 10.
        assert_eq!(changed(Kind::V2Exact, (20, 16), (20, 16), &[0, 0, 20, 16], STALE), blocks(0..8, 0..10));
    }

    #[test]
    fn larger_pictures_are_marked_as_small_ones() {
        let random = &mut Random::new(1, "map");
        for turn in 0..2000 {
            let mut size =
                |most| Size { width: random.between(0, most) as u16, height: random.between(0, most) as u16 };
            let (picture, view) = (size(70), size(90));
            let list = lists::anyhow(random, picture, 4 * (turn % 4));
            for kind in [Kind::Main, Kind::V1, Kind::V2, Kind::V2By32, Kind::V2Exact] {
                let applied = Applied::new(kind, picture, view);
                let blocks = padded(picture).iter().product::<usize>() / 4;
                let before: Vec<u8> = (0..blocks).map(|at| (at * 2_654_435_761 % 13 % 4) as u8).collect();
                let areas: Vec<Area> =
                    list.chunks_exact(4).map(|rect| applied.widened(rect.try_into().unwrap())).collect();
                let (mut places, mut marked) = (before.clone(), before);
                applied.mark_places(&areas, &mut places);
                applied.mark(&list, &mut marked);
                assert!(places == marked, "{picture:?} {view:?} {list:?}");
            }
        }
    }

    #[test]
    fn pixels_are_counted_by_their_blocks() {
        let size = Size { width: 5, height: 3 };
        let mut map = vec![COMPLETE; 64];
        (map[0], map[2], map[9], map[3]) = (STALE, 3, NEVER, NEVER);
        assert_eq!(stale(&map, size, [0, 0, 9, 9]), 4 + 2 + 2);
        assert_eq!(stale(&map, size, [1, 1, 3, 3]), 1 + 1);
        assert_eq!(stale(&map, size, [3, 1, 2, 0]), 0);
    }
}
