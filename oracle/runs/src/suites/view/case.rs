//! One view on both sides: its number and its rows, compared.

use original::decode::Yuv420Frame;

use crate::answer::{beginning, first_difference, picked, Answer};
use crate::ours::{self, Row, View};
use crate::run::Run;
use crate::suites::views::{original_of, Sizes, Source};

/// A row, and the bytes at its place in the plane: none if the place is not inside the plane.
#[derive(PartialEq)]
pub struct Found<'a> {
    pub row: Row,
    pub bytes: Option<&'a [u8]>,
}

type OurRow = fn(View<'_>, usize) -> Row;
type TheirRow = fn(&Yuv420Frame, usize) -> Option<&[u8]>;

/// How many planes a view has.
pub const PLANES: usize = 3;

const ROWS: [(OurRow, TheirRow); PLANES] =
    [(ours::luma_row, Yuv420Frame::luma_row), (ours::u_row, Yuv420Frame::u_row), (ours::v_row, Yuv420Frame::v_row)];

/// One view on both sides.
pub struct Case<'a> {
    sizes: Sizes,
    view: View<'a>,
    theirs: Result<Yuv420Frame, u32>,
    places: [usize; 3],
}

impl<'a> Case<'a> {
    pub fn new(source: &'a Source, sizes: Sizes) -> Self {
        let view = source.view(&sizes);
        let (theirs, places) = original_of(view);
        Self { sizes, view, theirs, places }
    }

    fn our_row(&self, plane: usize, row: usize) -> Found<'a> {
        let row = ROWS[plane].0(self.view, row);
        let lent = [self.view.y, self.view.u, self.view.v][plane];
        let end = row.start.checked_add(row.length);
        Found { row, bytes: end.and_then(|end| lent.get(row.start..end)) }
    }

    /// The original's row by its place in the plane that it was handed. A refused view has none.
    fn their_row(&self, plane: usize, row: usize) -> Found<'_> {
        let (number, found) = match &self.theirs {
            Ok(frame) => (0, ROWS[plane].1(frame, row)),
            Err(number) => (*number, None),
        };
        let start = found.map_or(0, |bytes| bytes.as_ptr() as usize - self.places[plane]);
        let bytes = found.unwrap_or_default();
        Found { row: Row { number, present: found.is_some(), start, length: bytes.len() }, bytes: Some(bytes) }
    }

    pub fn check_number(&self, run: &mut Run) {
        let number = run.ours(ours::view_number(self.view));
        run.refused(number);
        let theirs = self.theirs.as_ref().err().copied().unwrap_or(0);
        run.compare(&number, &theirs, self.sizes.weight(0), || format!("{} 0 0", self.sizes.words()));
    }

    pub fn check_row(&self, run: &mut Run, plane: usize, row: usize) {
        let found = run.ours(self.our_row(plane, row));
        run.refused(found.row.number);
        let words = || format!("{} {} {row}", self.sizes.words(), plane + 1);
        run.compare(&found, &self.their_row(plane, row), self.sizes.weight(row), words);
    }

    /// The number and some rows: the first, the last, the one past it, and two whose start wraps.
    pub fn check_edges(&self, run: &mut Run) {
        self.check_number(run);
        for (plane, rows) in self.sizes.rows().into_iter().enumerate() {
            for row in [0, rows.saturating_sub(1), rows, 1 << 63, usize::MAX] {
                self.check_row(run, plane, row);
            }
        }
    }

    /// The number and all rows, and some past the last.
    pub fn check_all(&self, run: &mut Run) {
        self.check_number(run);
        for plane in 0..PLANES {
            for row in (0..=usize::from(self.sizes.height) + 2).chain([usize::MAX]) {
                self.check_row(run, plane, row);
            }
        }
    }
}

impl Answer for Found<'_> {
    fn size(&self) -> usize {
        let Row { number, present, start, length } = self.row;
        number.size() + present.size() + start.size() + length.size() + self.bytes.map_or(0, <[u8]>::len)
    }

    fn alter(&mut self, choice: u64) {
        match picked(choice, 4) {
            0 => self.row.number.alter(choice / 4),
            1 => self.row.present.alter(choice / 4),
            2 => self.row.start.alter(choice / 4),
            _ => self.row.length.alter(choice / 4),
        }
    }

    fn shown(&self) -> String {
        let Row { number, present, start, length } = self.row;
        let place = format!("number {number}, present {present}, start {start}, length {length}");
        match self.bytes {
            Some(bytes) => format!("{place}, {}", beginning(bytes)),
            None => format!("{place}, which is outside the plane"),
        }
    }
    fn differs_at(&self, theirs: &Self) -> String {
        match (self.bytes, theirs.bytes) {
            (Some(our_bytes), Some(their_bytes)) if self.row == theirs.row => {
                format!("in the row, {}", first_difference(our_bytes, their_bytes))
            }
            _ => format!("ours {}, the original's {}", self.shown(), theirs.shown()),
        }
    }
}
