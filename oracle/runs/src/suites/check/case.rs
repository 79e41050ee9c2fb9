//! A check on both sides: what ours answers, and what a search over the original's own split says.

use crate::answer::{picked, Answer};
use crate::ours::{Checked, Size, View};
use crate::run::Run;
use crate::suites::pictures;
use crate::suites::split::{self, Made};
use crate::suites::views::{original_of, Sizes, Source};

type OurCall = fn(Size, [&[u8]; 3], View<'_>, View<'_>) -> Checked;

/// A check, and the split that it is of.
pub struct Call {
    pub ours: OurCall,
    pub split: &'static split::Call,
}

/// A picture, and what the original splits it into, or the number of the refusal.
pub struct Given<'a> {
    pub call: &'static Call,
    pub sizes: pictures::Sizes,
    planes: [&'a [u8]; 3],
    pub theirs: Result<Made, u32>,
}

impl<'a> Given<'a> {
    /// Refusals: 1, 5.
    pub fn new(call: &'static Call, source: &'a Source, sizes: pictures::Sizes) -> Self {
        let planes = source.planes(sizes.lengths);
        let theirs = if sizes.is_short() { Err(1) } else { split::their_views(call.split, &sizes, planes) };
        Self { call, sizes, planes, theirs }
    }

    /// The size of the original's views or, where it has none, of any.
    pub fn views(&self) -> (u16, u16) {
        self.theirs.as_ref().map_or((16, 16), |made| (made.views.width, made.views.height))
    }
}

/// A sample of the two views: planes 0 to 2 are the main view's Y, U and V, and 3 to 5 the auxiliary view's.
#[derive(Debug, Clone, Copy, PartialEq, Eq)]
pub struct Place {
    pub plane: usize,
    pub row: usize,
    pub column: usize,
}

impl Place {
    pub fn of_words(words: &[u64]) -> Result<Vec<Self>, String> {
        let places = words.chunks_exact(3);
        if !places.remainder().is_empty() || words.iter().any(|&word| word > 65_535) {
            return Err("an altered sample is a plane, a row and a column".to_owned());
        }
        Ok(places
            .map(|place| Self { plane: place[0] as usize, row: place[1] as usize, column: place[2] as usize })
            .collect())
    }
}

/// Columns and rows of a plane, 0 to 2, of a view.
pub fn sides(plane: usize, (width, height): (u16, u16)) -> (usize, usize) {
    match plane {
        0 => (width.into(), height.into()),
        _ => (width.div_ceil(2).into(), height.div_ceil(2).into()),
    }
}

/// Two views beside a picture. They have the original's samples as far as both have them, and other bytes everywhere else.
pub struct Pair<'a> {
    given: &'a Given<'a>,
    sizes: [Sizes; 2],
    planes: [Vec<u8>; 6],
    /// The number that the original refuses the views with, or 0.
    number: u32,
}

impl<'a> Pair<'a> {
    /// Refusals: those of the main view, 3 and 4, and then those of the auxiliary view.
    pub fn new(given: &'a Given<'a>, source: &Source, sizes: [Sizes; 2]) -> Self {
        let mut planes = [0, 1, 2, 3, 4, 5].map(|plane| {
            let bytes = source.planes(sizes[plane / 3].lengths)[plane % 3];
            bytes.iter().map(|byte| !byte).collect::<Vec<u8>>()
        });
        if let Ok(made) = &given.theirs {
            for (plane, bytes) in planes.iter_mut().enumerate() {
                lay_out(made, plane, &sizes[plane / 3], bytes);
            }
        }
        let mut pair = Self { given, sizes, planes, number: 0 };
        let refused = [0, 1].map(|view| original_of(pair.view(view)).0.err());
        pair.number = refused[0].or(refused[1]).unwrap_or(0);
        pair
    }

    fn view(&self, view: usize) -> View<'_> {
        let &Sizes { width, height, luma_stride, chroma_stride, .. } = &self.sizes[view];
        let [y, u, v] = [0, 1, 2].map(|plane| self.planes[3 * view + plane].as_slice());
        View { width, height, luma_stride, chroma_stride, y, u, v }
    }

    fn stride(&self, plane: usize) -> usize {
        stride(&self.sizes[plane / 3], plane)
    }

    /// The call, with these samples altered, each in a bit of its own.
    pub fn check(&mut self, run: &mut Run, altered: &[Place]) {
        self.alter(altered);
        let Given { call, sizes, planes, .. } = self.given;
        let ours = run.ours(Said((call.ours)(sizes.size, *planes, self.view(0), self.view(1))));
        run.refused(ours.0.number);
        let weight = sizes.weight() + self.sizes.iter().map(|view| view.weight(0)).fold(0, u64::saturating_add);
        run.compare(&ours, &Said(self.searched()), weight.saturating_add(altered.len() as u64), || {
            let places = altered.iter().map(|place| format!(" {} {} {}", place.plane, place.row, place.column));
            let [main, auxiliary] = self.sizes.each_ref().map(Sizes::words);
            format!("{} {main} {auxiliary}{}", sizes.words(), places.collect::<String>())
        });
        self.alter(altered);
    }

    /// Alters the samples, or puts them back.
    fn alter(&mut self, altered: &[Place]) {
        for &Place { plane, row, column } in altered {
            let at = row * self.stride(plane) + column;
            if let Some(sample) = self.planes[plane].get_mut(at) {
                *sample ^= 1 << (at % 8);
            }
        }
    }

    /// What is to be answered: the picture's number, the views', the sizes, and then the first row that differs from the original's, plane by
    /// plane, and in it the first sample.
    fn searched(&self) -> Checked {
        let none = Checked { number: 0, same: false, named: false, view: 0, plane: 0, row: 0, column: 0 };
        let made = match &self.given.theirs {
            Err(number) => return Checked { number: *number, ..none },
            Ok(_) if self.number != 0 => return Checked { number: self.number, ..none },
            Ok(made) => made,
        };
        let size = (made.views.width, made.views.height);
        if self.sizes.iter().any(|view| (view.width, view.height) != size) {
            return none;
        }
        let wrong = (0..6).find_map(|plane| {
            let (columns, rows) = sides(plane % 3, size);
            (0..rows).find_map(|row| {
                let has = &self.planes[plane][row * self.stride(plane)..][..columns];
                let right = &made.planes[plane][row * columns..][..columns];
                let column = has.iter().zip(right).position(|(has, right)| has != right)?;
                Some(Place { plane, row, column })
            })
        });
        match wrong {
            None => Checked { same: true, ..none },
            Some(Place { plane, row, column }) => Checked {
                named: true,
                view: (plane / 3) as u8,
                plane: (plane % 3) as u8,
                row: row as u16,
                column: column as u16,
                ..none
            },
        }
    }
}

fn stride(sizes: &Sizes, plane: usize) -> usize {
    if plane % 3 == 0 {
        sizes.luma_stride
    } else {
        sizes.chroma_stride
    }
}

/// Copies the original's samples into a plane of a view, as far as both have them.
fn lay_out(made: &Made, plane: usize, sizes: &Sizes, bytes: &mut [u8]) {
    let (columns, rows) = sides(plane % 3, (made.views.width, made.views.height));
    let (view_columns, view_rows) = sides(plane % 3, (sizes.width, sizes.height));
    let both = columns.min(view_columns);
    for row in 0..rows.min(view_rows) {
        let Some(start) = row.checked_mul(stride(sizes, plane)) else { return };
        let Some(into) = bytes.get_mut(start..).and_then(|rest| rest.get_mut(..both)) else { return };
        into.copy_from_slice(&made.planes[plane][row * columns..][..both]);
    }
}

/// What a check answers.
#[derive(PartialEq)]
struct Said(Checked);

impl Answer for Said {
    fn size(&self) -> usize {
        size_of::<Checked>()
    }

    /// One of its seven parts.
    fn alter(&mut self, choice: u64) {
        let Checked { number, same, named, view, plane, row, column } = &mut self.0;
        let (part, choice) = (picked(choice, 7), choice / 8);
        match part {
            0 => number.alter(choice),
            1 => same.alter(choice),
            2 => named.alter(choice),
            3 => view.alter(choice),
            4 => plane.alter(choice),
            5 => *row ^= 1 << picked(choice, 16),
            _ => *column ^= 1 << picked(choice, 16),
        }
    }

    fn shown(&self) -> String {
        let Checked { number, same, named, view, plane, row, column } = self.0;
        format!("number {number}, same {same}, named {named}, view {view}, plane {plane}, row {row}, column {column}")
    }
}
