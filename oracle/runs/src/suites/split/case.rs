//! A split on both sides: number, sizes, strides, and every byte of the six outputs with their guard bytes.

use original::avc444::{probe, Avc444Layout, Yuv444Frame};
use original::decode::{DecoderError, Yuv420Frame};

use crate::answer::{picked, Answer};
use crate::ours::{Size, Views};
use crate::outcome::{Lent, Outcome};
use crate::run::Run;
use crate::suites::lengths;
use crate::suites::pictures::Sizes;
use crate::suites::views::{rows_of, Source, LONGEST};

type OurCall = fn(Size, [&[u8]; 3], [&mut [u8]; 3], [&mut [u8]; 3]) -> Views;

/// The same call of both sides.
pub struct Call {
    pub ours: OurCall,
    pub layout: Avc444Layout,
    /// What the width is rounded up to for the views: 16, as the original does, or 32.
    pub unit: usize,
}

impl Call {
    /// How wide the views of a picture are.
    pub fn wide(&self, sizes: &Sizes) -> usize {
        usize::from(sizes.size.width).next_multiple_of(self.unit)
    }

    /// Outputs that just hold the views of a picture.
    pub fn outputs(&self, sizes: &Sizes) -> Outputs {
        Outputs::of_luma(self.wide(sizes) * usize::from(sizes.size.height).next_multiple_of(16))
    }

    /// Ours, with the outputs in the order of `Outputs`.
    pub fn ours(&self, size: Size, planes: [&[u8]; 3], outputs: [&mut [u8]; 6]) -> Views {
        let [y, u, v, aux_y, aux_u, aux_v] = outputs;
        (self.ours)(size, planes, [y, u, v], [aux_y, aux_u, aux_v])
    }
}

/// The lengths of the outputs: the main view's Y, U and V, and the auxiliary view's.
#[derive(Clone, Copy)]
pub struct Outputs(pub [usize; 6]);

impl Outputs {
    /// Outputs that just hold the views of a picture, as wide as its planes.
    pub fn exact(sizes: &Sizes) -> Self {
        Self::of_luma(sizes.plane())
    }

    fn of_luma(luma: usize) -> Self {
        let chroma = luma / 4;
        Self([luma, chroma, chroma, luma, chroma, chroma])
    }

    /// The same, each output as it is (0), a byte short (1) or longer (2).
    pub fn changed(self, ways: [u64; 6]) -> Self {
        Self([0, 1, 2, 3, 4, 5].map(|output| lengths::changed(self.0[output], ways[output])))
    }

    pub fn of_words(words: [u64; 6]) -> Result<Self, String> {
        match words.iter().find(|&&word| word > LONGEST as u64) {
            Some(length) => Err(format!("{length} is too long for an output of a case")),
            None => Ok(Self(words.map(|word| word as usize))),
        }
    }

    fn words(&self) -> String {
        self.0.map(|length| length.to_string()).join(" ")
    }

    fn lent(&self) -> [Lent; 6] {
        self.0.map(Lent::new)
    }
}

/// The original's views: what their sizes and strides are, and their planes, in the order of `Outputs`.
pub struct Made {
    pub views: Views,
    pub planes: [Vec<u8>; 6],
}

impl Made {
    fn new(main: &Yuv420Frame, auxiliary: &Yuv420Frame) -> Self {
        let views = views_of(main);
        assert_eq!(views, views_of(auxiliary), "the original's views differ in size");
        let ([y, u, v], [aux_y, aux_u, aux_v]) = (rows_of(main), rows_of(auxiliary));
        Self { views, planes: [y, u, v, aux_y, aux_u, aux_v] }
    }
}

/// The sizes of a view, and its strides as the distance of the first two rows. A view without rows has none to measure: there
/// the strides are to be the widths.
fn views_of(view: &Yuv420Frame) -> Views {
    let place = |row: &[u8]| row.as_ptr() as usize;
    let distance = |first: Option<&[u8]>, second: Option<&[u8]>| Some(place(second?) - place(first?));
    let (width, height) = (view.width(), view.height());
    Views {
        number: 0,
        width,
        height,
        luma_stride: distance(view.luma_row(0), view.luma_row(1)).unwrap_or(width.into()),
        chroma_stride: distance(view.u_row(0), view.u_row(1)).unwrap_or((width / 2).into()),
    }
}

/// A picture.
pub struct Case<'a> {
    call: &'static Call,
    sizes: Sizes,
    planes: [&'a [u8]; 3],
    /// The original's views, or the number of the refusal.
    theirs: Result<Made, u32>,
}

impl<'a> Case<'a> {
    /// Refusals: 1, 5.
    pub fn new(call: &'static Call, source: &'a Source, sizes: Sizes) -> Self {
        let planes = source.planes(sizes.lengths);
        let theirs = if sizes.is_short() { Err(1) } else { their_views(call, &sizes, planes) };
        Self { call, sizes, planes, theirs }
    }

    /// The call with outputs of these lengths.
    pub fn check(&self, run: &mut Run, outputs: Outputs) {
        let ours = run.ours(self.our_answer(outputs.lent()));
        run.refused(ours.outcome.number);
        let size = self.sizes.weight() + outputs.0.iter().sum::<usize>() as u64;
        run.compare(&ours, &self.their_answer(outputs.lent()), size, || {
            format!("{} {}", self.sizes.words(), outputs.words())
        });
    }

    fn our_answer(&self, mut outputs: [Lent; 6]) -> Split {
        let views = self.call.ours(self.sizes.size, self.planes, outputs.each_mut().map(Lent::lent));
        Split::new(views, outputs)
    }

    /// Refusals: the picture's, 6.
    fn their_answer(&self, mut outputs: [Lent; 6]) -> Split {
        match &self.theirs {
            Err(number) => Split::refused(*number, outputs),
            Ok(made) => {
                let lengths = outputs.each_mut().map(|output| output.lent().len());
                if lengths.iter().zip(&made.planes).any(|(length, plane)| *length < plane.len()) {
                    return Split::refused(6, outputs);
                }
                for (output, plane) in outputs.iter_mut().zip(&made.planes) {
                    output.lent()[..plane.len()].copy_from_slice(plane);
                }
                Split::new(made.views, outputs)
            }
        }
    }
}

/// What the original makes of planes that are long enough. Refusals: 5.
pub fn their_views(call: &Call, sizes: &Sizes, planes: [&[u8]; 3]) -> Result<Made, u32> {
    let Size { width, height } = sizes.size;
    let planes = planes.map(|plane| &plane[..sizes.plane()]);
    let picture = match call.wide(sizes) {
        wide if wide == usize::from(width).next_multiple_of(16) => probe::with_planes(width, height, planes),
        wide => widened(wide, sizes, planes),
    };
    match picture.split(call.layout) {
        Ok((main, auxiliary)) => Ok(Made::new(&main, &auxiliary)),
        Err(error) => Err(number_of(&error)),
    }
}

/// The picture whose planes are so wide, with Y 0, and U and V 128, in the columns that these planes have not. Its width is that or, where
/// that is 65,536, one less, which has the same planes.
fn widened(wide: usize, sizes: &Sizes, planes: [&[u8]; 3]) -> Yuv444Frame {
    let Size { width, height } = sizes.size;
    let stride = usize::from(width).next_multiple_of(16);
    let fills = [0, 128, 128];
    let rows = [0, 1, 2].map(|plane| {
        let padding = vec![fills[plane]; wide - stride];
        planes[plane].chunks_exact(stride.max(1)).flat_map(|row| [row, &padding]).collect::<Vec<_>>().concat()
    });
    probe::with_planes(wide.min(65_535) as u16, height, rows.each_ref().map(Vec::as_slice))
}

/// The number that the original's words stand for.
fn number_of(error: &DecoderError) -> u32 {
    match error.to_string().as_str() {
        "decoder error: padded AVC444 picture exceeds 65535 pixels" => 5,
        words => panic!("the original refuses a split in other words: {words}"),
    }
}

/// How a split ends: the views' width, height, luma stride and chroma stride, and all else.
#[derive(PartialEq)]
struct Split {
    sizes: [usize; 4],
    outcome: Outcome,
}

impl Split {
    fn new(views: Views, outputs: [Lent; 6]) -> Self {
        let Views { number, width, height, luma_stride, chroma_stride } = views;
        Self {
            sizes: [width.into(), height.into(), luma_stride, chroma_stride],
            outcome: Outcome { number, count: 0, buffers: outputs.map(Lent::whole).to_vec() },
        }
    }

    fn refused(number: u32, outputs: [Lent; 6]) -> Self {
        Self::new(Views { number, width: 0, height: 0, luma_stride: 0, chroma_stride: 0 }, outputs)
    }
}

impl Answer for Split {
    fn size(&self) -> usize {
        self.sizes.map(|size| size.size()).iter().sum::<usize>() + self.outcome.size()
    }

    /// One of the sizes, or anything else.
    fn alter(&mut self, choice: u64) {
        match picked(choice, 8) {
            size @ 0..4 => self.sizes[size].alter(choice / 8),
            _ => self.outcome.alter(choice / 8),
        }
    }

    fn shown(&self) -> String {
        let [width, height, luma_stride, chroma_stride] = self.sizes;
        format!("{width} by {height}, strides {luma_stride} and {chroma_stride}, {}", self.outcome.shown())
    }

    fn differs_at(&self, theirs: &Self) -> String {
        if self.sizes != theirs.sizes {
            return format!("in the views' sizes: ours {:?}, the original's {:?}", self.sizes, theirs.sizes);
        }
        self.outcome.differs_at(&theirs.outcome)
    }
}
