//! An apply call on both sides: number, and every byte of the three planes and of the map with their guard bytes.

use original::avc444::Yuv444Frame;
use original::decode::Yuv420Frame;
use original::ExclusiveRectangle;

use crate::ours::{Size, View};
use crate::outcome::Outcome;
use crate::run::Run;
use crate::suites::lists;
use crate::suites::map::{Applied, Kind};
use crate::suites::noise::Noise;
use crate::suites::pictures::{self, Planes};
use crate::suites::views::{self, original_of, Source};

type OurCall = fn(Size, [&mut [u8]; 4], &[u16], View<'_>) -> u32;
type TheirCall = fn(&mut Yuv444Frame, &Yuv420Frame, &[ExclusiveRectangle]);

/// The same call of both sides.
pub struct Call {
    pub ours: OurCall,
    pub theirs: TheirCall,
    /// Which view it is, for the map.
    pub kind: Kind,
    /// What the width of a padded view is a multiple of: 16, or 32 by the 32 rule.
    pub unit: u16,
    /// Whether a list that is not sound is refused, which the original clips.
    pub strict: bool,
}

/// What the planes of pictures and views hold: random bytes, and bytes of which any 256 in a row differ.
pub struct Sources {
    pictures: Noise,
    views: Source,
}

impl Sources {
    pub fn new() -> Self {
        Self { pictures: Noise::new(LONGEST), views: Source::new() }
    }
}

/// The most bytes that a buffer for a picture's plane has: such as 65,535 by 16.
pub const LONGEST: usize = 1 << 21;

/// A picture and a view.
pub struct Case<'a> {
    call: &'static Call,
    picture: pictures::Mapped,
    place: u64,
    planes: Planes,
    sizes: views::Sizes,
    view: View<'a>,
    /// The original's view, or the number of its refusal.
    theirs: Result<Yuv420Frame, u32>,
    /// What the map becomes, which the original has not.
    applied: Applied,
}

impl<'a> Case<'a> {
    /// `place` says which bytes the picture's planes hold.
    pub fn new(
        call: &'static Call,
        sources: &'a Sources,
        picture: pictures::Mapped,
        place: u64,
        sizes: views::Sizes,
    ) -> Self {
        let view = sources.views.view(&sizes);
        let planes = Planes::new(&picture, &sources.pictures, place);
        let applied = Applied::new(call.kind, picture.size(), Size { width: view.width, height: view.height });
        Self { call, picture, place, planes, sizes, view, theirs: original_of(view).0, applied }
    }

    /// The call with a list of rectangles.
    pub fn check(&self, run: &mut Run, list: &[u16]) {
        let ours = run.ours(self.our_outcome(list));
        run.refused(ours.number);
        let size = self.picture.weight() + self.sizes.weight(list.len());
        run.compare(&ours, &self.their_outcome(list), size, || {
            let edges: String = list.iter().map(|edge| format!(" {edge}")).collect();
            format!("{} {} {}{edges}", self.picture.words(), self.place, self.sizes.words())
        });
    }

    fn our_outcome(&self, list: &[u16]) -> Outcome {
        let mut planes = self.planes.clone();
        let number = (self.call.ours)(self.picture.size(), planes.lent(), list, self.view);
        Outcome { number, count: 0, buffers: planes.whole() }
    }

    /// Refusals: 1, 7, of a strict call 12, and the view's, which are 3 and 4.
    fn their_outcome(&self, list: &[u16]) -> Outcome {
        let mut planes = self.planes.clone();
        let unwritten = |number| Outcome::unwritten(number, self.planes.clone().whole());
        if self.picture.is_short() {
            return unwritten(1);
        }
        let Some(rects) = lists::originals_of(list) else {
            return unwritten(7);
        };
        if self.call.strict && !lists::are_sound(list, self.picture.size()) {
            return unwritten(12);
        }
        match &self.theirs {
            Ok(view) => {
                let mut picture = planes.original(&self.picture.planes);
                (self.call.theirs)(&mut picture, view, &rects);
                planes.take(&picture);
                self.applied.mark(list, planes.map());
                Outcome { number: 0, count: 0, buffers: planes.whole() }
            }
            Err(number) => unwritten(*number),
        }
    }
}
