//! How picture to RGBA ends: as every call that writes, and with three more counts.

use crate::answer::{picked, Answer};
use crate::ours::Pixels;
use crate::outcome::Outcome;

#[derive(PartialEq, Eq)]
pub struct Shown {
    pub outcome: Outcome,
    pub counts: Counts,
}

/// Filtered samples of U and of V, and pixels in blocks that are not complete.
#[derive(Clone, Copy, Default, PartialEq, Eq)]
pub struct Counts {
    pub filtered: [usize; 2],
    pub stale: usize,
}

impl Shown {
    /// How a call ends that counts so many: a refusal has none.
    pub fn of(outcome: Outcome, counts: Counts) -> Self {
        let counts = if outcome.number == 0 { counts } else { Counts::default() };
        Self { outcome, counts }
    }

    /// What the library answered, and what it left in the lent buffers.
    pub fn ours(pixels: Pixels, buffers: Vec<Vec<u8>>) -> Self {
        let Pixels { number, count, filtered_u, filtered_v, stale } = pixels;
        Self {
            outcome: Outcome { number, count, buffers },
            counts: Counts { filtered: [filtered_u, filtered_v], stale },
        }
    }
}

impl Answer for Shown {
    fn size(&self) -> usize {
        self.outcome.size() + size_of_val(&self.counts)
    }

    /// One of the three counts, or something of the rest.
    fn alter(&mut self, choice: u64) {
        let Counts { filtered: [u, v], stale } = &mut self.counts;
        match picked(choice, 6) {
            0 => u.alter(choice / 6),
            1 => v.alter(choice / 6),
            2 => stale.alter(choice / 6),
            _ => self.outcome.alter(choice / 6),
        }
    }

    fn shown(&self) -> String {
        let Counts { filtered: [u, v], stale } = self.counts;
        format!("{}, filtered {u} of U and {v} of V, {stale} pixels stale", self.outcome.shown())
    }

    fn differs_at(&self, theirs: &Self) -> String {
        let (ours, other) = (self.counts, theirs.counts);
        if self.outcome != theirs.outcome {
            return self.outcome.differs_at(&theirs.outcome);
        }
        if ours.filtered != other.filtered {
            return format!(
                "in what was filtered of U and of V: ours {:?}, the original's {:?}",
                ours.filtered, other.filtered
            );
        }
        format!("in how many pixels are stale: ours {}, by the rules {}", ours.stale, other.stale)
    }
}
