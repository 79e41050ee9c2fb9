//! Times a call of the library and the same call of the original, and two calls of the library.

use std::hint::black_box;
use std::time::{Duration, Instant};

/// A call to time.
pub struct Bench {
    pub name: &'static str,
    /// What it is timed on, in words; after a frame's size, where it is timed on frames.
    pub input: &'static str,
    /// What the ratio is to be at most, if that is laid down; on frames, at 1920x1080.
    pub bound: Option<f64>,
    pub over: Over,
}

/// Makes the input and both sides over it.
pub enum Over {
    One(fn() -> Sides),
    /// Frames of each size of `FRAMES`.
    Frames(fn(u16, u16) -> Sides),
}

const FRAMES: [(u16, u16); 3] = [(640, 480), (1920, 1080), (3840, 2160)];

/// An input that a bench is timed on.
pub struct Timed {
    pub input: String,
    pub bound: Option<f64>,
    pub times: Times,
}

/// One pass over the same input by each side. A pass answers a sum of what it was answered.
pub struct Sides {
    /// How many calls a pass makes.
    pub calls: u64,
    pub ours: Box<dyn FnMut() -> u64>,
    pub theirs: Box<dyn FnMut() -> u64>,
}

impl Sides {
    /// So many calls of each side in a pass, one after the other.
    pub fn repeated(calls: u64, mut ours: Pass, mut theirs: impl FnMut() -> u64 + 'static) -> Self {
        Self {
            calls,
            ours: Box::new(move || (0..calls).map(|_| (ours.run)()).sum()),
            theirs: Box::new(move || (0..calls).map(|_| theirs()).sum()),
        }
    }
}

/// The least times of the two sides.
pub struct Times {
    /// How many calls were made in each.
    pub calls: u64,
    pub ours: Duration,
    pub theirs: Duration,
}

impl Bench {
    /// Times both sides on each input.
    pub fn run(&self, rounds: u32) -> Vec<Timed> {
        match self.over {
            Over::One(sides) => {
                vec![Timed { input: self.input.to_owned(), bound: self.bound, times: self.least(sides(), rounds) }]
            }
            Over::Frames(sides) => FRAMES
                .map(|(width, height)| Timed {
                    input: format!("{width}x{height}{}", self.input),
                    bound: self.bound.filter(|_| width == 1920),
                    times: self.least(sides(width, height), rounds),
                })
                .into(),
        }
    }

    /// Runs both sides in turns and keeps the least time of each.
    fn least(&self, mut sides: Sides, rounds: u32) -> Times {
        let mut least = Times { calls: sides.calls, ours: Duration::MAX, theirs: Duration::MAX };
        for _ in 0..rounds {
            let (ours, our_time) = timed(&mut sides.ours);
            let (theirs, their_time) = timed(&mut sides.theirs);
            assert_eq!(ours, theirs, "{}: the two sides answer differently", self.name);
            least.ours = least.ours.min(our_time);
            least.theirs = least.theirs.min(their_time);
        }
        least
    }
}

/// A call of the library on two inputs, or on one and something plain or another call beside it, to weigh the times against each other.
pub struct Weighing {
    pub name: &'static str,
    /// The first input against the second, in words.
    pub input: &'static str,
    /// What the ratio of the times a pixel, a byte, a payload or a rectangle is to be at most, if that is laid down.
    pub bound: Option<f64>,
    pub passes: fn() -> [Pass; 2],
}

/// A call, or what is plain beside it, over so many pixels, bytes, payloads or rectangles. It answers a sum of what it was answered.
pub struct Pass {
    pub units: u64,
    pub run: Box<dyn FnMut() -> u64>,
}

impl Pass {
    pub fn new(units: u64, run: impl FnMut() -> u64 + 'static) -> Self {
        Self { units, run: Box::new(run) }
    }
}

/// The bound of a row in a table of weighings, if it names one.
pub const fn bound(bounds: &[f64]) -> Option<f64> {
    match bounds {
        [bound] => Some(*bound),
        _ => None,
    }
}

/// What `scale` weighs, in words.
pub const SCALES: &str = "3840x2160 against 640x480";

/// The same call on a large and on a small picture. In turns, so the small one finds the caches as cold as the large one does.
pub fn scale(pass: impl Fn(u16, u16) -> Pass) -> [Pass; 2] {
    [pass(3840, 2160), pass(640, 480)]
}

impl Weighing {
    /// Runs both in turns: the least nanoseconds a pixel, a byte, a payload or a rectangle of each.
    pub fn run(&self, rounds: u32) -> [f64; 2] {
        let mut passes = (self.passes)();
        let mut least = [Duration::MAX; 2];
        for _ in 0..rounds {
            for (pass, least) in passes.iter_mut().zip(&mut least) {
                *least = timed(&mut pass.run).1.min(*least);
            }
        }
        [0, 1].map(|pass| least[pass].as_secs_f64() * 1e9 / passes[pass].units as f64)
    }
}

fn timed(pass: &mut dyn FnMut() -> u64) -> (u64, Duration) {
    let began = Instant::now();
    let sum = black_box(pass());
    (sum, began.elapsed())
}

/// A sum over a few of the bytes that a call left.
pub fn sample(bytes: &[u8]) -> u64 {
    bytes.iter().step_by(65_521).map(|&byte| u64::from(byte)).sum()
}
