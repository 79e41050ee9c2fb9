//! One run of one suite: what it may use, and what it found.

use std::collections::BTreeMap;
use std::sync::atomic::Ordering;
use std::sync::Arc;
use std::time::{Duration, Instant};

use crate::answer::Answer;
use crate::progress::{Counts, Progress};
use crate::random::Random;

/// How long a suite of random cases goes on.
#[derive(Clone, Copy)]
pub enum Budget {
    Cases(u64),
    Time(Duration),
}

/// A case on which the two sides differ.
pub struct Difference {
    /// The less, the smaller the case.
    pub size: u64,
    /// The case as `--replay` takes it.
    pub line: String,
    /// Both answers, where they first differ.
    pub what: String,
}

/// What a suite found.
#[derive(Default)]
pub struct Findings {
    pub calls: u64,
    pub bytes: u64,
    pub differences: u64,
    /// How often each refusal was met, by its number.
    pub refusals: BTreeMap<u32, u64>,
    /// The smallest of the differences.
    pub smallest: Option<Difference>,
}

pub struct Run {
    name: &'static str,
    pub random: Random,
    budget: Budget,
    /// When the first random case was asked for.
    began: Option<Instant>,
    cases: u64,
    /// The number of the answer that a self-test alters, and what says how.
    altered: Option<(u64, u64)>,
    /// Whether each answer is printed.
    shown: bool,
    counts: Arc<Counts>,
    _progress: Progress,
    findings: Findings,
}

impl Run {
    pub fn new(name: &'static str, seed: u64, budget: Budget) -> Self {
        let counts = Arc::new(Counts::default());
        Self {
            name,
            random: Random::new(seed, name),
            budget,
            began: None,
            cases: 0,
            altered: None,
            shown: false,
            _progress: Progress::start(name, Arc::clone(&counts)),
            counts,
            findings: Findings::default(),
        }
    }

    /// The same run with one of the library's answers altered: the suite has to notice.
    #[must_use]
    pub fn altering(mut self) -> Self {
        self.altered = Some((self.random.between(0, 99), self.random.number()));
        self
    }

    /// The same run with each answer printed.
    #[must_use]
    pub fn showing(mut self) -> Self {
        self.shown = true;
        self
    }

    /// Whether a suite of random cases makes one more.
    pub fn more(&mut self) -> bool {
        self.cases += 1;
        match self.budget {
            Budget::Cases(cases) => self.cases <= cases,
            Budget::Time(time) => self.began.get_or_insert_with(Instant::now).elapsed() < time,
        }
    }

    /// The library's answer. Each suite passes it through here, for the self-test.
    #[inline]
    pub fn ours<A: Answer>(&self, mut answer: A) -> A {
        match self.altered {
            Some((number, choice)) if number == self.findings.calls => answer.alter(choice),
            _ => {}
        }
        answer
    }

    /// Notes the number of an answer of the library, if it is a refusal.
    #[inline]
    pub fn refused(&mut self, number: u32) {
        if number != 0 {
            *self.findings.refusals.entry(number).or_default() += 1;
        }
    }

    /// Compares the two answers to one call. `words` is the case as the suite's `replay` reads it.
    #[inline]
    pub fn compare<A: Answer>(&mut self, ours: &A, theirs: &A, size: u64, words: impl FnOnce() -> String) {
        self.findings.calls += 1;
        self.findings.bytes += ours.size() as u64;
        self.counts.calls.store(self.findings.calls, Ordering::Relaxed);
        if self.shown {
            println!("ours     {}\nexpected {}", ours.shown(), theirs.shown());
        }
        if ours != theirs {
            if self.shown {
                println!("they differ: {}", ours.differs_at(theirs));
            }
            self.note(size, words, || ours.differs_at(theirs));
        }
    }

    #[cold]
    fn note(&mut self, size: u64, words: impl FnOnce() -> String, what: impl FnOnce() -> String) {
        self.findings.differences += 1;
        self.counts.differences.store(self.findings.differences, Ordering::Relaxed);
        if self.findings.smallest.as_ref().is_none_or(|smallest| size < smallest.size) {
            self.findings.smallest =
                Some(Difference { size, line: format!("{} {}", self.name, words()), what: what() });
        }
    }

    pub fn finish(self) -> Findings {
        self.findings
    }
}
