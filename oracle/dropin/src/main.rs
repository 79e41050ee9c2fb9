//! Runs every case over the Rust original and over `bind/rust`, and compares the two traces byte for byte.

use std::collections::BTreeMap;
use std::panic::catch_unwind;
use std::process::ExitCode;
use std::time::{Duration, Instant};

use dropin::case::Case;
use dropin::options::{help, Options, Task};
use dropin::trace::{Trace, CALLS};
use dropin::{cases, over_haythaw, over_original};

fn main() -> ExitCode {
    match Options::read(std::env::args().skip(1)) {
        Ok(options) if act(&options) => ExitCode::SUCCESS,
        Ok(_) => ExitCode::FAILURE,
        Err(reason) => {
            eprintln!("dropin: {reason} (--help says what there is)");
            ExitCode::from(2)
        }
    }
}

/// Does what is asked, and says whether all was as it should be.
fn act(options: &Options) -> bool {
    match options.task {
        Task::Compare => compare(options, None),
        Task::Again(number) => compare(options, Some(number)),
        Task::SelfTest => self_test(options),
        Task::Help => {
            print!("{}", help());
            true
        }
    }
}

/// After so many differences a run ends: the first ones say what there is to say.
const ENOUGH: u64 = 100;

/// Answers and bytes of each call.
type Tally = BTreeMap<&'static str, (u64, u64)>;

fn compare(options: &Options, only: Option<usize>) -> bool {
    let (mut compared, mut bytes, mut differences) = (0_u64, 0_u64, 0_u64);
    let mut tally = Tally::new();
    let mut progress = Progress::start();
    for (number, case) in cases::all(options.seed, options.count).enumerate() {
        if only.is_some_and(|only| only != number) {
            continue;
        }
        match traced(&case) {
            Ok(trace) => {
                bytes += trace.length() as u64;
                for (call, length) in trace.calls() {
                    let (answers, bytes) = tally.entry(call).or_default();
                    *answers += 1;
                    *bytes += length as u64;
                }
            }
            Err(what) => {
                differences += 1;
                if differences <= 10 {
                    println!("case {number}: {what}\n    {}", said(&case));
                }
            }
        }
        compared += 1;
        progress.tell(|| format!("{compared} cases, {bytes} bytes compared, {differences} differences"));
        if differences == ENOUGH {
            println!("dropin: stopped after {ENOUGH} differences");
            break;
        }
    }
    if let (Some(only), 0) = (only, compared) {
        eprintln!("dropin: there is no case {only}");
        return false;
    }
    if only.is_none() {
        println!("{:34}{:>12}{:>16}", "call", "answers", "bytes");
        for (call, (answers, bytes)) in tally {
            println!("{call:34}{answers:>12}{bytes:>16}");
        }
    }
    let seed = options.seed;
    println!("dropin: {compared} cases, {bytes} bytes compared, {differences} differences, seed {seed}");
    differences == 0
}

/// The trace that both sides leave, or how they differ.
fn traced(case: &Case) -> Result<Trace, String> {
    match (catch_unwind(|| over_original::trace(case)), catch_unwind(|| over_haythaw::trace(case))) {
        (Ok(theirs), Ok(ours)) => match theirs.difference(&ours) {
            None => Ok(ours),
            Some(difference) => Err(difference.to_string()),
        },
        (Err(_), Err(_)) => Err("both panicked, which no case is to do".to_owned()),
        (Ok(_), Err(_)) => Err("haythaw panicked and the original did not".to_owned()),
        (Err(_), Ok(_)) => Err("the original panicked and haythaw did not".to_owned()),
    }
}

/// A case in words, as many as fit.
fn said(case: &Case) -> String {
    let mut said = format!("{case:?}");
    if let Some((end, _)) = said.char_indices().nth(600) {
        said.replace_range(end.., " ...");
    }
    said
}

/// Alters one answer of each call, in the first case that has one, and sees whether it is noticed, at that call.
fn self_test(options: &Options) -> bool {
    let mut left: Vec<&str> = CALLS.to_vec();
    for (number, case) in cases::all(options.seed, options.count).enumerate() {
        if left.is_empty() {
            break;
        }
        let (theirs, mut ours) = (over_original::trace(&case), over_haythaw::trace(&case));
        for call in left.clone() {
            if !ours.alter(call) {
                continue;
            }
            if theirs.difference(&ours).is_none_or(|difference| difference.call != call) {
                println!("{call}: NOT NOTICED in case {number}");
                return false;
            }
            println!("{call}: noticed in case {number}");
            left.retain(|&other| other != call);
            ours.alter(call); // and back
        }
    }
    for call in &left {
        println!("{call}: NOT NOTICED: no case has an answer of it");
    }
    println!("self-test: an altered answer is noticed in {} of {} calls", CALLS.len() - left.len(), CALLS.len());
    left.is_empty()
}

/// A line on standard error every second, so that a long run is seen to move.
struct Progress {
    began: Instant,
    told: Instant,
}

impl Progress {
    fn start() -> Self {
        let now = Instant::now();
        Self { began: now, told: now }
    }

    fn tell(&mut self, what: impl Fn() -> String) {
        if self.told.elapsed() >= Duration::from_secs(1) {
            self.told = Instant::now();
            eprintln!("dropin: {}, {} s", what(), self.began.elapsed().as_secs());
        }
    }
}
