//! `haythaw_avc_to_annex_b` beside `avc_to_annex_b_into`.
//!
//! The original writes to a `Vec` that grows. So what it wrote says how long an output has to be: a shorter one
//! is refused with 6 and left alone, and in a longer one the bytes after what is written stay as they were.

use std::collections::BTreeSet;
use std::hint::black_box;
use std::rc::Rc;

use original::pdu;

use super::payloads::{self, Payload};
use super::Suite;
use crate::bench::{Bench, Over, Sides};
use crate::ours;
use crate::outcome::{Lent, Outcome};
use crate::run::Run;

pub const SUITE: Suite = Suite {
    name: "annex_b",
    about: "the payloads of avc_format, each with an output that is exact, a byte short, a byte longer, 20 longer, and empty",
    run: |run| payloads::every(run, check),
    replay,
};

pub const BENCH: Bench = Bench {
    name: "annex_b",
    input: "285 units of 1,400 bytes; the original's Vec is long enough",
    bound: Some(1.1),
    over: Over::One(|| {
        const CALLS: u64 = 50;
        let payload: Rc<[u8]> = payloads::units(&[1400; 285]).into();
        let same = Rc::clone(&payload);
        let mut our_out = vec![0; payload.len()];
        let mut their_out = Vec::with_capacity(payload.len());
        Sides {
            calls: CALLS,
            ours: Box::new(move || {
                (0..CALLS)
                    .map(|_| ours::avc_to_annex_b(black_box(&payload), black_box(&mut our_out)).count as u64)
                    .sum()
            }),
            theirs: Box::new(move || {
                (0..CALLS).map(|_| their_count(black_box(&same), black_box(&mut their_out))).sum()
            }),
        }
    }),
};

#[inline(never)]
fn their_count(data: &[u8], out: &mut Vec<u8>) -> u64 {
    pdu::avc_to_annex_b_into(data, out);
    out.len() as u64
}

fn replay(run: &mut Run, words: &[u64]) -> Result<(), String> {
    match words {
        [length @ 0..=0x10_0000, payload @ ..] => {
            let payload = Payload::of_words(payload)?;
            check_output(run, &payload, &payload.bytes(), *length as usize);
            Ok(())
        }
        _ => Err("a case is the output's length and a payload".to_owned()),
    }
}

fn check(run: &mut Run, payload: &Payload) {
    let data = payload.bytes();
    let mut written = Vec::new();
    pdu::avc_to_annex_b_into(&data, &mut written);
    let exact = written.len();
    for length in BTreeSet::from([0, exact.saturating_sub(1), exact, exact + 1, exact + 20]) {
        check_output(run, payload, &data, length);
    }
}

/// The call with an output of so many bytes.
fn check_output(run: &mut Run, payload: &Payload, data: &[u8], length: usize) {
    let output = Lent::new(length);
    let ours = run.ours(our_outcome(data, output.clone()));
    run.refused(ours.number);
    let theirs = their_outcome(data, output);
    run.compare(&ours, &theirs, (data.len() + length) as u64, || format!("{length} {}", payload.words()));
}

fn our_outcome(data: &[u8], mut output: Lent) -> Outcome {
    let ours::Answer { number, count } = ours::avc_to_annex_b(data, output.lent());
    Outcome { number, count, buffers: vec![output.whole()] }
}

fn their_outcome(data: &[u8], output: Lent) -> Outcome {
    // What a Vec holds before the call has to go.
    let mut written = vec![0xEE; 3];
    pdu::avc_to_annex_b_into(data, &mut written);
    Outcome::written(&written, output)
}
