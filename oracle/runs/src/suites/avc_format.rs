//! `haythaw_is_avc_format` beside `is_avc_format`.

use std::hint::black_box;
use std::rc::Rc;

use original::pdu;

use super::payloads::{self, Payload};
use super::Suite;
use crate::bench::{Bench, Over, Sides};
use crate::ours;
use crate::run::Run;

pub const SUITE: Suite = Suite {
    name: "avc_format",
    about: payloads::ABOUT,
    run: |run| payloads::every(run, check),
    replay: |run, words| Payload::of_words(words).map(|payload| check(run, &payload)),
};

pub const BENCH: Bench = Bench {
    name: "avc_format",
    input: "285 units of 1,400 bytes",
    bound: None,
    over: Over::One(|| {
        const CALLS: u64 = 1000;
        let payload: Rc<[u8]> = payloads::units(&[1400; 285]).into();
        let same = Rc::clone(&payload);
        Sides {
            calls: CALLS,
            ours: Box::new(move || (0..CALLS).map(|_| u64::from(ours::is_avc_format(black_box(&payload)))).sum()),
            theirs: Box::new(move || (0..CALLS).map(|_| u64::from(is_avc_format(black_box(&same)))).sum()),
        }
    }),
};

#[inline(never)]
fn is_avc_format(data: &[u8]) -> bool {
    pdu::is_avc_format(data)
}

fn check(run: &mut Run, payload: &Payload) {
    let data = payload.bytes();
    let ours = run.ours(ours::is_avc_format(&data));
    run.compare(&ours, &pdu::is_avc_format(&data), data.len() as u64, || payload.words());
}
