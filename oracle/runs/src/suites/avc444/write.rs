//! `haythaw_avc444_write` beside `Avc444BitmapStream::encode`, and what it wrote read by `Avc444BitmapStream::decode`.
//!
//! The original has no numbers: 8, 7 and 11 follow the order of the rules, worked out here, and its error for too little room is 6. Where
//! it writes, its bytes are what is to be written, with bit 6 of each quantiser byte put back, which it cannot write. In every case, also
//! where ours is refused, what it does has to be what `stated` says, byte by byte.

use std::collections::BTreeSet;

use super::carried::Carried;
use super::case::{Case, Encoded, Ending, Sizes, Streams, Way};
use super::read::decoded;
use super::stated::{self, Row, Stated};
use crate::answer::beginning;
use crate::ours;
use crate::outcome::{Lent, Outcome};
use crate::random::Random;
use crate::run::Run;

const KINDS: [u32; 9] = [0, 1, 2, 3, 4, 5, 255, 256, u32::MAX];

/// Numbers, bytes of pairs and H.264 bytes: good ones, then such as are not in fours or have not one pair for each rectangle.
const SIZES: [[usize; 3]; 13] = [
    [0, 0, 0],
    [4, 2, 0],
    [4, 2, 5],
    [8, 4, 1],
    [12, 6, 300],
    [3, 0, 0],
    [5, 2, 7],
    [4, 3, 0],
    [4, 0, 0],
    [8, 2, 2],
    [0, 2, 0],
    [4, 4, 0],
    [4, 6, 3],
];

/// Every case that is compared.
pub fn every(run: &mut Run) {
    let mut met = BTreeSet::new();
    let sizes = |[rects, pairs, data]: [usize; 3]| Sizes { rects, pairs, data };
    for kind in KINDS {
        for luma in SIZES.map(sizes) {
            for chroma in SIZES.map(sizes) {
                for reserved in [false, true] {
                    let seed = run.random.number();
                    met.extend(check_outputs(run, Case { kind, reserved, luma, chroma, output: 0, seed }));
                }
            }
        }
    }
    for case in long_ones() {
        met.extend(check(run, &case));
    }
    while run.more() {
        let case = anyhow(&mut run.random);
        met.extend(check_outputs(run, case));
    }
    let missed: Vec<Row> = Row::ALL.into_iter().filter(|row| !met.contains(row)).collect();
    assert!(missed.is_empty(), "no case shows {missed:?}");
}

pub fn replay(run: &mut Run, words: &[u64]) -> Result<(), String> {
    let case = Case::of_words(words)?;
    println!("stated of the original: {:?}", check(run, &case));
    let streams = Streams::new(&case);
    for way in [Way::Plain, Way::OtherSecond, Way::SevenBits] {
        if let Some(Encoded { ending, at, mut output }) = streams.encoded(&case, way) {
            println!("the original itself, {way:?}: {ending:?}, wrote {}", beginning(&output.lent()[..at]));
        }
    }
    Ok(())
}

/// Lengths of an output around the payload's end, each stream's end and the first number's.
fn outputs(case: &Case) -> BTreeSet<usize> {
    let carried = case.carried();
    let first = 4 + carried.first().map_or(0, Sizes::bytes);
    let mut all = BTreeSet::from([0, 3, 4, 5, case.bytes() + 20]);
    for end in [first, case.bytes()] {
        all.extend(end - 3..=end + 2);
    }
    all
}

/// First streams that are just too long, with an output that is too short for them: nothing is read, so they cost nothing.
fn long_ones() -> Vec<Case> {
    let none = Sizes { rects: 0, pairs: 0, data: 0 };
    let one = |kind, rects, bytes: usize| {
        let even = Sizes { rects, pairs: rects / 2, data: 0 };
        let long = Sizes { data: bytes - even.bytes(), ..even };
        let (luma, chroma) = if kind == 2 { (none, long) } else { (long, none) };
        Case { kind, reserved: false, luma, chroma, output: 9, seed: 1 }
    };
    let sizes = [(1 << 30) - 1, 1 << 30, (1 << 30) + 1];
    (0..3)
        .flat_map(|kind| [0, 4].into_iter().flat_map(move |rects| sizes.map(|bytes| one(kind, rects, bytes))))
        .collect()
}

fn anyhow(random: &mut Random) -> Case {
    let mut sizes = || {
        let rects = 4 * random.between(0, 7) as usize;
        let mut sizes = Sizes { rects, pairs: rects / 2, data: random.between(0, 600) as usize };
        match random.between(0, 9) {
            0 => sizes.rects += random.between(0, 3) as usize,
            1 => sizes.pairs = random.between(0, 16) as usize,
            _ => {}
        }
        sizes
    };
    let (luma, chroma) = (sizes(), sizes());
    let kind = match random.between(0, 9) {
        0 => random.number() as u8 as u32,
        1 => random.number() as u32,
        _ => random.between(0, 2) as u32,
    };
    Case { kind, reserved: random.between(0, 2) == 0, luma, chroma, output: 0, seed: random.number() }
}

/// Compares a case with each of its outputs.
fn check_outputs(run: &mut Run, case: Case) -> BTreeSet<Row> {
    outputs(&case).into_iter().flat_map(|output| check(run, &Case { output, ..case })).collect()
}

/// Compares a case, and says what was stated of the original.
fn check(run: &mut Run, case: &Case) -> Vec<Row> {
    let streams = Streams::new(case);
    let mut output = Lent::new(case.output);
    let ours::Answer { number, count } =
        ours::avc444_write(case.kind, streams.luma.given(), streams.chroma.given(), output.lent());
    let written = output.lent().get(..count).unwrap_or_default().to_vec();

    let mut rows = Vec::new();
    let theirs = theirs(case, &streams, &mut rows);
    let ours = run.ours(Outcome { number, count, buffers: vec![output.whole()] });
    run.refused(ours.number);
    run.compare(&ours, &theirs, case.weight(), || case.words());

    if number == 0 {
        let lent = run.ours(Carried::lent(case.kind, streams.luma.given(), streams.chroma.given()));
        run.compare(&lent, &decoded(&written), case.weight(), || case.words());
    }
    rows
}

/// How the call is to end, by what the original does. What is stated of it goes to `rows`.
fn theirs(case: &Case, streams: &Streams, rows: &mut Vec<Row>) -> Outcome {
    let plain = streams.encoded(case, Way::Plain).inspect(|encoded| {
        let stated = stated::plain(case, streams);
        hold(case, streams, encoded, &stated, rows);
        if let Some(other) = streams.encoded(case, Way::OtherSecond) {
            hold(case, streams, &other, &stated::other_second(case), rows);
        }
        if let Some(refused) = stated::seven_bits(case, streams, &stated) {
            let encoded = streams.encoded(case, Way::SevenBits).expect("as plain");
            hold(case, streams, &encoded, &refused, rows);
        }
    });
    let unwritten = |number| Outcome::unwritten(number, vec![Lent::new(case.output).whole()]);
    let carried = case.carried();
    if case.kind > 2 {
        rows.extend(plain.is_none().then_some(Row::NoInput));
        return unwritten(8);
    }
    if !carried.iter().all(Sizes::even) {
        rows.extend(plain.is_none().then_some(Row::NoInput));
        return unwritten(7);
    }
    if carried[0].bytes() >= 1 << 30 {
        return unwritten(11);
    }
    match plain {
        Some(Encoded { ending: Ending::Wrote, at, mut output }) => {
            put_back(case, streams, output.lent());
            Outcome { number: 0, count: at, buffers: vec![output.whole()] }
        }
        Some(Encoded { ending: Ending::NoRoom, .. }) => unwritten(6),
        _ => panic!("what the original does here is stated nowhere: {}", case.words()),
    }
}

/// Sees that the original did what is stated: its end, how far it went, the bytes up to there, and no byte after.
fn hold(case: &Case, streams: &Streams, encoded: &Encoded, stated: &Stated, rows: &mut Vec<Row>) {
    let Stated { row, ending, at } = *stated;
    assert_eq!((encoded.ending, encoded.at), (ending, at), "{row:?} is stated of the original in {}", case.words());
    let mut output = Lent::new(case.output);
    output.lent()[..at].copy_from_slice(&stated::bytes(case, streams, at));
    let same = output.whole() == encoded.output.clone().whole();
    assert!(same, "{row:?} is stated of the original in {}, and it left other bytes", case.words());
    rows.push(row);
}

/// Puts bit 6 back into the quantiser bytes of a payload that the original wrote.
fn put_back(case: &Case, streams: &Streams, payload: &mut [u8]) {
    let mut at = 4;
    for stream in streams.carried(case) {
        at += 4 + 2 * stream.rects.len();
        for (place, quantiser) in stream.pairs.iter().enumerate().step_by(2) {
            payload[at + place] |= quantiser & 0x40;
        }
        at += stream.pairs.len() + stream.data.len();
    }
}
