//! Times each call of the library and of the Rust original on the same input, and some calls of the library on two inputs.
//!
//! It prints a row for each, with tabs between: what stands beside ours (`original`, or `ours` where the library is weighed against itself or
//! against plain copies), the call, the input, our nanoseconds, the other's, and the bound of their ratio, if there is one. bench.py makes
//! tables of them.

use std::process::ExitCode;

use runs::bench::Timed;
use runs::suites::{BENCHES, CHECKS, LIMITED, PAYLOADS, WEIGHINGS, WRITES};

const ROUNDS: u32 = 41;

fn main() -> ExitCode {
    let weighings = || WEIGHINGS.iter().chain(CHECKS).chain(LIMITED).chain(PAYLOADS).chain(WRITES);
    let mut names: Vec<&str> =
        BENCHES.iter().map(|bench| bench.name).chain(weighings().map(|weighing| weighing.name)).collect();
    names.sort_unstable();
    names.dedup();
    let only = match std::env::args().skip(1).collect::<Vec<_>>().as_slice() {
        [] => None,
        [option, name] if option == "--only" && names.contains(&name.as_str()) => Some(name.clone()),
        _ => {
            eprintln!("usage: bench [--only NAME], with NAME one of {}", names.join(", "));
            return ExitCode::from(2);
        }
    };
    let wanted = |name: &str| only.as_ref().is_none_or(|only| only == name);
    for bench in BENCHES.iter().filter(|bench| wanted(bench.name)) {
        eprintln!("{} ...", bench.name);
        for Timed { input, bound, times } in bench.run(ROUNDS) {
            let [ours, theirs] = [times.ours, times.theirs].map(|time| time.as_secs_f64() * 1e9 / times.calls as f64);
            row("original", bench.name, &input, [ours, theirs], bound);
        }
    }
    for weighing in weighings().filter(|weighing| wanted(weighing.name)) {
        eprintln!("{}, {} ...", weighing.name, weighing.input);
        row("ours", weighing.name, weighing.input, weighing.run(ROUNDS), weighing.bound);
    }
    ExitCode::SUCCESS
}

fn row(beside: &str, call: &str, input: &str, [first, second]: [f64; 2], bound: Option<f64>) {
    let bound = bound.map_or(String::new(), |bound| bound.to_string());
    println!("{beside}\t{call}\t{input}\t{first:.3}\t{second:.3}\t{bound}");
}
