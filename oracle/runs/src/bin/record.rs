//! Writes the stored input and output of the replays from the Rust original's answers.

use std::fs;
use std::path::Path;
use std::process::ExitCode;

use runs::options::{number, DEFAULT_SEED};
use runs::record::{samples, Sample};

const USAGE: &str = "usage: record [--seed N]";

fn main() -> ExitCode {
    match seed(&std::env::args().skip(1).collect::<Vec<_>>()).and_then(record) {
        Ok(()) => ExitCode::SUCCESS,
        Err(reason) => {
            eprintln!("record: {reason}");
            ExitCode::from(2)
        }
    }
}

fn seed(words: &[String]) -> Result<u64, String> {
    match words {
        [] => Ok(DEFAULT_SEED),
        [option, word] if option == "--seed" => number(word),
        _ => Err(USAGE.to_owned()),
    }
}

fn record(seed: u64) -> Result<(), String> {
    println!("seed: {seed}");
    let oracle = Path::new(env!("CARGO_MANIFEST_DIR")).parent().expect("runs stands in oracle");
    let stored = oracle.parent().expect("oracle stands in the repository").join("tests/stored");
    for sample in samples(seed) {
        write(&stored, &sample).map_err(|reason| format!("{}: {reason}", sample.name))?;
        let Sample { name, cases, input, output } = sample;
        println!("{name}: {cases} cases, input {} bytes, output {} bytes", input.len(), output.len());
    }
    Ok(())
}

fn write(folder: &Path, sample: &Sample) -> std::io::Result<()> {
    fs::write(folder.join(format!("{}.in", sample.name)), &sample.input)?;
    fs::write(folder.join(format!("{}.out", sample.name)), &sample.output)
}
