//! Compares every answer of the library with the Rust original's.

use std::process::ExitCode;

use runs::options::{number, Options, Task, DEFAULT_COUNT, DEFAULT_SEED};
use runs::run::{Findings, Run};
use runs::suites::{named, Suite, SUITES};
use runs::table::aligned;

fn main() -> ExitCode {
    match Options::read(std::env::args().skip(1)).and_then(|options| act(&options)) {
        Ok(true) => ExitCode::SUCCESS,
        Ok(false) => ExitCode::FAILURE,
        Err(reason) => {
            eprintln!("differential: {reason} (--help says what there is)");
            ExitCode::from(2)
        }
    }
}

/// Does what is asked, and says whether all was as it should be.
fn act(options: &Options) -> Result<bool, String> {
    let suites: Vec<&Suite> = match &options.only {
        Some(name) => vec![named(name)?],
        None => SUITES.iter().collect(),
    };
    match &options.task {
        Task::Help => {
            print!("{}", help());
            Ok(true)
        }
        Task::Compare => Ok(compare(&suites, options)),
        Task::SelfTest => Ok(self_test(&suites, options)),
        Task::Replay(line) => replay(line, options),
    }
}

fn compare(suites: &[&Suite], options: &Options) -> bool {
    println!("seed: {}", options.seed);
    let mut rows =
        vec![["suite", "calls", "bytes compared", "differences", "refusals met"].map(str::to_owned).to_vec()];
    let (mut calls, mut differences) = (0, 0);
    let mut found = Vec::new();
    for suite in suites {
        let mut run = Run::new(suite.name, options.seed, options.budget);
        (suite.run)(&mut run);
        let findings = run.finish();
        rows.push(row(suite, &findings));
        calls += findings.calls;
        differences += findings.differences;
        found.extend(findings.smallest);
    }
    print!("{}", aligned(&rows));
    for smallest in found {
        println!("the smallest difference found: --replay \"{}\": {}", smallest.line, smallest.what);
    }
    println!("compared: {calls} calls, {differences} differences");
    differences == 0
}

fn row(suite: &Suite, findings: &Findings) -> Vec<String> {
    let refusals: Vec<String> = findings.refusals.iter().map(|(number, times)| format!("{number}: {times}")).collect();
    vec![
        suite.name.to_owned(),
        findings.calls.to_string(),
        findings.bytes.to_string(),
        findings.differences.to_string(),
        if refusals.is_empty() { "none".to_owned() } else { refusals.join(", ") },
    ]
}

/// Alters one answer of the library in each suite, and sees whether the suite notices.
fn self_test(suites: &[&Suite], options: &Options) -> bool {
    let mut noticed = 0;
    for suite in suites {
        let mut run = Run::new(suite.name, options.seed, options.budget).altering();
        (suite.run)(&mut run);
        match run.finish() {
            Findings { differences: 1, smallest: Some(difference), .. } => {
                noticed += 1;
                println!("{}: noticed, at {}: {}", suite.name, difference.line, difference.what);
            }
            findings => println!("{}: NOT NOTICED: 1 answer altered, {} differences", suite.name, findings.differences),
        }
    }
    println!("self-test: {noticed} of {} suites noticed an altered answer", suites.len());
    noticed == suites.len()
}

/// Runs the one case of a line that a difference printed.
fn replay(line: &str, options: &Options) -> Result<bool, String> {
    let mut words = line.split_whitespace();
    let suite = named(words.next().unwrap_or_default())?;
    let numbers: Vec<u64> = words.map(number).collect::<Result<_, _>>()?;
    let mut run = Run::new(suite.name, options.seed, options.budget).showing();
    (suite.replay)(&mut run, &numbers)?;
    let findings = run.finish();
    println!("compared: {} calls, {} differences", findings.calls, findings.differences);
    Ok(findings.differences == 0)
}

fn help() -> String {
    let width = SUITES.iter().map(|suite| suite.name.len()).max().unwrap_or(0);
    let next_line = format!("\n{:width$}     ", "");
    let suites: String = SUITES
        .iter()
        .map(|suite| format!("  {:width$}   {}\n", suite.name, suite.about.replace('\n', &next_line)))
        .collect();
    format!(
        "differential: compares every answer of the library with the Rust original's

  --seed N        the seed of all that is random (default {DEFAULT_SEED})
  --count N       random cases for each suite that has them (default {DEFAULT_COUNT})
  --seconds N     or seconds of them for each such suite
  --only NAME     one suite alone
  --replay LINE   the one case of a line that a difference printed, as \"forward 255 0 0\"
  --self-test     alters one answer of the library in each suite, which has to notice
  --help          this

Suites:
{suites}
Status: 0 no difference, or each suite noticed; 1 a difference, or a suite did not notice; 2 bad usage.
"
    )
}
