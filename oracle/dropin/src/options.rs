//! The words on the command line.

use crate::cases;

/// What to do.
#[derive(Debug, PartialEq, Eq)]
pub enum Task {
    Compare,
    /// One case alone.
    Again(usize),
    SelfTest,
    Help,
}

#[derive(Debug, PartialEq, Eq)]
pub struct Options {
    pub task: Task,
    pub seed: u64,
    pub count: u64,
}

impl Options {
    /// Reads the words after the program's name.
    pub fn read(words: impl IntoIterator<Item = String>) -> Result<Self, String> {
        let mut options = Self { task: Task::Compare, seed: 1, count: 2000 };
        let mut words = words.into_iter();
        while let Some(word) = words.next() {
            let mut number = || {
                let value = words.next().ok_or(format!("{word} wants a number"))?;
                value.parse::<u64>().map_err(|_| format!("{value} is not a number"))
            };
            match word.as_str() {
                "--seed" => options.seed = number()?,
                "--count" => options.count = number()?,
                "--case" => options.task = Task::Again(number()? as usize),
                "--self-test" => options.task = Task::SelfTest,
                "--help" | "-h" => options.task = Task::Help,
                _ => return Err(format!("{word} is no option")),
            }
        }
        Ok(options)
    }
}

pub fn help() -> String {
    format!(
        "dropin: one source file over the Rust original and over bind/rust, and all that both answer compared

  --seed N      the seed of all that is random (default 1)
  --count N     random cases (default 2000)
  --case N      one case alone, with the seed and the count that it was found with
  --self-test   alters one answer of each call, which has to be noticed
  --help        this

Cases:
{}

Status: 0 no difference, or each altered answer noticed; 1 a difference, or one not noticed; 2 bad usage.
",
        cases::ABOUT
    )
}
