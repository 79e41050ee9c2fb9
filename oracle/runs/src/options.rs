//! The words on the command line of `differential`.

use std::time::Duration;

use crate::run::Budget;

pub const DEFAULT_SEED: u64 = 1;
pub const DEFAULT_COUNT: u64 = 1000;

/// What to do.
#[derive(Debug, PartialEq, Eq)]
pub enum Task {
    Compare,
    SelfTest,
    Replay(String),
    Help,
}

pub struct Options {
    pub task: Task,
    pub seed: u64,
    pub budget: Budget,
    pub only: Option<String>,
}

impl Options {
    /// Reads the words after the program's name.
    pub fn read(words: impl IntoIterator<Item = String>) -> Result<Self, String> {
        let mut options =
            Self { task: Task::Compare, seed: DEFAULT_SEED, budget: Budget::Cases(DEFAULT_COUNT), only: None };
        let mut words = words.into_iter();
        while let Some(word) = words.next() {
            let mut value = || words.next().ok_or(format!("{word} wants a value"));
            match word.as_str() {
                "--seed" => options.seed = number(&value()?)?,
                "--count" => options.budget = Budget::Cases(number(&value()?)?),
                "--seconds" => options.budget = Budget::Time(Duration::from_secs(number(&value()?)?)),
                "--only" => options.only = Some(value()?),
                "--replay" => options.task = Task::Replay(value()?),
                "--self-test" => options.task = Task::SelfTest,
                "--help" | "-h" => options.task = Task::Help,
                _ => return Err(format!("{word} is no option")),
            }
        }
        Ok(options)
    }
}

/// Reads a number that a person wrote.
pub fn number(word: &str) -> Result<u64, String> {
    word.parse().map_err(|_| format!("{word} is not a number"))
}
