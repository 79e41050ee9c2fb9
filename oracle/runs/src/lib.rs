//! Runs the library (`ours`) beside the Rust original (`original`) in one process.
//!
//! Each call has a file in `suites`: its suite, which compares every answer, and its bench.

#![deny(unsafe_code)]

pub mod answer;
pub mod bench;
pub mod options;
#[allow(unsafe_code)]
pub mod ours;
pub mod outcome;
pub mod progress;
pub mod random;
pub mod record;
pub mod run;
pub mod suites;
pub mod table;
