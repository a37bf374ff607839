//! Compares the static libraries of the proved crates with the second
//! implementation on frames, single posts, scripts and delivery logs. Checks demand 3
//! and request K2's promise on lists of steps run by the static libraries.

#![deny(unsafe_code)]

mod answer;
mod arguments;
mod calls;
mod csv;
mod damage;
mod frames;
mod grants;
mod layout;
mod lent_record;
mod library;
mod list_faults;
mod lists;
mod parts;
#[cfg(test)]
mod patched;
mod posts;
mod random;
mod report;
mod request;
#[cfg(test)]
mod request_tests;
mod scripts;
mod second;
mod state;
#[cfg(test)]
mod state_tests;
mod stretch;
mod tally;
#[cfg(test)]
mod wrong_csv;
#[cfg(test)]
mod wrong_frames;
#[cfg(test)]
mod wrong_grants;
#[cfg(test)]
mod wrong_lists;
#[cfg(test)]
mod wrong_posts;
#[cfg(test)]
mod wrong_scripts;

use std::env;
use std::ffi::OsString;
use std::process::ExitCode;

fn main() -> ExitCode {
    let words: Vec<OsString> = env::args_os().skip(1).collect();
    let Some(tasks) = arguments::tasks(&words) else {
        eprintln!("{}", arguments::USAGE);
        return ExitCode::from(2);
    };
    // A part that fails does not keep the others from being run.
    let passed = tasks.into_iter().map(parts::run).filter(|passed| !passed);
    match passed.count() {
        0 => ExitCode::SUCCESS,
        _ => ExitCode::FAILURE,
    }
}
