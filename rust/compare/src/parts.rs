//! Runs the parts of the comparison and prints how they went.

use crate::arguments::{Part, Task};
use crate::library::{Library, Proved};
use crate::list_faults::{Counts, ListFault, Numbered};
use crate::second::Second;
use crate::{csv, frames, grants, lists, posts, report, scripts};
use std::fmt::Display;

/// A long run tells how far it is each time after so many scripts, lists or logs.
const SCRIPTS_BETWEEN: u64 = 20_000;
const LISTS_BETWEEN: u64 = 1_000;
const LOGS_BETWEEN: u64 = 100_000;

/// Runs a part; true if nothing differs and everything came.
pub fn run(task: Task) -> bool {
    match task.part {
        Part::SecondLists | Part::SecondGrants => run_by(&Second, task),
        _ => run_by(&Proved, task),
    }
}

/// Runs a part with this library.
fn run_by(library: &dyn Library, task: Task) -> bool {
    match task.part {
        Part::Frames => compare_frames(library, task),
        Part::Posts => compare_posts(library, task),
        Part::Scripts => compare_scripts(library, task),
        Part::Lists | Part::SecondLists => check_lists(library, task),
        Part::Csv => compare_csv(library, task),
        Part::Grants | Part::SecondGrants => check_grants(library, task),
    }
}

fn compare_frames(library: &dyn Library, task: Task) -> bool {
    let seed = task.seed;
    match frames::compare(library, seed, task.count) {
        Ok(tally) => {
            println!("frames: static library and second implementation agree (seed {seed})");
            print_and_judge(&tally, tally.never_came())
        }
        Err(found) => {
            let function = found.function();
            let before = found.number;
            println!("frames: {function} differs after {before} calls (seed {seed})");
            print!("{found}");
            false
        }
    }
}

fn compare_posts(library: &dyn Library, task: Task) -> bool {
    let seed = task.seed;
    match posts::compare(library, seed, task.count) {
        Ok(tally) => {
            println!("posts: static library and second implementation agree (seed {seed})");
            print_and_judge(&tally, tally.never_came())
        }
        Err(found) => {
            let function = found.request.step.function();
            let before = found.number;
            println!("posts: {function} differs after {before} requests (seed {seed})");
            print!("{}", report::describe(&found));
            false
        }
    }
}

fn compare_scripts(library: &dyn Library, task: Task) -> bool {
    let seed = task.seed;
    let progress = |number| tell(task, number, SCRIPTS_BETWEEN, "scripts");
    match scripts::compare(library, seed, task.first, task.count, progress) {
        Ok(tally) => {
            println!("scripts: static library and second implementation agree (seed {seed})");
            print_and_judge(&tally, tally.never_came())
        }
        Err(found) => {
            let (what, before) = (found.difference.what(), found.before);
            println!("scripts: {what} differs after {before} scripts (seed {seed})");
            let lines = found.difference.case.lines();
            println!(
                "{} of {lines} lines; the smallest that shows a difference:",
                found.place()
            );
            print!("{}", scripts::smallest(library, found).difference);
            false
        }
    }
}

fn check_lists(library: &dyn Library, task: Task) -> bool {
    let checked = lists::check(library, numbered(task), |number| tell_lists(task, number));
    tell_checked("lists: demand 3", task, checked, |fault| {
        lists::smallest(library, fault)
    })
}

fn check_grants(library: &dyn Library, task: Task) -> bool {
    let checked = grants::check(library, numbered(task), |number| tell_lists(task, number));
    tell_checked("grants: request K2's promise", task, checked, |fault| {
        grants::smallest(library, fault)
    })
}

fn numbered(task: Task) -> Numbered {
    Numbered {
        seed: task.seed,
        first: task.first,
        count: task.count,
    }
}

fn tell_lists(task: Task, number: u64) {
    tell(task, number, LISTS_BETWEEN, "lists");
}

/// Prints how a promise went on lists of steps: the counts and what never came, or
/// the fault, made as small as can be.
fn tell_checked<Tally: Counts, With>(
    promise: &str,
    task: Task,
    checked: Result<Tally, Box<ListFault<With>>>,
    smallest: impl Fn(Box<ListFault<With>>) -> Box<ListFault<With>>,
) -> bool {
    match checked {
        Ok(tally) => {
            tell_held(promise, task);
            print_and_judge(&tally.lines(), tally.never_came())
        }
        Err(fault) => {
            tell_failed(promise, task, fault.number);
            print!("{}", smallest(fault));
            false
        }
    }
}

fn compare_csv(library: &dyn Library, task: Task) -> bool {
    let seed = task.seed;
    let progress = |number| tell(task, number, LOGS_BETWEEN, "logs and files");
    match csv::compare(library, seed, task.first, task.count, progress) {
        Ok(tally) => {
            println!("csv: static library and second implementation agree (seed {seed})");
            print_and_judge(&tally, tally.never_came())
        }
        Err(found) => {
            let difference = &found.difference;
            let (function, before) = (difference.function(), difference.number);
            println!("csv: {function} differs after {before} calls (seed {seed})");
            print!("{}\n{difference}", found.place());
            false
        }
    }
}

/// Tells that what is claimed of lists holds.
fn tell_held(claim: &str, task: Task) {
    println!("{claim} holds for the {} (seed {})", who(task), task.seed);
}

/// Tells that it fails, and with which list.
fn tell_failed(claim: &str, task: Task, number: u64) {
    let (before, seed, who) = (number - task.first, task.seed, who(task));
    println!("{claim} fails after {before} lists (seed {seed}) for the {who}");
    println!("list {number} (counted from 0); the smallest found that breaks it:");
}

/// Whose lists are checked.
fn who(task: Task) -> &'static str {
    match task.part {
        Part::SecondLists | Part::SecondGrants => "second implementation",
        _ => "static library",
    }
}

/// Tells how far a long run is.
fn tell(task: Task, number: u64, between: u64, what: &str) {
    let done = number - task.first;
    if done > 0 && done.is_multiple_of(between) {
        eprintln!("{done} {what} so far (seed {})", task.seed);
    }
}

/// Prints the counts and what never came; true if everything came.
fn print_and_judge(tally: &dyn Display, never: Vec<String>) -> bool {
    print!("{tally}");
    for what in &never {
        println!("{what} never came, so nothing is compared for it");
    }
    never.is_empty()
}

#[cfg(test)]
mod tests {
    use super::{run_by, Part, Second, Task};
    use crate::patched::Patched;

    const TASK: Task = Task {
        part: Part::Posts,
        seed: 1,
        count: 60_000,
        first: 0,
    };

    /// Nothing differs and everything comes, or not everything comes.
    #[test]
    fn a_right_library_passes_if_enough_is_compared() {
        assert!(run_by(&Second, TASK));
        assert!(!run_by(&Second, Task { count: 100, ..TASK }));
    }

    #[test]
    fn a_wrong_library_fails_in_each_part() {
        let wrong = Patched {
            frame_check: Box::new(|_| 0),
            run_script: Box::new(|_, _, _| 1),
            script_state: Box::new(|_, _, _| 0x0700),
            post_beacon: Box::new(|_, _| 0),
            csv_first_bad: Box::new(|_| 0),
            ..Patched::default()
        };
        for part in [
            Part::Frames,
            Part::Posts,
            Part::Scripts,
            Part::Lists,
            Part::Csv,
            Part::Grants,
        ] {
            assert!(!run_by(&wrong, Task { part, ..TASK }));
        }
    }
}
