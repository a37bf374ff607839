//! Tests that the comparison of single posts passes right libraries and notices
//! wrong ones.

mod delivery;
mod faults;
mod lent;
mod refusals;
mod steps;

use crate::layout::{cells_of, CLOCK, KNOWN, POSTS, ROW_CELLS, TABLE};
use crate::lent_record::post_of;
use crate::library::{Library, Proved};
use crate::posts::clauses::{CLAUSES, ENDS};
use crate::posts::{compare, Comparison, Requests};
use crate::report;
use crate::request::{Ran, Request, Step};
use crate::second::Second;
use crate::tally::Tally;
use faults::{Wrong, FAULTS};
use std::sync::OnceLock;

const SEED: u64 = 1;
const COUNT: usize = 60_000;

/// The first requests of the default run.
fn requests() -> &'static [Request] {
    static REQUESTS: OnceLock<Vec<Request>> = OnceLock::new();
    REQUESTS.get_or_init(|| Requests::new(SEED).take(COUNT).collect())
}

/// How many requests are run rightly before a fault is noticed.
fn noticed(run: impl Fn(&Request) -> Ran) -> Option<u64> {
    let mut comparison = Comparison::default();
    let mut differences = requests()
        .iter()
        .filter_map(|request| comparison.compare(request, run(request)).err());
    differences.next().map(|difference| difference.number)
}

fn assert_noticed(name: &str, run: impl Fn(&Request) -> Ran) {
    let number = noticed(run);
    assert!(number.is_some(), "not noticed: {name}");
    println!("{:>6} {name}", number.unwrap_or_default());
}

fn assert_library_noticed(name: &str, library: &dyn Library) {
    assert_noticed(name, |request| request.run(library));
}

#[test]
fn right_libraries_pass_and_everything_comes() {
    let libraries: [&dyn Library; 2] = [&Second, &Proved];
    for library in libraries {
        match compare(library, SEED, COUNT as u64) {
            Err(difference) => panic!("{}", report::describe(&difference)),
            Ok(tally) => {
                assert_eq!(tally.never_came(), Vec::<String>::new());
                assert_eq!(tally.total(), COUNT as u64);
            }
        }
    }
}

#[test]
fn the_plain_steps_without_a_fault_pass() {
    let library = steps::library(Wrong::Nothing);
    for seed in [SEED, 2, 3] {
        if let Err(difference) = compare(&library, seed, COUNT as u64) {
            panic!("seed {seed}\n{}", report::describe(&difference));
        }
    }
}

#[test]
fn what_never_came_is_told() {
    let never = Tally::default().never_came();
    // Answers, deliveries, refusals; then clauses of 12, ends of their ranges and
    // largest good numbers, of which a fresh post has three, one and one.
    let clauses = 3 * (CLAUSES.len() + 2 * ENDS.len()) + 3 + 1 + 1;
    assert_eq!(never.len(), 7 + 2 + 24 + clauses);
    for name in [
        "hear: refused by 30",
        "order: a delivery",
        "fresh: 12, only: dest without a post",
        "hear: 12, only: log repeats",
        "beacon: 12, only: place 128",
        "order: not 12: log of 128",
    ] {
        assert!(never.contains(&name.to_string()), "{name}");
    }
}

#[test]
fn every_fault_is_noticed() {
    for &fault in FAULTS {
        assert_library_noticed(&format!("{fault:?}"), &steps::library(fault));
    }
}

/// Each clause left out and each end of a range moved, at each step by itself.
#[test]
fn every_clause_of_refusal_12_is_noticed() {
    for step in [Step::Fresh, Step::Order, Step::Hear, Step::Beacon] {
        let assert_wrong = |clause: usize, name: &str, wrong: Wrong| {
            if CLAUSES[clause].is_judged_at(step) {
                let name = format!("{step:?}: {name}");
                assert_library_noticed(&name, &steps::library_with(step, wrong));
            }
        };
        for (index, clause) in CLAUSES.iter().enumerate() {
            let name = format!("does not judge: {}", clause.name);
            assert_wrong(index, &name, Wrong::Clause(index));
        }
        for (index, end) in ENDS.iter().enumerate() {
            let name = format!("accepts {}", end.least_bad.0);
            assert_wrong(end.clause, &name, Wrong::RangeTooLong(index));
            let name = format!("refuses {}", end.largest_good.0);
            assert_wrong(end.clause, &name, Wrong::RangeTooShort(index));
        }
    }
}

#[test]
fn every_wrong_order_of_two_refusals_is_noticed() {
    for step in [Step::Fresh, Step::Order, Step::Hear, Step::Beacon] {
        let numbers = refusals::numbers(step);
        for (index, &late) in numbers.iter().enumerate() {
            for &early in &numbers[..index] {
                // A post that is not in the yard is no source, so no clock of it moves.
                if (step, late, early) == (Step::Hear, 24, 21) {
                    continue;
                }
                let name = format!("{late} before {early} at {step:?}");
                let library = steps::library_with(step, Wrong::Before(late, early));
                assert_library_noticed(&name, &library);
            }
        }
    }
}

#[test]
fn every_number_of_a_record_changes_in_some_step() {
    let mut changes = [false; ROW_CELLS];
    for request in requests() {
        let ran = request.run(&Second);
        if request.step != Step::Fresh && request.outcome(&ran).refusal == 0 {
            let before = cells_of(&request.post);
            let after = cells_of(&post_of(&ran.record.record));
            for (at, change) in changes.iter_mut().enumerate() {
                *change |= before[at] != after[at];
            }
        }
    }
    // Lane and sets stay in every step; everything else of a record can change.
    assert_eq!(changes[..CLOCK], [false; 3]);
    assert!(!changes[POSTS]);
    let stayed = (CLOCK..KNOWN)
        .chain(TABLE..POSTS)
        .filter(|&at| !changes[at]);
    assert_eq!(stayed.collect::<Vec<usize>>(), []);
}
