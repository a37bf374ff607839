//! The comparison of a library with the second implementation on scripts.

mod beacon_limits;
mod case;
mod damage;
pub mod draft;
mod limits;
mod limits_seen;
pub mod pick;
pub mod printed;
mod random_scripts;
mod report;
pub mod shrink;
#[cfg(test)]
mod shrink_tests;
pub mod step;
mod tally;
mod texts;

use crate::library::Library;
use case::Case;

pub use report::{escaped, Found};
pub use tally::Tally;
pub use texts::NUMBERS;

/// Compares the fixed scripts, then `count` random ones from number `first` on;
/// stops at the first difference. `progress` is told of each number before its
/// script runs.
pub fn compare(
    library: &dyn Library,
    seed: u64,
    first: u64,
    count: u64,
    mut progress: impl FnMut(u64),
) -> Result<Tally, Box<Found>> {
    let mut tally = Tally::default();
    for case in limits::cases() {
        compare_case(library, &mut tally, &case, None)?;
    }
    for number in first..first.saturating_add(count) {
        progress(number);
        let case = random_scripts::case(seed, number);
        compare_case(library, &mut tally, &case, Some(number))?;
    }
    Ok(tally)
}

/// `number` is that of a random script.
fn compare_case(
    library: &dyn Library,
    tally: &mut Tally,
    case: &Case,
    number: Option<u64>,
) -> Result<(), Box<Found>> {
    match case.compare(library) {
        Ok(outcome) => {
            tally.add(case, &outcome);
            Ok(())
        }
        Err(difference) => Err(Box::new(Found {
            before: tally.total(),
            number,
            difference,
        })),
    }
}

/// The difference that the smallest script found shows.
pub fn smallest(library: &dyn Library, mut found: Box<Found>) -> Box<Found> {
    let case = found.difference.case.clone();
    shrink::shrink(shrink::MOST_TRIES, &case.script, |script| {
        let case = Case {
            script: script.to_vec(),
            ..case.clone()
        };
        let smaller = case.compare(library).err();
        smaller.map(|smaller| found.difference = smaller).is_some()
    });
    found
}
