//! The comparison of a library with the second implementation on delivery logs.

mod calls;
mod files;
mod inputs;
mod limits;
mod limits_seen;
mod logs;
mod tally;
mod texts;

use crate::calls::Difference;
use crate::library::Library;
use calls::Function;
use inputs::Input;

pub use tally::Tally;

/// A difference that was found.
#[derive(Debug)]
pub struct Found {
    /// The number of the random input; a fixed one has none.
    pub number: Option<u64>,
    pub difference: Box<Difference<Function>>,
}

/// Compares the fixed logs and files, then `count` random ones from number `first`
/// on; stops at the first difference. `progress` is told of each number before.
pub fn compare(
    library: &dyn Library,
    seed: u64,
    first: u64,
    count: u64,
    mut progress: impl FnMut(u64),
) -> Result<Tally, Box<Found>> {
    let mut tally = Tally::default();
    for (place, input) in (0..).zip(limits::inputs()) {
        compare_input(library, &mut tally, &input, place, None)?;
    }
    for number in first..first.saturating_add(count) {
        progress(number);
        for input in inputs::random_inputs(seed, number) {
            compare_input(library, &mut tally, &input, number, Some(number))?;
        }
    }
    Ok(tally)
}

/// Compares each call on an input; `seed` is that of the numbers in what is lent.
fn compare_input(
    library: &dyn Library,
    tally: &mut Tally,
    input: &Input,
    seed: u64,
    number: Option<u64>,
) -> Result<(), Box<Found>> {
    for call in input.calls(seed) {
        match call.compare(library, tally.total()) {
            Ok(answer) => tally.add(&call, answer),
            Err(difference) => return Err(Box::new(Found { number, difference })),
        }
    }
    Ok(())
}

impl Found {
    /// Where it was found.
    pub fn place(&self) -> String {
        match self.number {
            Some(number) => format!("random log or file {number} (counted from 0)"),
            None => "a fixed log or file".into(),
        }
    }
}
