//! Lists of steps that break a promise: how they are looked for, told and made
//! smaller. For demand 3 (`lists`) and for request K2's promise (`grants`).

use crate::random::Random;
use crate::scripts::escaped;
use crate::scripts::shrink::shrink;
use std::fmt::{self, Display};

/// The most tries to find a smaller list that breaks the promise.
const MOST_TRIES: usize = 400;

/// A list of steps that breaks a promise.
#[derive(Debug)]
pub struct ListFault<With> {
    /// The number of the list.
    pub number: u64,
    /// What the list was checked with.
    with: With,
    pub script: Vec<u8>,
    pub what: String,
}

impl<With> Display for ListFault<With> {
    fn fmt(&self, output: &mut fmt::Formatter) -> fmt::Result {
        write!(output, "{}", escaped(&self.script))?;
        writeln!(output, "{}", self.what)
    }
}

/// What was counted over lists.
pub trait Counts: Default {
    /// The counts with their names; each of them must be above 0.
    fn counts(&self) -> Vec<(&'static str, u64)>;

    /// What never came, so that nothing is checked for it.
    fn never_came(&self) -> Vec<String> {
        let never = self.counts().into_iter().filter(|&(_, count)| count == 0);
        never.map(|(name, _)| name.to_string()).collect()
    }

    /// A line for each count.
    fn lines(&self) -> String {
        let counts = self.counts().into_iter();
        counts
            .map(|(name, count)| format!("{name:<30}{count:>12}\n"))
            .collect()
    }
}

/// Which random lists: `count` of this seed, from number `first` on.
#[derive(Clone, Copy)]
pub struct Numbered {
    pub seed: u64,
    pub first: u64,
    pub count: u64,
}

/// What was found of one list: what it was checked with, its script, what is wrong.
pub type Found<With> = (With, Vec<u8>, String);

/// Checks these random lists; stops at the first fault. `progress` is told of each
/// number before its list runs.
pub fn check_lists<Tally: Counts, With>(
    lists: Numbered,
    mut progress: impl FnMut(u64),
    mut check: impl FnMut(&mut Random, &mut Tally) -> Result<(), Found<With>>,
) -> Result<Tally, Box<ListFault<With>>> {
    let mut tally = Tally::default();
    for number in lists.first..lists.first.saturating_add(lists.count) {
        progress(number);
        let found = check(&mut Random::numbered(lists.seed, number), &mut tally);
        found.map_err(|(with, script, what)| {
            Box::new(ListFault {
                number,
                with,
                script,
                what,
            })
        })?;
    }
    Ok(tally)
}

/// The fault that the smallest list found shows. `wrong` tells what is wrong with a
/// script: nothing if it is no yard line with steps.
pub fn smallest_list<With>(
    mut fault: Box<ListFault<With>>,
    wrong: impl Fn(&With, &[u8]) -> Option<String>,
) -> Box<ListFault<With>> {
    let script = fault.script.clone();
    shrink(MOST_TRIES, &script, |script| {
        let Some(what) = wrong(&fault.with, script) else {
            return false;
        };
        fault.script = script.to_vec();
        fault.what = what;
        true
    });
    fault
}
