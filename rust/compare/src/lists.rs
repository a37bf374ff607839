//! Demand 3 on the running code: over lists of steps, what it says of every log,
//! from answers and logs alone, without the second implementation.

mod moment;
mod tally;
mod watch;

use crate::library::Library;
use crate::list_faults::{check_lists, smallest_list, ListFault, Numbered};
use crate::posts::made_up::lane_in;
use crate::random::Random;
use crate::scripts::pick::{Plan, Sight};
use crate::scripts::step::{read_script, Step, YardLine};
use watch::Watch;

pub use tally::Tally;

/// The fewest and the most picked steps of a list.
const LENGTHS: (u16, u16) = (20, 150);

/// One in so many lists begins with beacons of one post, so many that it has few
/// or none left.
const SPENDING_ONE_IN: u16 = 8;
const SPENDING: (u16, u16) = (124, 128);

/// A list of steps after which demand 3 does not hold, over an air whose bytes are
/// made from the seed that it was checked with.
pub type Fault = ListFault<u64>;

/// Checks random lists, as `check_lists` tells.
pub fn check(
    library: &dyn Library,
    lists: Numbered,
    progress: impl FnMut(u64),
) -> Result<Tally, Box<Fault>> {
    check_lists(lists, progress, |random, tally| {
        let air = random.bits();
        let checked = check_list(library, random, air, tally);
        checked.map_err(|(script, what)| (air, script, what))
    })
}

/// Picks and checks one list; gives the script and what is wrong, if anything is.
fn check_list(
    library: &dyn Library,
    random: &mut Random,
    air: u64,
    tally: &mut Tally,
) -> Result<(), (Vec<u8>, String)> {
    let plan = Plan::new(random);
    let spending = spending(random, plan.yard);
    let mut watch = Watch::new(library, plan.yard, air, tally);
    let mut checked = watch.start();
    checked = checked.and_then(|()| spending.into_iter().try_for_each(|step| watch.step(step)));
    for _ in 0..random.between(LENGTHS.0, LENGTHS.1) {
        if checked.is_err() {
            break;
        }
        let step = plan.next_step(random, &Sight::of_state(watch.state(), watch.air()));
        checked = watch.step(step);
    }
    checked.map_err(|what| (watch.script().to_vec(), what))
}

/// The beacons that a list begins with; most often none.
fn spending(random: &mut Random, yard: YardLine) -> Vec<Step> {
    let set = random.pick(&[yard.sources, yard.posts]);
    let count = random.between(SPENDING.0, SPENDING.1).into();
    match (random.one_in(SPENDING_ONE_IN), lane_in(random, set)) {
        (true, Some(lane)) => vec![Step::Beacon { lane: lane.into() }; count],
        _ => Vec::new(),
    }
}

/// The fault that the smallest list found shows.
pub fn smallest(library: &dyn Library, fault: Box<Fault>) -> Box<Fault> {
    smallest_list(fault, |&air, script| {
        check_script(library, air, script)?.err()
    })
}

/// Checks the list of a script; nothing if it is no yard line with steps.
fn check_script(library: &dyn Library, air: u64, script: &[u8]) -> Option<Result<(), String>> {
    let (yard, steps) = read_script(script)?;
    let mut tally = Tally::default();
    let mut watch = Watch::new(library, yard, air, &mut tally);
    let checked = watch.start();
    Some(checked.and_then(|()| steps.into_iter().try_for_each(|step| watch.step(step))))
}
