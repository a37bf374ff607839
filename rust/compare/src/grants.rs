//! Request K2's promise on the running code: in a list of steps without a roll call
//! the beacons of other posts change none of the answers to a post's beacon steps.
//! It is told from printouts alone, without the second implementation.

mod lists;
mod tally;

use crate::library::Library;
use crate::list_faults::{check_lists, smallest_list, Found, ListFault, Numbered};
use crate::random::Random;
use crate::scripts::printed;
use crate::scripts::step::{read_script, write_script, Step, YardLine};
use drift_reference::script::OUTPUT_LENGTH;
use drift_reference::yard::AIR_LENGTH;

pub use tally::Tally;

/// A list in which beacons of other posts change what a post, of the lane that it
/// was checked with, is granted.
pub type Fault = ListFault<u32>;

/// Checks random lists, as `check_lists` tells.
pub fn check(
    library: &dyn Library,
    lists: Numbered,
    progress: impl FnMut(u64),
) -> Result<Tally, Box<Fault>> {
    check_lists(lists, progress, |random, tally| {
        check_list(library, random, tally)
    })
}

/// Makes a list and the same with some beacons of other posts left out and others
/// added. Both must answer the post's beacon steps as without all of them.
fn check_list(
    library: &dyn Library,
    random: &mut Random,
    tally: &mut Tally,
) -> Result<(), Found<u32>> {
    let (yard, steps) = lists::any(random);
    let lane = lists::any_lane(random, yard);
    let changed = lists::changed(random, yard, &steps, lane);
    for steps in [&steps, &changed] {
        let ran = check_steps(library, yard, steps, lane);
        let refusals = ran.map_err(|what| (lane, write_script(yard, steps), what))?;
        tally.add_list(steps, &refusals, lane);
    }
    tally.add_change(&steps, &changed, lane);
    Ok(())
}

/// Runs a list and the same without the beacons of other posts; gives the refusal
/// or 0 of each step, or what is wrong.
fn check_steps(
    library: &dyn Library,
    yard: YardLine,
    steps: &[Step],
    lane: u32,
) -> Result<Vec<u8>, String> {
    let own = Step::Beacon { lane };
    let alone: Vec<Step> = steps
        .iter()
        .copied()
        .filter(|&step| step == own || !step.is_beacon())
        .collect();
    let refusals = run(library, yard, steps)?;
    let granted = answers_to(own, steps, &refusals);
    let granted_alone = answers_to(own, &alone, &run(library, yard, &alone)?);
    match granted
        .iter()
        .zip(&granted_alone)
        .position(|(one, other)| one != other)
    {
        None => Ok(refusals),
        Some(at) => Err(format!(
            "{own} number {} answers {}, and {} without the beacons of other posts",
            at + 1,
            told(granted[at]),
            told(granted_alone[at])
        )),
    }
}

/// The refusals of these steps, 0 where it was sent.
fn answers_to(step: Step, steps: &[Step], refusals: &[u8]) -> Vec<u8> {
    let answered = steps.iter().zip(refusals);
    let own = answered.filter(|(&other, _)| other == step);
    own.map(|(_, &refusal)| refusal).collect()
}

fn told(refusal: u8) -> String {
    match refusal {
        0 => "sent".into(),
        number => format!("refused by {number}"),
    }
}

/// The refusal of each step, 0 where there is none, as the printout tells it.
fn run(library: &dyn Library, yard: YardLine, steps: &[Step]) -> Result<Vec<u8>, String> {
    let mut script = write_script(yard, steps);
    let (mut air, mut output) = (vec![0xA5; AIR_LENGTH], vec![0; OUTPUT_LENGTH]);
    let length = library.run_script(&mut script, &mut air, &mut output);
    let printout = output.get(..length).unwrap_or(&[]);
    if let Some((line, number)) = printed::bad(printout) {
        return Err(format!("a good script is bad at line {line} by {number}"));
    }
    if !printed::has_posts(printout) {
        return Err("no post is printed".into());
    }
    let mut refusals = vec![0; steps.len()];
    for (line, number) in printed::refused(printout) {
        // Line 1 is the yard.
        let place = line.checked_sub(2).and_then(|at| refusals.get_mut(at));
        *place.ok_or(format!("line {line} is refused, and is no step"))? = number as u8;
    }
    Ok(refusals)
}

/// The fault that the smallest list found shows.
pub fn smallest(library: &dyn Library, fault: Box<Fault>) -> Box<Fault> {
    smallest_list(fault, |&lane, script| {
        let (yard, steps) = read_script(script)?;
        check_steps(library, yard, &steps, lane).err()
    })
}
