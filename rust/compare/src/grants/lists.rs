//! Lists of steps without a roll call, with rows of beacons of one post and another.

use crate::posts::made_up::lane_in;
use crate::random::Random;
use crate::scripts::draft::Draft;
use crate::scripts::pick::Plan;
use crate::scripts::step::{read_script, Step, YardLine};

/// The most beacons of one row: more than a post may send.
const LONGEST_ROW: u16 = 140;

/// The most rows that are added. With them no script is over 48,000 bytes.
const MOST_ADDED: u16 = 12;

/// A list's script ends after the step that brings it to such a length.
const LENGTHS: (u16, u16) = (200, 20_000);

/// A yard and a list of steps, refused ones among them.
pub fn any(random: &mut Random) -> (YardLine, Vec<Step>) {
    let mut plan = Plan::new(random);
    plan.roll_calls = 0;
    let mut draft = Draft::new(plan.yard);
    let length = random.between(LENGTHS.0, LENGTHS.1).into();
    while draft.text.len() < length {
        match random.one_in(3) {
            true => {
                let lane = any_lane(random, plan.yard);
                row(random, lane)
                    .into_iter()
                    .for_each(|step| draft.push(step));
            }
            false => draft.push_picked(random, &plan),
        }
    }
    read_script(&draft.text).expect("a yard line and steps")
}

/// A lane, most often one of the yard's posts.
pub fn any_lane(random: &mut Random, yard: YardLine) -> u32 {
    let any = random.byte_between(0, 7);
    match random.one_in(6) {
        true => any.into(),
        false => lane_in(random, yard.posts).unwrap_or(any).into(),
    }
}

fn row(random: &mut Random, lane: u32) -> Vec<Step> {
    vec![Step::Beacon { lane }; random.between(1, LONGEST_ROW).into()]
}

/// The list with some beacons of other lanes left out, and rows of them added.
pub fn changed(random: &mut Random, yard: YardLine, steps: &[Step], lane: u32) -> Vec<Step> {
    let own = Step::Beacon { lane };
    let left_out_one_in = random.pick(&[1, 2, 8, 1_000]);
    let mut changed = steps.to_vec();
    changed.retain(|&step| step == own || !step.is_beacon() || !random.one_in(left_out_one_in));
    for _ in 0..random.between(0, MOST_ADDED) {
        let place = usize::from(random.between(0, changed.len() as u16));
        let other = any_lane(random, yard);
        let mut row = row(random, other);
        row.retain(|&step| step != own);
        changed.splice(place..place, row);
    }
    changed
}
