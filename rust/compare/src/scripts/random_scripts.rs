//! Random scripts: good ones of all sizes, and damaged ones.

use super::case::Case;
use super::damage;
use super::draft::Draft;
use super::pick::Plan;
use super::step::Step;
use crate::posts::made_up::{lane_in, subset};
use crate::random::Random;
use drift_reference::post::HearAnswer;

/// The beacons that a post may send.
const BEACONS: u16 = 128;

/// Lengths of the air that are refused by 13.
const WRONG_AIRS: [usize; 6] = [0, 31, 64, 65_535, 65_537, 65_568];

/// Answers that deliver, of which random steps give few.
const DELIVERING: [fn(HearAnswer) -> bool; 3] = [
    |answer| matches!(answer, HearAnswer::Again(count) if count > 0),
    |answer| matches!(answer, HearAnswer::Early(count) if count > 0),
    |answer| matches!(answer, HearAnswer::Beacon(count) if count > 0),
];

/// The case with this number; the same seed and number give the same case.
pub fn case(seed: u64, number: u64) -> Case {
    let mut random = Random::numbered(seed, number);
    let mut plan = Plan::new(&mut random);
    let mut draft = draft(&mut random, &mut plan);
    let script = match random.between(0, 9) {
        0..=2 => damage::damaged(&mut random, draft.text),
        3..=5 => cut_at_a_line(&mut random, draft.text),
        6 => {
            let is_wanted = random.pick(&DELIVERING);
            draft.push_delivering(&mut random, &plan, is_wanted);
            draft.text
        }
        _ => draft.text,
    };
    let mut case = Case::new(script, random.bits());
    if random.one_in(40) {
        case.air_length = random.pick(&WRONG_AIRS);
    }
    if random.one_in(200) {
        case.output_length = random.pick(&[131_071, 131_073]);
        case.state_cells = random.pick(&[0, 4_482, 4_484]);
    }
    case
}

/// A good script; most often a small one.
fn draft(random: &mut Random, plan: &mut Plan) -> Draft {
    let mut draft = Draft::new(plan.yard);
    let lines = match random.between(0, 99) {
        0..=19 => random.between(0, 12),
        20..=74 => random.between(10, 80),
        75..=93 => random.between(80, 400),
        94 => {
            draft.fill(random, plan);
            0
        }
        95..=96 => {
            spend_beacons(random, &mut draft, plan);
            random.between(5, 60)
        }
        97 => {
            plan.roll_calls = 40;
            random.between(10, 200)
        }
        _ => {
            send_orders(random, &mut draft, plan);
            random.between(20, 200)
        }
    };
    for _ in 0..lines {
        draft.push_picked(random, plan);
    }
    draft
}

/// Beacons of one post, of some or of all, until few or none of theirs are left.
fn spend_beacons(random: &mut Random, draft: &mut Draft, plan: &Plan) {
    for _ in 0..random.between(0, 10) {
        draft.push_picked(random, plan);
    }
    let posts = plan.yard.posts;
    let noisy = match random.between(0, 2) {
        0 => lane_in(random, posts).map_or(0, |lane| 1 << lane),
        1 => subset(random, posts),
        _ => posts,
    };
    for lane in (0..8).filter(|lane| noisy >> lane & 1 == 1) {
        for _ in 0..random.between(BEACONS - 3, BEACONS + 1) {
            draft.push(Step::Beacon { lane });
        }
    }
}

/// Many orders of each source at once, up to one too many.
fn send_orders(random: &mut Random, draft: &mut Draft, plan: &Plan) {
    for lane in (0..8).filter(|lane| plan.yard.sources >> lane & 1 == 1) {
        for _ in 0..random.between_often_an_end(0, 17) {
            let word = random.between(0, u16::MAX).into();
            draft.push(Step::Order { lane, word });
        }
    }
}

/// Keeps the first lines, so that a script can end with any step.
fn cut_at_a_line(random: &mut Random, mut script: Vec<u8>) -> Vec<u8> {
    let ends: Vec<usize> = (1..=script.len())
        .filter(|&end| script[end - 1] == b'\n')
        .collect();
    script.truncate(random.pick(&ends));
    script
}

#[cfg(test)]
mod tests {
    use super::{case, draft, Draft, Plan, Random};
    use crate::scripts::damage::damaged;
    use crate::scripts::draft::LONGEST_SCRIPT;
    use drift_reference::script::run_to_yard;
    use drift_reference::yard::AIR_LENGTH;

    fn runs(script: &[u8]) -> bool {
        run_to_yard(script, &mut vec![0; AIR_LENGTH]).is_ok()
    }

    #[test]
    fn a_number_gives_the_same_case_each_time() {
        for number in 0..40 {
            assert_eq!(case(3, number), case(3, number));
            assert_ne!(case(3, number), case(3, number + 1));
            assert_ne!(case(3, number), case(4, number));
        }
    }

    #[test]
    fn scripts_that_are_not_damaged_run() {
        for seed in 0..200 {
            let mut random = Random::new(seed);
            let mut plan = Plan::new(&mut random);
            let script = draft(&mut random, &mut plan).text;
            assert!(runs(&script), "{}", String::from_utf8_lossy(&script));
        }
    }

    #[test]
    fn a_filled_script_has_exactly_the_longest_length() {
        for seed in 0..30 {
            let mut random = Random::new(seed);
            let plan = Plan::new(&mut random);
            let mut draft = Draft::new(plan.yard);
            draft.fill(&mut random, &plan);
            assert_eq!(draft.text.len(), LONGEST_SCRIPT, "seed {seed}");
            assert!(runs(&draft.text), "seed {seed}");
        }
    }

    #[test]
    fn every_script_can_be_damaged() {
        for script in [
            "",
            "\n",
            "(",
            "(yard (0 both))\n",
            "(yard (0 both))\n(roll)\n",
        ] {
            let mut others = 0;
            for seed in 0..300 {
                let damaged = damaged(&mut Random::new(seed), script.as_bytes().to_vec());
                others += u32::from(damaged != script.as_bytes());
            }
            assert!(others > 100, "{script}");
        }
    }
}
