//! A script in the making, run by the second implementation as it grows, so that
//! the next steps can go on from what happened.

use super::pick::{Plan, Sight};
use super::step::{Step, YardLine};
use crate::random::Random;
use drift_reference::frame::FRAME_LENGTH;
use drift_reference::post::HearAnswer;
use drift_reference::yard::{Yard, AIR_LENGTH};
use std::fmt::Display;

pub use crate::damage::LONGEST_TEXT as LONGEST_SCRIPT;

/// The most steps that are added to come to a wanted delivery.
const STEPS_UNTIL_DELIVERY: usize = 40;

/// No step has a longer line, with its line feed.
const LONGEST_STEP: usize = "(order 0 65535)\n".len();

pub struct Draft {
    pub text: Vec<u8>,
    yard: Yard,
    air: Vec<u8>,
}

impl Draft {
    pub fn new(line: YardLine) -> Draft {
        let yard = Yard::fresh(line.posts, line.sources, line.dests);
        let mut draft = Draft {
            text: Vec::new(),
            yard: yard.expect("a yard with posts, and roles only there"),
            air: vec![0; AIR_LENGTH],
        };
        draft.line(&line);
        draft
    }

    /// Adds a step and runs it.
    pub fn push(&mut self, step: Step) {
        self.line(&step);
        let (yard, air) = (&mut self.yard, &mut self.air[..]);
        // What it answers, a refusal too, is in the yard that it leaves.
        let _ = match step {
            Step::Order { lane, word } => yard.order(air, lane as usize, word as usize).err(),
            Step::Hear { lane, frame } => yard.hear(air, lane as usize, frame as usize).err(),
            Step::Beacon { lane } => yard.beacon(air, lane as usize).err(),
            Step::Roll => yard.roll_call(air).err(),
        };
    }

    /// How many frames have been broadcast.
    pub fn frames(&self) -> u32 {
        self.yard.frames.into()
    }

    pub fn push_picked(&mut self, random: &mut Random, plan: &Plan) {
        let step = plan.next_step(random, &Sight::of_yard(&self.yard, &self.air));
        self.push(step);
    }

    /// Ends with a hearing that delivers and is answered so, if one is possible
    /// now or after some more steps.
    pub fn push_delivering(
        &mut self,
        random: &mut Random,
        plan: &Plan,
        is_wanted: fn(HearAnswer) -> bool,
    ) {
        for _ in 0..STEPS_UNTIL_DELIVERY {
            if let Some(step) = self.delivering(is_wanted) {
                return self.push(step);
            }
            self.push_picked(random, plan);
        }
    }

    fn delivering(&self, is_wanted: fn(HearAnswer) -> bool) -> Option<Step> {
        let sight = Sight::of_yard(&self.yard, &self.air);
        for lane in (0..8).filter(|lane| self.yard.dests >> lane & 1 == 1) {
            for frame in 0..sight.frames {
                if !sight.has_news(lane, sight.frame(frame)) {
                    continue;
                }
                let mut post = self.yard.posts[usize::from(lane)].clone();
                let heard = post.hear(sight.frame(frame), &mut [0; FRAME_LENGTH]);
                if heard.is_ok_and(is_wanted) {
                    let (lane, frame) = (lane.into(), frame.into());
                    return Some(Step::Hear { lane, frame });
                }
            }
        }
        None
    }

    /// Adds picked steps up to exactly the longest length.
    pub fn fill(&mut self, random: &mut Random, plan: &Plan) {
        // With 18 to 33 bytes left, two or three more lines of some lengths fit.
        while LONGEST_SCRIPT - self.text.len() > 17 + LONGEST_STEP {
            self.push_picked(random, plan);
        }
        let lane = plan.yard.posts.trailing_zeros();
        let left = LONGEST_SCRIPT - self.text.len();
        // `(hear 0 0)` and its line feed have 11 bytes; each digit more is one more.
        let hear = |length: usize| Step::Hear {
            lane,
            frame: 10u32.pow(length as u32 - 11) - u32::from(length == 11),
        };
        let lines = match left {
            18..=22 => vec![Step::Roll, hear(left - 7)],
            23..=26 => vec![hear(11), hear(left - 11)],
            27..=30 => vec![hear(15), hear(left - 15)],
            _ => vec![Step::Roll, hear(11), hear(left - 18)],
        };
        for step in lines {
            self.push(step);
        }
    }

    fn line(&mut self, line: &dyn Display) {
        self.text.extend_from_slice(format!("{line}\n").as_bytes());
    }
}
