//! Tests of the yard's steps against document 01 and request K2.

mod air;
mod beacons;
mod claims;
mod grants;
mod precedence;
mod refusals;
mod roll_call;
mod singly;
mod steps;

use drift_reference::post::{HearAnswer, OrderAnswer, Post};
use drift_reference::yard::{Yard, AIR_LENGTH};

/// What the air holds before the first step.
const UNTOUCHED: u8 = 0xA5;

/// A yard with its air.
#[derive(Clone, Debug, PartialEq, Eq)]
struct World {
    yard: Yard,
    air: Vec<u8>,
}

/// A step with any arguments.
#[derive(Clone, Copy, Debug)]
enum Step {
    Order(usize, usize),
    Hear(usize, usize),
    Beacon(usize),
    Roll,
}

#[derive(Clone, Copy, Debug, PartialEq, Eq)]
enum Answer {
    Order(OrderAnswer),
    Heard(HearAnswer),
    Sent,
    Steps(u16),
}

impl World {
    fn fresh(present: u8, sources: u8, dests: u8) -> World {
        World {
            yard: Yard::fresh(present, sources, dests).expect("a good yard"),
            air: vec![UNTOUCHED; AIR_LENGTH],
        }
    }

    /// The yard of document 01: 0 both, 1 source, 2 dest.
    fn of_document() -> World {
        World::fresh(0b111, 0b011, 0b101)
    }

    /// Runs a step; if it is refused, yard and air must be as they were.
    fn run(&mut self, step: Step) -> Result<Answer, u8> {
        let before = self.clone();
        let (yard, air) = (&mut self.yard, &mut self.air[..]);
        let answer = match step {
            Step::Order(lane, word) => yard.order(air, lane, word).map(Answer::Order),
            Step::Hear(lane, frame) => yard.hear(air, lane, frame).map(Answer::Heard),
            Step::Beacon(lane) => yard.beacon(air, lane).map(|()| Answer::Sent),
            Step::Roll => yard.roll_call(air).map(Answer::Steps),
        };
        if answer.is_err() {
            assert!(*self == before, "{step:?} is refused and changes something");
        }
        answer
    }

    fn order(&mut self, lane: usize, word: usize) -> OrderAnswer {
        match self.run(Step::Order(lane, word)) {
            Ok(Answer::Order(answer)) => answer,
            other => panic!("order {lane} {word}: {other:?}"),
        }
    }

    fn hear(&mut self, lane: usize, frame: usize) -> HearAnswer {
        match self.run(Step::Hear(lane, frame)) {
            Ok(Answer::Heard(answer)) => answer,
            other => panic!("hear {lane} {frame}: {other:?}"),
        }
    }

    fn beacon(&mut self, lane: usize) {
        assert_eq!(self.run(Step::Beacon(lane)), Ok(Answer::Sent));
    }

    fn roll_call(&mut self) -> u16 {
        match self.run(Step::Roll) {
            Ok(Answer::Steps(steps)) => steps,
            other => panic!("roll call: {other:?}"),
        }
    }

    /// The 32 bytes of a frame's place on the air.
    fn place(&self, frame: usize) -> &[u8] {
        &self.air[32 * frame..32 * frame + 32]
    }

    fn log(&self, lane: usize) -> Vec<(u16, u8, u16)> {
        logged(&self.yard.posts[lane])
    }
}

/// The log as it is printed: stamp, lane, word.
fn logged(post: &Post) -> Vec<(u16, u8, u16)> {
    let items = &post.log[..usize::from(post.logged)];
    let item = |&place: &u8| {
        let at = usize::from(place);
        (post.stamps[at], place / 16, post.words[at])
    };
    items.iter().map(item).collect()
}

/// The lanes in a set, rising.
fn lanes(set: u8) -> Vec<usize> {
    (0..8).filter(|lane| set >> lane & 1 == 1).collect()
}

/// The splitmix64 generator: the same seed gives the same steps.
struct Random(u64);

impl Random {
    fn next(&mut self) -> u64 {
        self.0 = self.0.wrapping_add(0x9E37_79B9_7F4A_7C15);
        let mut mixed = self.0;
        mixed = (mixed ^ mixed >> 30).wrapping_mul(0xBF58_476D_1CE4_E5B9);
        mixed = (mixed ^ mixed >> 27).wrapping_mul(0x94D0_49BB_1331_11EB);
        mixed ^ mixed >> 31
    }

    fn below(&mut self, limit: usize) -> usize {
        (self.next() % limit as u64) as usize
    }

    /// A fresh yard with at least one post.
    fn world(&mut self) -> World {
        let present = self.below(255) as u8 + 1;
        let sources = present & self.next() as u8;
        let dests = present & self.next() as u8;
        World::fresh(present, sources, dests)
    }

    /// A step, mostly at lanes and frames that are there.
    fn step(&mut self, world: &World) -> Step {
        let lane = match self.below(40) {
            0 => self.below(10),
            _ => self.one_of(world.yard.present),
        };
        let frames = usize::from(world.yard.frames);
        match self.below(64) {
            0 => Step::Roll,
            1..=3 => Step::Beacon(lane),
            4..=15 => match self.below(10) {
                0 => Step::Order(lane, self.below(70_000)),
                _ if world.yard.sources == 0 => Step::Order(lane, 1),
                _ => Step::Order(self.one_of(world.yard.sources), self.below(65_536)),
            },
            _ if frames == 0 || self.below(50) == 0 => Step::Hear(lane, self.below(3_000)),
            _ => Step::Hear(lane, self.below(frames)),
        }
    }

    /// A lane of a set that has one.
    fn one_of(&mut self, set: u8) -> usize {
        let lanes = lanes(set);
        lanes[self.below(lanes.len())]
    }
}
