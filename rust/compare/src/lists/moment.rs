//! The yard and the air at one moment, as the library's state tells them.

use crate::answer::{told, Answered};
use crate::library::Library;
use crate::scripts::step::{Step, YardLine};
use crate::state::{State, STATE_CELLS};

/// An order. Derived comparisons are by stamp and then lane.
#[derive(Clone, Copy, Debug, PartialEq, Eq, PartialOrd, Ord)]
pub struct Order {
    pub stamp: u16,
    pub lane: u8,
    pub serial: u8,
    pub word: u16,
}

/// What the steps of a script left.
#[derive(Clone)]
pub struct Moment {
    state: Vec<u16>,
    pub air: Vec<u8>,
    /// What the last line answered, or nothing if there is no such answer.
    pub answered: Option<Answered>,
}

impl Moment {
    /// After a script, run over an air that had these bytes before.
    pub fn after(library: &dyn Library, script: &[u8], air: &[u8]) -> Result<Moment, String> {
        // What the cells held does not matter: they hold something else each time.
        let mut state = vec![script.len() as u16; STATE_CELLS];
        let (mut script, mut air) = (script.to_vec(), air.to_vec());
        let answer = library.script_state(&mut script, &mut air, &mut state);
        let answered = Answered::read(answer);
        if answered.is_some_and(|answered| !answered.has_run()) {
            return Err(format!("a good script answers: {}", told(answer)));
        }
        Ok(Moment {
            state,
            air,
            answered,
        })
    }

    pub fn state(&self) -> State<'_> {
        State(&self.state)
    }

    /// Whether yard and air are the same; the last line's answer may be another.
    pub fn has_yard_and_air_of(&self, other: &Moment) -> bool {
        self.state == other.state && self.air == other.air
    }

    /// A post's delivery log.
    pub fn log(&self, lane: usize) -> Result<Vec<Order>, String> {
        let post = self.state().post(lane);
        let places = post.log.get(..usize::from(post.logged));
        let places = places.ok_or(format!("post {lane} logs {} orders", post.logged))?;
        let order = |&place: &u8| match usize::from(place) {
            at @ 0..128 => Ok(Order {
                stamp: post.stamps[at],
                lane: place / 16,
                serial: place % 16 + 1,
                word: post.words[at],
            }),
            _ => Err(format!("post {lane} logs place {place}")),
        };
        places.iter().map(order).collect()
    }

    /// How many orders of other lanes the posts have taken, all posts together.
    pub fn taken(&self, yard: YardLine) -> u32 {
        let lanes = || (0..8).filter(|lane| yard.posts >> lane & 1 == 1);
        let taken = |post: usize| {
            let last = self.state().post(post).last;
            let of_others = (0..8).filter(move |&lane| lane != post);
            of_others.map(|lane| u32::from(last[lane])).sum::<u32>()
        };
        lanes().map(taken).sum()
    }

    /// The single steps of a roll call that is run now and leaves so many frames.
    pub fn roll_call(&self, yard: YardLine, sent: &[Order], frames_after: u16) -> Vec<Step> {
        let lanes = |set: u8| (0..8u8).filter(move |lane| set >> lane & 1 == 1);
        let mut steps = Vec::new();
        for lane in lanes(yard.posts) {
            for other in lanes(yard.posts).filter(|&other| other != lane) {
                let orders = sent.iter().filter(|order| order.lane == other).count();
                for serial in 0..orders {
                    let frame = self.state().first(16 * usize::from(other) + serial);
                    steps.push(hear(lane, frame.into()));
                }
            }
        }
        steps.extend(lanes(yard.sources).map(|lane| Step::Beacon { lane: lane.into() }));
        let first = u32::from(frames_after).wrapping_sub(yard.sources.count_ones());
        for lane in lanes(yard.posts) {
            let beacons = (0..).zip(lanes(yard.sources));
            let heard = beacons.filter(|&(_, other)| other != lane);
            steps.extend(heard.map(|(number, _)| hear(lane, first.wrapping_add(number))));
        }
        steps
    }
}

fn hear(lane: u8, frame: u32) -> Step {
    Step::Hear {
        lane: lane.into(),
        frame,
    }
}
