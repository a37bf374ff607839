//! Picks the next step of a list by what the yard has done so far.

use super::step::{Step, YardLine};
use crate::posts::made_up::{lane_in, some_posts, subset};
use crate::random::Random;
use crate::state::State;
use drift_reference::frame::{FRAME_LENGTH, LANES, ORDER};
use drift_reference::post::Post;
use drift_reference::yard::Yard;
use std::ops::BitOr;

/// The most frames that the air holds.
const FRAMES: u16 = 2_048;

/// How many of the youngest frames count as recent.
const RECENT: u16 = 6;

/// Frame numbers that no yard reaches, at limits of their sizes.
const NEVER_ON_AIR: [u32; 6] = [2_048, 2_049, 32_768, 65_535, 65_536, 99_999];

/// What a step is picked by.
pub struct Sight<'a> {
    pub frames: u16,
    /// By post and lane, the last serial taken and the newest stamp known there.
    last: [[(u8, u16); LANES]; LANES],
    air: &'a [u8],
}

impl<'a> Sight<'a> {
    pub fn of_yard(yard: &Yard, air: &'a [u8]) -> Sight<'a> {
        Sight {
            frames: yard.frames,
            last: std::array::from_fn(|lane| last_taken(&yard.posts[lane])),
            air,
        }
    }

    pub fn of_state(state: State, air: &'a [u8]) -> Sight<'a> {
        Sight {
            frames: state.frames().min(FRAMES),
            last: std::array::from_fn(|lane| last_taken(&state.post(lane))),
            air,
        }
    }

    pub fn frame(&self, number: u16) -> &[u8] {
        &self.air[FRAME_LENGTH * usize::from(number)..][..FRAME_LENGTH]
    }

    /// How far an order's serial is from the last that the post has taken: 1 is
    /// to be taken, less is again, more is early. Nothing for a beacon.
    fn distance(&self, lane: u8, frame: &[u8]) -> Option<i32> {
        let (last, _) = *self.last[usize::from(lane)].get(usize::from(frame[2]))?;
        (frame[0] == ORDER).then(|| i32::from(frame[3]) - i32::from(last))
    }

    /// Whether a frame has news of the serials that the post's deliveries look at.
    pub fn has_news(&self, lane: u8, frame: &[u8]) -> bool {
        let entries = frame[8..].chunks_exact(3);
        let mut known = self.last[usize::from(lane)].iter().zip(entries);
        known.any(|(&(serial, stamp), entry)| {
            entry[0] == serial && u16::from_be_bytes([entry[1], entry[2]]) > stamp
        })
    }
}

fn last_taken(post: &Post) -> [(u8, u16); LANES] {
    std::array::from_fn(|lane| {
        let last = post.last[lane];
        let stamp = post.table.get(17 * lane + usize::from(last));
        (last, stamp.copied().unwrap_or(0))
    })
}

/// Which frame a post is made to hear.
#[derive(Clone, Copy)]
enum Taste {
    Recent,
    Any,
    Oldest,
    ToBeTaken,
    Early,
    Again,
    Beacon,
    OfOneSender,
    Own,
    NotOnAir,
}

/// A frame that is sought for the post of a lane.
struct Wish {
    lane: u8,
    taste: Taste,
    sender: u8,
    is_own_allowed: bool,
    is_news: bool,
}

impl Wish {
    fn is_met(&self, sight: &Sight, frame: &[u8]) -> bool {
        let distance = sight.distance(self.lane, frame);
        let is_own = frame[1] == self.lane;
        let is_of_taste = match self.taste {
            Taste::ToBeTaken => return distance == Some(1),
            Taste::Own => return is_own,
            Taste::Early => distance > Some(1),
            Taste::Again => !is_own && distance.is_some_and(|distance| distance < 1),
            Taste::Beacon => !is_own && frame[0] != ORDER,
            Taste::OfOneSender => frame[1] == self.sender,
            _ => return !is_own || self.is_own_allowed,
        };
        is_of_taste && (!self.is_news || sight.has_news(self.lane, frame))
    }
}

/// Orderly yards take what is to be taken; others lose, repeat and reorder more.
const TASTES: [&[(Taste, u16)]; 5] = [
    &[
        (Taste::ToBeTaken, 20),
        (Taste::Beacon, 4),
        (Taste::Any, 2),
        (Taste::Own, 1),
        (Taste::NotOnAir, 1),
    ],
    &[
        (Taste::Recent, 14),
        (Taste::ToBeTaken, 3),
        (Taste::OfOneSender, 3),
        (Taste::NotOnAir, 1),
    ],
    &[
        (Taste::Any, 12),
        (Taste::Early, 4),
        (Taste::Again, 4),
        (Taste::ToBeTaken, 4),
        (Taste::Own, 1),
    ],
    &[
        (Taste::OfOneSender, 8),
        (Taste::Oldest, 4),
        (Taste::ToBeTaken, 8),
        (Taste::Early, 2),
        (Taste::NotOnAir, 1),
    ],
    &[
        (Taste::ToBeTaken, 6),
        (Taste::Early, 3),
        (Taste::Again, 3),
        (Taste::Beacon, 6),
        (Taste::Own, 2),
    ],
];

/// How the steps of one list are picked.
pub struct Plan {
    pub yard: YardLine,
    /// So many of 64 steps are roll calls, beacons and orders; the others hear.
    pub roll_calls: u16,
    pub beacons: u16,
    pub orders: u16,
    /// One in so many steps is at a lane that may have no post.
    any_lane_one_in: u16,
    /// Posts that seldom hear: most frames are lost to them.
    deaf: u8,
    tastes: &'static [(Taste, u16)],
}

impl Plan {
    /// A plan for any yard.
    pub fn new(random: &mut Random) -> Plan {
        // Of few posts, more orders are delivered before a roll call.
        let posts = match random.one_in(2) {
            true => [(); 3]
                .map(|()| 1 << random.between(0, 7))
                .into_iter()
                .fold(0, BitOr::bitor),
            false => some_posts(random),
        };
        let yard = YardLine {
            posts,
            sources: subset(random, posts),
            dests: subset(random, posts),
        };
        Plan::for_yard(random, yard)
    }

    pub fn for_yard(random: &mut Random, yard: YardLine) -> Plan {
        let deaf = match random.one_in(3) {
            true => random.byte() & random.byte(),
            false => 0,
        };
        Plan {
            yard,
            roll_calls: random.pick(&[0, 1, 1, 2, 3, 8]),
            beacons: random.pick(&[1, 3, 6, 12]),
            orders: random.pick(&[2, 3, 5, 8, 14, 24]),
            any_lane_one_in: random.pick(&[12, 30, 100]),
            deaf,
            tastes: random.pick(&TASTES),
        }
    }

    pub fn next_step(&self, random: &mut Random, sight: &Sight) -> Step {
        let share = random.between(1, 64);
        if share <= self.roll_calls {
            return Step::Roll;
        }
        if share <= self.roll_calls + self.beacons {
            let lane = self.lane(random, self.yard.posts);
            return Step::Beacon { lane };
        }
        let is_order = share <= self.roll_calls + self.beacons + self.orders;
        let is_first = sight.frames == 0 && !random.one_in(8);
        // A post alone has nothing to hear but itself.
        let is_alone = self.yard.posts.is_power_of_two() && random.one_in(2);
        if is_order || is_first || is_alone {
            return self.order(random);
        }
        let mut lane = self.lane(random, self.yard.posts);
        if self.deaf >> lane & 1 == 1 && !random.one_in(12) {
            lane = self.lane(random, self.yard.posts & !self.deaf);
        }
        let frame = self.frame(random, sight, lane as u8);
        Step::Hear { lane, frame }
    }

    /// Most often an order of a source.
    fn order(&self, random: &mut Random) -> Step {
        let set = match random.one_in(20) {
            true => self.yard.posts,
            false => self.yard.sources,
        };
        let word = match random.one_in(2) {
            true => random.between(0, 99),
            false => random.between_often_an_end(0, u16::MAX),
        };
        Step::Order {
            lane: self.lane(random, set),
            word: word.into(),
        }
    }

    /// Most often a lane of the set.
    fn lane(&self, random: &mut Random, set: u8) -> u32 {
        let lane = match random.one_in(self.any_lane_one_in) {
            true => None,
            false => lane_in(random, set),
        };
        lane.unwrap_or(random.byte_between(0, 7)).into()
    }

    /// The frame that the post of a lane hears.
    fn frame(&self, random: &mut Random, sight: &Sight, lane: u8) -> u32 {
        let taste = self.taste(random);
        if sight.frames == 0 || matches!(taste, Taste::NotOnAir) {
            return match random.one_in(3) {
                true => random.pick(&NEVER_ON_AIR),
                false => (sight.frames + random.between(0, 2)).into(),
            };
        }
        let last = sight.frames - 1;
        let start = match taste {
            Taste::Recent => random.between(last.saturating_sub(RECENT), last),
            Taste::Oldest => random.between(0, last.min(RECENT)),
            _ => random.between(0, last),
        };
        let wish = Wish {
            lane,
            taste,
            sender: lane_in(random, self.yard.posts & !(1 << lane)).unwrap_or(lane),
            is_own_allowed: random.one_in(16),
            is_news: random.one_in(2),
        };
        let is_wanted = |&number: &u16| wish.is_met(sight, sight.frame(number));
        let is_foreign = |&number: &u16| sight.frame(number)[1] != lane;
        // The newest one, or the first from the start on and around.
        let mut around = (start..sight.frames).chain(0..start);
        let found = match random.one_in(3) {
            true => (0..sight.frames).rev().find(is_wanted),
            false => around.clone().find(is_wanted),
        };
        let found = found.or_else(|| around.find(is_foreign));
        found.unwrap_or(start).into()
    }

    fn taste(&self, random: &mut Random) -> Taste {
        let shares = self.tastes.iter().map(|(_, share)| share).sum();
        let mut left = random.between(1, shares);
        for &(taste, share) in self.tastes {
            if left <= share {
                return taste;
            }
            left -= share;
        }
        Taste::Any
    }
}
