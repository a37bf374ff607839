//! Yards of single posts that pass frames to each other, so that their records
//! are ones that a post can reach.

use super::{made_up, request};
use crate::answer::Answer;
use crate::lent_record::post_of;
use crate::random::Random;
use crate::request::{Request, Step};
use crate::second::Second;
use drift_reference::frame::{Stamp, FRAME_LENGTH, ORDER};
use drift_reference::post::Post;

type Bytes = [u8; FRAME_LENGTH];

/// How many of the youngest frames count as recent.
const RECENT: usize = 6;

pub struct History {
    /// Posts still to be made fresh, as the arguments for that.
    unmade: Vec<Post>,
    posts: Vec<Post>,
    /// All that was broadcast; a frame that is never picked is lost.
    air: Vec<Bytes>,
    steps_left: u16,
    /// One in so many steps is an order or a beacon.
    order_one_in: u16,
    beacon_one_in: u16,
    /// One in so many hearings is sought to be taken or early.
    orderly_one_in: u16,
    /// Where the clocks start: 0, or near their end.
    start: Stamp,
}

impl History {
    pub fn new(random: &mut Random) -> History {
        let posts = made_up::some_posts(random);
        let sources = made_up::subset(random, posts);
        let dests = made_up::subset(random, posts);
        let post = |lane| Post {
            lane,
            sources,
            dests,
            posts,
            ..Post::EMPTY
        };
        let lanes = (0..8).filter(|lane| posts >> lane & 1 == 1);
        let start = match random.one_in(6) {
            true => Stamp(u16::MAX - random.between(0, 60)),
            false => Stamp(0),
        };
        // A post alone has nothing to hear but itself; some yards send all orders.
        let longest = match posts.is_power_of_two() {
            true => 60,
            false => random.pick(&[100, 200, 400, 1000]),
        };
        History {
            unmade: lanes.map(post).collect(),
            posts: Vec::new(),
            air: Vec::new(),
            steps_left: random.between(20, longest),
            order_one_in: random.between(2, 20),
            beacon_one_in: random.between(4, 20),
            orderly_one_in: random.between(1, 6),
            start,
        }
    }

    /// The next step of the history, which goes on from its outcome.
    pub fn step(&mut self, random: &mut Random) -> Request {
        if self.steps_left == 0 {
            *self = History::new(random);
        }
        self.steps_left -= 1;
        if let Some(post) = self.unmade.pop() {
            return self.make_fresh(random, post);
        }
        let request = self.proposal(random);
        let done = request.run(&Second);
        let answer = request.outcome(&done).answer;
        if answer != Answer::Refused {
            let mut posts = self.posts.iter_mut();
            let post = posts.find(|post| post.lane == request.post.lane);
            *post.expect("the post of the proposal") = post_of(&done.record.record);
        }
        if matches!(
            answer,
            Answer::OrderSent | Answer::Taken | Answer::BeaconSent
        ) {
            let broadcast = done.buffer.numbers().try_into();
            self.air.push(broadcast.expect("a broadcast is a frame"));
        }
        request
    }

    fn make_fresh(&mut self, random: &mut Random, asked: Post) -> Request {
        let request = request(random, Step::Fresh, &[0; FRAME_LENGTH], asked);
        let done = request.run(&Second);
        if request.outcome(&done).answer == Answer::FreshMade {
            let mut post = post_of(&done.record.record);
            post.clock = self.start;
            self.posts.push(post);
        }
        request
    }

    /// A step that the history could take next, without taking it.
    pub fn proposal(&self, random: &mut Random) -> Request {
        if self.posts.is_empty() {
            let post = made_up::record(random);
            return request(random, Step::Beacon, &[0; FRAME_LENGTH], post);
        }
        let mut post = self.pick_post(random);
        let step = if random.one_in(self.beacon_one_in) {
            Step::Beacon
        } else if self.air.is_empty() || random.one_in(self.order_one_in) {
            Step::Order
        } else {
            Step::Hear
        };
        // Most orders go to a source, if the pick finds one.
        for _ in 0..random.between(0, 8) {
            if step == Step::Order && post.sources >> post.lane & 1 == 0 {
                post = self.pick_post(random);
            }
        }
        let frame = self.pick_frame(random, post);
        request(random, step, &frame, post.clone())
    }

    fn pick_post(&self, random: &mut Random) -> &Post {
        let last = self.posts.len() as u16 - 1;
        &self.posts[usize::from(random.between(0, last))]
    }

    /// Any frame, a recent one, or one whose order is to be taken or early.
    fn pick_frame(&self, random: &mut Random, post: &Post) -> Bytes {
        let Some(last) = self.air.len().checked_sub(1) else {
            return [0; FRAME_LENGTH];
        };
        let first = match random.one_in(3) {
            true => last.saturating_sub(RECENT),
            false => 0,
        };
        let picked = usize::from(random.between(first as u16, last as u16));
        let is_early = random.one_in(6);
        let is_orderly = random.one_in(self.orderly_one_in);
        let is_own_allowed = random.one_in(8);
        let wanted = |frame: &&Bytes| {
            let last = post.last[usize::from(frame[2])];
            let is_of_order = frame[0] == ORDER && (frame[3] == last + 1) != is_early;
            (is_own_allowed || frame[1] != post.lane)
                && (!is_orderly || is_of_order && frame[3] > last)
        };
        // The first wanted one from the picked one on, and around.
        let around = self.air[picked..].iter().chain(&self.air[..picked]);
        *around.clone().find(wanted).unwrap_or(&self.air[picked])
    }
}
