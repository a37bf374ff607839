//! The comparison of a library with the second implementation on single posts.

mod breaks;
pub mod clauses;
mod hearings;
mod history;
pub mod made_up;

use crate::frames::{self, good_frame};
use crate::library::Library;
use crate::random::Random;
use crate::request::{Lent, Ran, Request, Step, AREA_LENGTH};
use crate::second::Second;
use crate::tally::Tally;
use drift_reference::frame::{Frame, FRAME_LENGTH};
use drift_reference::post::Post;
use history::History;

const STEPS: [Step; 4] = [Step::Fresh, Step::Order, Step::Hear, Step::Beacon];

/// Lengths next to the right one and at the ends of an area; 288 and 65,568 are
/// 32 in their lowest 8 and 16 bits.
const WRONG_LENGTHS: [usize; 6] = [0, 31, 33, AREA_LENGTH, 288, 65_568];

/// A request that the two sides did not run alike.
#[derive(Debug)]
pub struct Difference {
    /// How many requests came before it.
    pub number: u64,
    pub request: Request,
    pub reference: Ran,
    pub library: Ran,
}

/// Compares the four steps on `count` requests; stops at the first difference.
pub fn compare(library: &dyn Library, seed: u64, count: u64) -> Result<Tally, Box<Difference>> {
    let mut comparison = Comparison::default();
    for (_, request) in (0..count).zip(Requests::new(seed)) {
        comparison.compare(&request, request.run(library))?;
    }
    Ok(comparison.tally)
}

/// Compares what a library did with what the second implementation does, and
/// counts the requests.
#[derive(Default)]
pub struct Comparison {
    pub tally: Tally,
}

impl Comparison {
    pub fn compare(&mut self, request: &Request, library: Ran) -> Result<(), Box<Difference>> {
        let reference = request.run(&Second);
        if library != reference {
            return Err(Box::new(Difference {
                number: self.tally.total(),
                request: request.clone(),
                reference,
                library,
            }));
        }
        self.tally.add(request, request.outcome(&reference));
        Ok(())
    }
}

/// An endless row of requests; the same seed gives the same row.
pub struct Requests {
    random: Random,
    history: History,
}

impl Requests {
    pub fn new(seed: u64) -> Requests {
        let mut random = Random::new(seed);
        let history = History::new(&mut random);
        Requests { random, history }
    }

    /// Half of the requests are steps of histories; the others have made-up or
    /// broken records, frames and lengths, each with several faults at times.
    fn next_request(&mut self) -> Request {
        let random = &mut self.random;
        if random.one_in(2) {
            return self.history.step(random);
        }
        if random.one_in(16) {
            return all_random(random);
        }
        let mut request = if random.one_in(3) {
            self.history.proposal(random)
        } else {
            let post = made_up::record(random);
            let frame = hearings::frame_for(random, &post);
            request(random, Step::Hear, &frame, post)
        };
        if random.one_in(3) {
            request.step = random.pick(&STEPS);
        }
        if random.one_in(2) {
            breaks::break_record(random, &mut request.post);
        }
        change_frame(random, &mut request);
        change_lengths(random, &mut request);
        request
    }
}

impl Iterator for Requests {
    type Item = Request;

    fn next(&mut self) -> Option<Request> {
        let mut request = self.next_request();
        if request.step == Step::Fresh {
            lend_another_record(&mut self.random, &mut request);
        }
        Some(request)
    }
}

/// A request with right lengths; whatever the step does not use is random.
fn request(random: &mut Random, step: Step, frame: &[u8; FRAME_LENGTH], post: Post) -> Request {
    let mut lent = random_area(random);
    lent.area[..FRAME_LENGTH].copy_from_slice(frame);
    Request {
        step,
        asked: lane_and_sets(&post),
        word: random.between_often_an_end(0, u16::MAX),
        frame: lent,
        buffer: random_area(random),
        post,
        margin: random.byte(),
    }
}

fn lane_and_sets(post: &Post) -> [u8; 4] {
    [post.lane, post.posts, post.sources, post.dests]
}

/// A fresh post is asked for with what stood in the record. The record lent is
/// another, good or not: it must not matter, and a refusal must leave it.
fn lend_another_record(random: &mut Random, request: &mut Request) {
    request.asked = lane_and_sets(&request.post);
    request.post = match random.one_in(2) {
        true => made_up::record(random),
        false => made_up::all_random(random, u8::MAX),
    };
}

fn random_area(random: &mut Random) -> Lent {
    Lent {
        length: FRAME_LENGTH,
        area: std::array::from_fn(|_| random.byte()),
    }
}

/// Often another frame: one for this record, any good one, or a damaged one.
fn change_frame(random: &mut Random, request: &mut Request) {
    let area = &mut request.frame.area[..FRAME_LENGTH];
    match random.between(0, 9) {
        0..=3 => area.copy_from_slice(&hearings::frame_for(random, &request.post)),
        4 => write(&good_frame(random), area),
        5..=6 => hearings::damage(random, area),
        _ => {}
    }
}

fn change_lengths(random: &mut Random, request: &mut Request) {
    for lent in [&mut request.frame, &mut request.buffer] {
        if random.one_in(20) {
            lent.length = random.pick(&WRONG_LENGTHS);
        } else if random.one_in(40) {
            lent.length = random.between(0, AREA_LENGTH as u16).into();
        }
    }
}

fn write(frame: &Frame, area: &mut [u8]) {
    area.copy_from_slice(&frames::bytes_of(frame));
}

/// Random numbers everywhere, often small ones so that some of the checks pass.
fn all_random(random: &mut Random) -> Request {
    let largest = random.pick(&[0, 1, 7, 17, 255]);
    let post = made_up::all_random(random, largest);
    let frame = std::array::from_fn(|_| random.byte_between(0, largest));
    let step = random.pick(&STEPS);
    let mut request = request(random, step, &frame, post);
    if random.one_in(2) {
        write(&good_frame(random), &mut request.frame.area[..FRAME_LENGTH]);
    }
    change_lengths(random, &mut request);
    request
}
