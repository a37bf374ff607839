//! A request to run one step of a single post, and how a library runs it.

use crate::answer::{Answer, Answered};
use crate::lent_record::{record_of, LentRecord};
use crate::library::Library;
use crate::stretch::Stretch;
use drift_reference::post::Post;

/// Each area has room for two frames.
pub const AREA_LENGTH: usize = 64;

#[derive(Clone, Copy, Debug, PartialEq, Eq)]
pub enum Step {
    Fresh,
    Order,
    Hear,
    Beacon,
}

/// An area of which the first bytes are lent; a longer stretch repeats it.
#[derive(Clone, Debug, PartialEq, Eq)]
pub struct Lent {
    pub length: usize,
    pub area: [u8; AREA_LENGTH],
}

#[derive(Clone, Debug, PartialEq, Eq)]
pub struct Request {
    pub step: Step,
    /// Lane, posts, sources and dests with which a fresh post is asked for.
    pub asked: [u8; 4],
    pub word: u16,
    pub frame: Lent,
    pub buffer: Lent,
    /// The numbers of the record that is lent.
    pub post: Post,
    /// The byte that stands beside all that is lent.
    pub margin: u8,
}

/// What a step answered, and all that was lent, as the step left it.
#[derive(Clone, Debug, PartialEq, Eq)]
pub struct Ran {
    /// As the function gave it: 0 or the refusal, of an order or a hearing more.
    pub answer: u64,
    pub record: LentRecord,
    pub frame: Stretch<u8>,
    pub buffer: Stretch<u8>,
}

impl Step {
    /// The name of the function that runs the step.
    pub fn function(self) -> &'static str {
        match self {
            Step::Fresh => "drift_post_fresh",
            Step::Order => "drift_post_order",
            Step::Hear => "drift_post_hear",
            Step::Beacon => "drift_post_beacon",
        }
    }
}

impl Lent {
    pub fn bytes(&self) -> impl Iterator<Item = u8> + '_ {
        self.area.iter().copied().cycle().take(self.length)
    }
}

impl Request {
    /// Runs the step by a library on copies of all that is lent.
    pub fn run(&self, library: &dyn Library) -> Ran {
        let lent = |lent: &Lent| Stretch::new(lent.bytes(), self.margin);
        let mut ran = Ran {
            answer: 0,
            record: LentRecord::new(record_of(&self.post), self.margin),
            frame: lent(&self.frame),
            buffer: lent(&self.buffer),
        };
        let (post, buffer) = (&mut ran.record.record, ran.buffer.lent());
        ran.answer = match self.step {
            Step::Fresh => library.post_fresh(post, self.asked).into(),
            Step::Order => library.post_order(post, self.word, buffer),
            Step::Hear => library.post_hear(post, ran.frame.lent(), buffer),
            Step::Beacon => library.post_beacon(post, buffer).into(),
        };
        ran
    }

    /// What the right answer tells.
    pub fn outcome(&self, right: &Ran) -> Answered {
        let answered = Answered::read(right.answer).expect("a right answer");
        let answer = match self.step {
            Step::Fresh if answered.refusal == 0 => Answer::FreshMade,
            Step::Beacon if answered.refusal == 0 => Answer::BeaconSent,
            _ => answered.answer,
        };
        Answered { answer, ..answered }
    }
}
