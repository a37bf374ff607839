//! The steps once more, plainly, with a place for one fault.

use super::delivery::deliver;
use super::faults::Wrong;
use super::refusals::{has, refusal};
use crate::answer::{Answer, Answered};
use crate::lent_record::{post_of, record_of, Record};
use crate::patched::Patched;
use crate::posts::clauses::fresh_record;
use crate::request::Step;
use drift_reference::frame::{Entry, Frame, Serial, Stamp, BEACON, LANES, ORDER};
use drift_reference::post::Post;

/// A step that is asked for; what it does not use is empty. The post of a fresh
/// one is the one to be.
pub struct Asked<'a> {
    pub step: Step,
    pub post: Post,
    pub word: u16,
    pub frame: &'a [u8],
    pub buffer: &'a mut [u8],
}

/// A library whose four steps have this fault.
pub fn library(wrong: Wrong) -> Patched {
    Patched {
        post_fresh: Box::new(move |record, asked| {
            let fresh = Asked::new(Step::Fresh, fresh_record(asked), &mut []);
            answer(wrong, fresh, record).refusal
        }),
        post_order: Box::new(move |record, word, buffer| {
            let order = Asked::new(Step::Order, post_of(record), buffer);
            answer(wrong, Asked { word, ..order }, record).number()
        }),
        post_hear: Box::new(move |record, frame, buffer| {
            let hear = Asked::new(Step::Hear, post_of(record), buffer);
            answer(wrong, Asked { frame, ..hear }, record).number()
        }),
        post_beacon: Box::new(move |record, buffer| {
            let beacon = Asked::new(Step::Beacon, post_of(record), buffer);
            answer(wrong, beacon, record).refusal
        }),
        ..Patched::default()
    }
}

/// A library of which only this step has the fault.
pub fn library_with(step: Step, wrong: Wrong) -> Patched {
    let (faulty, mut right) = (library(wrong), Patched::default());
    match step {
        Step::Fresh => right.post_fresh = faulty.post_fresh,
        Step::Order => right.post_order = faulty.post_order,
        Step::Hear => right.post_hear = faulty.post_hear,
        Step::Beacon => right.post_beacon = faulty.post_beacon,
    }
    right
}

impl Asked<'_> {
    fn new(step: Step, post: Post, buffer: &mut [u8]) -> Asked<'_> {
        Asked {
            step,
            post,
            word: 0,
            frame: &[],
            buffer,
        }
    }
}

/// Runs the step and brings the record up to date.
fn answer(wrong: Wrong, mut asked: Asked, record: &mut Record) -> Answered {
    if let Some(number) = refusal(wrong, &asked) {
        return Answered::refused(number);
    }
    if refusal(Wrong::Nothing, &asked).is_some() {
        // What a step does where it should be refused does not matter.
        return Answered::of(Answer::Again, 255);
    }
    let outcome = run(wrong, &mut asked);
    *record = record_of(&asked.post);
    outcome
}

fn run(wrong: Wrong, asked: &mut Asked) -> Answered {
    match asked.step {
        Step::Fresh => Answered::of(Answer::FreshMade, 0),
        Step::Order => order(wrong, asked),
        Step::Hear => hear(wrong, asked),
        Step::Beacon => {
            let frame = Frame {
                kind: BEACON,
                sender: asked.post.lane,
                lane: 0,
                serial: Serial(0),
                stamp: Stamp(0),
                word: 0,
                entries: newest(wrong, &asked.post),
            };
            broadcast(&frame, asked);
            Answered::of(Answer::BeaconSent, 0)
        }
    }
}

fn order(wrong: Wrong, asked: &mut Asked) -> Answered {
    let post = &mut asked.post;
    post.clock.0 += 1;
    post.serial.0 += 1;
    let (lane, serial, stamp) = (post.lane, post.serial, post.clock);
    let known = &mut post.table[17 * usize::from(lane) + usize::from(serial.0)];
    *known = match wrong {
        Wrong::OwnOrderOnlyRaises => stamp.0.max(*known),
        Wrong::OwnOrderWithoutEntry => *known,
        _ => stamp.0,
    };
    let mut frame = Frame {
        kind: ORDER,
        sender: lane,
        lane,
        serial,
        stamp,
        word: asked.word,
        entries: [Entry::NONE; LANES],
    };
    keep(wrong, post, &frame);
    post.last[usize::from(lane)] = serial.0;
    frame.entries = newest(wrong, post);
    broadcast(&frame, asked);
    let count = match wrong {
        Wrong::OrderDoesNotDeliver => 0,
        _ => deliver(wrong, &mut asked.post),
    };
    Answered {
        serial: serial.0,
        stamp: stamp.0,
        ..Answered::of(Answer::OrderSent, count)
    }
}

fn hear(wrong: Wrong, asked: &mut Asked) -> Answered {
    let frame = Frame::read(asked.frame).expect("it is not refused");
    let post = &mut asked.post;
    let old = newest(wrong, post);
    let last = post.last[usize::from(frame.lane)];
    let answer = match frame.serial.0 {
        _ if frame.kind == BEACON => Answer::BeaconHeard,
        serial if serial <= last => Answer::Again,
        serial if serial == last + 1 || wrong == Wrong::EarlyIsTaken => Answer::Taken,
        _ => Answer::Early,
    };
    raise_entries(wrong, post, &frame, answer);
    if answer == Answer::Taken || answer == Answer::Early && wrong == Wrong::EarlyIsKept {
        keep(wrong, post, &frame);
    }
    if answer == Answer::Taken {
        post.last[usize::from(frame.lane)] = frame.serial.0;
    }
    move_clock(wrong, post, &frame, answer);
    if answer == Answer::Taken || answer == Answer::Again && wrong == Wrong::BroadcastOnAgain {
        pass_on(wrong, asked, frame, old);
    }
    let post = &mut asked.post;
    let mut count = match wrong {
        Wrong::DeliversOnlyWhenTaken if answer != Answer::Taken => 0,
        _ => deliver(wrong, post),
    };
    if wrong == Wrong::DeliversEarly && answer == Answer::Early && has(post.dests, post.lane) {
        post.log[usize::from(post.logged)] = 16 * frame.lane + frame.serial.0 - 1;
        post.logged += 1;
        count += 1;
    }
    Answered::of(answer, count)
}

fn raise_entries(wrong: Wrong, post: &mut Post, frame: &Frame, answer: Answer) {
    match wrong {
        Wrong::EntryForgottenOnAgain if answer == Answer::Again => return,
        Wrong::EntryForgottenOnEarly if answer == Answer::Early => return,
        _ => {}
    }
    for (lane, entry) in frame.entries.iter().enumerate() {
        let serial = usize::from(entry.serial.0);
        let is_older = serial < usize::from(post.last[lane]);
        let known = &mut post.table[17 * lane + serial];
        match wrong {
            Wrong::EntryLowers if entry.stamp.0 > 0 => *known = entry.stamp.0,
            Wrong::EntryOfNewerSerialOnly if is_older => {}
            _ => *known = entry.stamp.0.max(*known),
        }
    }
    if wrong == Wrong::OrderRaisesTable && answer == Answer::Taken {
        let place = 17 * usize::from(frame.lane) + usize::from(frame.serial.0);
        post.table[place] = post.table[place].max(frame.stamp.0);
    }
}

fn keep(wrong: Wrong, post: &mut Post, frame: &Frame) {
    let place = 16 * usize::from(frame.lane) + usize::from(frame.serial.0) - 1;
    post.stamps[place] = frame.stamp.0;
    if wrong != Wrong::WordForgotten {
        post.words[place] = frame.word;
    }
}

/// Broadcasts the order under the own lane; `old` is what was known before.
fn pass_on(wrong: Wrong, asked: &mut Asked, mut frame: Frame, old: [Entry; LANES]) {
    if wrong != Wrong::SenderStays {
        frame.sender = asked.post.lane;
    }
    match wrong {
        Wrong::BroadcastOfOldTable => frame.entries = old,
        Wrong::FramePassedOn => {}
        _ => frame.entries = newest(wrong, &asked.post),
    }
    broadcast(&frame, asked);
}

fn move_clock(wrong: Wrong, post: &mut Post, frame: &Frame, answer: Answer) {
    let is_moved = match wrong {
        Wrong::ClockOnAgain => matches!(answer, Answer::Taken | Answer::Again),
        Wrong::ClockOnEarly => matches!(answer, Answer::Taken | Answer::Early),
        _ => answer == Answer::Taken,
    };
    if !is_moved || !has(post.sources, post.lane) && wrong != Wrong::ClockOfAnyPost {
        return;
    }
    let reached = match wrong {
        Wrong::ClockWithoutStamp => post.clock.0,
        Wrong::ClockWithoutMax => frame.stamp.0,
        _ => post.clock.0.max(frame.stamp.0),
    };
    post.clock.0 = reached.wrapping_add(1);
    let serial = match wrong {
        Wrong::OwnEntryAtZero => 0,
        _ => usize::from(post.serial.0),
    };
    let known = &mut post.table[17 * usize::from(post.lane) + serial];
    *known = match wrong {
        Wrong::OwnEntryForgotten => *known,
        Wrong::OwnEntryOnlyRaised => post.clock.0.max(*known),
        _ => post.clock.0,
    };
}

fn broadcast(frame: &Frame, asked: &mut Asked) {
    frame.write(asked.buffer).expect("a good frame");
}

fn newest(wrong: Wrong, post: &Post) -> [Entry; LANES] {
    std::array::from_fn(|lane| {
        let row = &post.table[17 * lane..17 * lane + 17];
        let known = (0..17).filter(|&serial| row[serial] > 0);
        let picked = match wrong {
            Wrong::NewestLowerSerial => known.rev().max_by_key(|&serial| row[serial]),
            Wrong::NewestHighestSerial => known.max(),
            Wrong::NewestOfSourcesOnly if !has(post.sources, lane as u8) => None,
            Wrong::NewestSerialZeroIsNone => known
                .filter(|&serial| serial > 0)
                .max_by_key(|&serial| row[serial]),
            _ => known.max_by_key(|&serial| row[serial]),
        };
        picked.map_or(Entry::NONE, |serial| Entry {
            serial: Serial(serial as u8),
            stamp: Stamp(row[serial]),
        })
    })
}
