//! Plain conditions of the refusals, each judged by itself on any record, so that
//! they can be weakened and put into another order.

use super::faults::Wrong;
use super::steps::Asked;
use crate::posts::clauses::{CLAUSES, ENDS};
use crate::request::Step;
use drift_reference::frame::{Entry, Frame, Serial, Stamp, FRAME_LENGTH, ORDER};
use drift_reference::post::Post;

pub fn has(set: u8, lane: u8) -> bool {
    lane < 8 && set & 1 << lane != 0
}

/// The refusals of a step in the order of judging; 7 stands for 7 to 11.
pub fn numbers(step: Step) -> &'static [u8] {
    match step {
        Step::Fresh => &[12, 21],
        Step::Order => &[6, 12, 21, 22, 23, 24],
        Step::Hear => &[6, 7, 12, 21, 24, 26, 28, 29, 30],
        Step::Beacon => &[6, 12, 21],
    }
}

/// The refusal that wins, if any holds.
pub fn refusal(wrong: Wrong, asked: &Asked) -> Option<u8> {
    let judged = |number: &u8| judge(wrong, *number, asked);
    let first = numbers(asked.step)
        .iter()
        .find(|number| judged(number).is_some())?;
    match wrong {
        Wrong::Before(late, early) if early == *first && numbers(asked.step).contains(&late) => {
            judged(&late).or(judged(first))
        }
        _ => judged(first),
    }
}

/// The number to refuse by if the condition of this one holds.
fn judge(wrong: Wrong, number: u8, asked: &Asked) -> Option<u8> {
    let post = &asked.post;
    let is_hearing = asked.step == Step::Hear;
    let holds = match number {
        6 => {
            let is_judged = wrong != Wrong::UnusedBufferUnjudged || !is_hearing;
            is_judged && asked.buffer.len() != FRAME_LENGTH
                || is_hearing && asked.frame.len() != FRAME_LENGTH
        }
        7 => match Frame::read(asked.frame) {
            Err(number) if number > 6 => return Some(number),
            _ => false,
        },
        12 => is_bad_record(wrong, post),
        21 => !has(post.posts, post.lane),
        22 => !has(post.sources, post.lane),
        23 => post.serial.0 >= 16,
        24 if !is_hearing => post.clock.0 == 65_535,
        _ => match asked.frame.try_into() {
            Ok(bytes) => judge_frame(wrong, number, post, &fields(bytes)),
            Err(_) => false,
        },
    };
    holds.then_some(number)
}

fn is_bad_record(wrong: Wrong, post: &Post) -> bool {
    let left_out = match wrong {
        Wrong::Clause(clause) => Some(clause),
        Wrong::RangeTooLong(end) => {
            let (_, is_least_bad) = ENDS[end].least_bad;
            is_least_bad(post).then_some(ENDS[end].clause)
        }
        Wrong::RangeTooShort(end) if (ENDS[end].largest_good.1)(post) => return true,
        _ => None,
    };
    let judged = (0..CLAUSES.len()).filter(|&clause| Some(clause) != left_out);
    judged
        .into_iter()
        .any(|clause| (CLAUSES[clause].is_broken)(post))
}

/// The fields of a frame, readable or not.
fn fields(bytes: &[u8; FRAME_LENGTH]) -> Frame {
    let wide = |at: usize| Stamp(u16::from_be_bytes([bytes[at], bytes[at + 1]]));
    Frame {
        kind: bytes[0],
        sender: bytes[1],
        lane: bytes[2],
        serial: Serial(bytes[3]),
        stamp: wide(4),
        word: wide(6).0,
        entries: std::array::from_fn(|lane| Entry {
            serial: Serial(bytes[8 + 3 * lane]),
            stamp: wide(9 + 3 * lane),
        }),
    }
}

/// Conditions of a hearing that need the frame.
fn judge_frame(wrong: Wrong, number: u8, post: &Post, frame: &Frame) -> bool {
    match number {
        24 => is_clock_spent(wrong, post, frame),
        26 => match wrong {
            Wrong::OwnOrderIsOwnBroadcast => frame.kind == ORDER && frame.lane == post.lane,
            Wrong::OwnBeaconHeard => frame.kind == ORDER && frame.sender == post.lane,
            _ => frame.sender == post.lane,
        },
        28 => is_strange(wrong, post, frame),
        29 => is_stale(wrong, post, frame),
        _ => is_beyond(wrong, post, frame),
    }
}

/// How far the serial of an order is from the last taken: 1 is to be taken.
fn distance(post: &Post, frame: &Frame) -> Option<i32> {
    let last = *post.last.get(usize::from(frame.lane))?;
    (frame.kind == ORDER).then(|| i32::from(frame.serial.0) - i32::from(last))
}

fn is_clock_spent(wrong: Wrong, post: &Post, frame: &Frame) -> bool {
    let is_moved = distance(post, frame).is_some_and(|distance| match wrong {
        Wrong::ClockSpentByAgain => distance <= 1,
        Wrong::ClockSpentByEarly => distance >= 1,
        _ => distance == 1,
    });
    let (clock, stamp) = (post.clock.0, frame.stamp.0);
    let is_full = match wrong {
        Wrong::ClockSpentByClockOnly => clock == 65_535,
        Wrong::ClockSpentByStampOnly => stamp == 65_535,
        Wrong::ClockSpentOneEarly => clock.max(stamp) >= 65_534,
        _ => clock.max(stamp) == 65_535,
    };
    let has_clock = wrong == Wrong::ClockSpentAnywhere || has(post.sources, post.lane);
    is_moved && is_full && has_clock
}

fn is_stale(wrong: Wrong, post: &Post, frame: &Frame) -> bool {
    let is_judged = distance(post, frame).is_some_and(|distance| match wrong {
        Wrong::StaleAgain => distance <= 1,
        Wrong::StaleEarly => distance >= 1,
        _ => distance == 1,
    });
    if !is_judged {
        return false;
    }
    let last = usize::from(post.last[usize::from(frame.lane)]);
    let place = 16 * usize::from(frame.lane) + last;
    let Some(&kept) = post.stamps.get(place.wrapping_sub(1)) else {
        return false;
    };
    let is_first = last == 0 && wrong != Wrong::StaleFirst;
    let is_below = match wrong {
        Wrong::StaleUnlessBelow => frame.stamp.0 < kept,
        _ => frame.stamp.0 <= kept,
    };
    is_below && !is_first
}

fn is_strange(wrong: Wrong, post: &Post, frame: &Frame) -> bool {
    let sender = match wrong {
        Wrong::StrangeSenderHeard => false,
        Wrong::SenderMustBeSource => !has(post.sources, frame.sender),
        _ => !has(post.posts, frame.sender),
    };
    let order = match wrong {
        Wrong::StrangeOrderHeard => false,
        Wrong::BeaconHasLane => !has(post.sources, frame.lane),
        Wrong::StrangeIsWithoutPost => frame.kind == ORDER && !has(post.posts, frame.lane),
        _ => frame.kind == ORDER && !has(post.sources, frame.lane),
    };
    let entry = (0..).zip(&frame.entries).any(|(lane, entry)| match wrong {
        Wrong::StrangeEntryHeard => false,
        Wrong::EntryMustHaveSerial => entry.serial.0 > 0 && !has(post.sources, lane),
        Wrong::StrangeIsWithoutPost => entry.stamp.0 > 0 && !has(post.posts, lane),
        _ => entry.stamp.0 > 0 && !has(post.sources, lane),
    });
    sender || order || entry
}

fn is_beyond(wrong: Wrong, post: &Post, frame: &Frame) -> bool {
    let own = |lane: u8| match wrong {
        Wrong::BeyondOfAnyLane => true,
        _ => lane == post.lane,
    };
    let entry = (0..).zip(&frame.entries).any(|(lane, entry)| {
        let serial = entry.serial > post.serial && wrong != Wrong::BeyondSerialHeard;
        let stamp = match wrong {
            Wrong::BeyondStampHeard => false,
            Wrong::BeyondFromClockOn => entry.stamp >= post.clock,
            _ => entry.stamp > post.clock,
        };
        entry.stamp.0 > 0 && own(lane) && (serial || stamp)
    });
    let order = frame.kind == ORDER && frame.lane == post.lane;
    let order_beyond = match wrong {
        Wrong::BeyondOrderHeard => false,
        Wrong::BeyondOrderStamp => frame.serial > post.serial || frame.stamp > post.clock,
        _ => frame.serial > post.serial,
    };
    entry || order && order_beyond
}
