//! Frames made for one record: near to what it has taken and knows.

use super::made_up::lane_in;
use crate::random::Random;
use drift_reference::frame::{
    Entry, Frame, Serial, Stamp, BEACON, FRAME_LENGTH, LANES, LAST_SERIAL, ORDER,
};
use drift_reference::post::Post;

/// A readable frame that the post may hear, with few faults of the state.
pub fn frame_for(random: &mut Random, post: &Post) -> [u8; FRAME_LENGTH] {
    let mut frame = Frame {
        kind: BEACON,
        sender: sender(random, post),
        lane: 0,
        serial: Serial(0),
        stamp: Stamp(0),
        word: 0,
        entries: [Entry::NONE; LANES],
    };
    if !random.one_in(4) {
        add_order(random, post, &mut frame);
    }
    for lane in 0..LANES as u8 {
        frame.entries[usize::from(lane)] = entry(random, post, lane);
    }
    let mut bytes = [0; FRAME_LENGTH];
    super::write(&frame, &mut bytes);
    bytes
}

/// Most often another post, at times the post itself or any lane.
fn sender(random: &mut Random, post: &Post) -> u8 {
    let others = post.posts & !(1 << (post.lane % 8));
    let lane = match random.between(0, 19) {
        0 => Some(post.lane % 8),
        1 => None,
        _ => lane_in(random, others),
    };
    lane.unwrap_or(random.byte_between(0, 7))
}

/// Most often an order of a source that is to be taken, again or early.
fn add_order(random: &mut Random, post: &Post, frame: &mut Frame) {
    let lane = match random.between(0, 23) {
        0 => None,
        1..=2 => Some(post.lane % 8),
        _ => lane_in(random, post.sources),
    };
    frame.kind = ORDER;
    frame.lane = lane.unwrap_or(random.byte_between(0, 7));
    let last = last_taken(post, frame.lane);
    let serial = match random.between(0, 7) {
        0 => last,
        1 => last + 2,
        2 => random.byte_between(1, 16),
        _ => last + 1,
    };
    frame.serial = Serial(serial.clamp(1, LAST_SERIAL.0));
    let last_place = (16 * usize::from(frame.lane) + usize::from(last)).saturating_sub(1);
    frame.stamp = stamp_near(random, post, post.stamps[last_place]);
    frame.word = random.between_often_an_end(0, u16::MAX);
}

/// Mostly an entry that the post may hear, or none.
fn entry(random: &mut Random, post: &Post, lane: u8) -> Entry {
    if post.sources >> lane & 1 == 0 && !random.one_in(100) || random.one_in(3) {
        return Entry::NONE;
    }
    let last = last_taken(post, lane);
    let is_own = lane == post.lane;
    if is_own && post.clock != Stamp(0) && !random.one_in(8) {
        // Nothing that the post has not done itself.
        return Entry {
            serial: Serial(random.between_often_an_end(0, last.into()) as u8),
            stamp: Stamp(random.between_often_an_end(1, post.clock.0)),
        };
    }
    let serial = match random.between(0, 7) {
        0..=2 => random.byte_between(0, 16),
        3 => last + 1,
        _ => last,
    };
    let serial = serial.min(LAST_SERIAL.0);
    let known = post.table[17 * usize::from(lane) + usize::from(serial)];
    Entry {
        serial: Serial(serial),
        stamp: stamp_near(random, post, known),
    }
}

/// A stamp near the one given, near the clock, near an end, or any.
fn stamp_near(random: &mut Random, post: &Post, known: u16) -> Stamp {
    let stamp = match random.between(0, 11) {
        0 => known.saturating_sub(1),
        1..=2 => known,
        3..=6 => known.saturating_add(1),
        7 => post.clock.0,
        8 => post.clock.0.saturating_add(1),
        9 => random.between(1, 12),
        10 => random.between(65_534, 65_535),
        _ => random.between(1, 65_535),
    };
    Stamp(stamp.max(1))
}

/// The last serial taken, even of a broken record at most 16.
fn last_taken(post: &Post, lane: u8) -> u8 {
    post.last[usize::from(lane)].min(LAST_SERIAL.0)
}

/// Changes one to three bytes of a frame.
pub fn damage(random: &mut Random, frame: &mut [u8]) {
    for _ in 0..random.pick(&[1, 1, 1, 2, 3]) {
        let position = usize::from(random.between(0, FRAME_LENGTH as u16 - 1));
        let byte = frame[position];
        frame[position] = match random.between(0, 5) {
            0 => 0,
            1 => byte.wrapping_add(1),
            2 => byte.wrapping_sub(1),
            3 => random.byte_between(0, 18),
            4 => byte ^ 1 << random.between(0, 7),
            _ => random.byte(),
        };
    }
}
