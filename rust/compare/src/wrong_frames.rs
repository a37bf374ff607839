//! Tests that the comparison of frames passes right libraries and notices wrong
//! checks, readers and writers.

mod readers_and_writers;

use crate::frames::{compare, good_frame, Tally, ANSWERS};
use crate::library::{Library, Proved};
use crate::patched::Patched;
use crate::random::Random;
use crate::second::Second;
use drift_reference::frame::{check, Frame, BEACON, FRAME_LENGTH, ORDER};

const SEED: u64 = 1;
const COUNT: u64 = 20_000;

/// A judge that first changes its copy of a frame and then judges rightly.
fn blind(change: impl Fn(&mut [u8]) + 'static) -> impl Fn(&mut [u8]) -> u8 {
    move |bytes| {
        let mut copy = bytes.to_vec();
        if copy.len() == FRAME_LENGTH {
            change(&mut copy);
        }
        check(&copy)
    }
}

/// A judge that takes the bad value at a position for the good one.
fn accepts(kind: u8, position: usize, bad: u8, good: u8) -> impl Fn(&mut [u8]) -> u8 {
    blind(move |frame| {
        if frame[0] == kind && frame[position] == bad {
            frame[position] = good;
        }
    })
}

fn assert_noticed(name: &str, judge: impl Fn(&mut [u8]) -> u8 + 'static) {
    let patched = Patched {
        frame_check: Box::new(judge),
        ..Patched::default()
    };
    assert_library_noticed(name, "drift_frame_check", patched);
}

/// The difference must be found in the calls of this function.
fn assert_library_noticed(name: &str, function: &str, library: Patched) {
    let found = compare(&library, SEED, COUNT);
    let found = found.expect_err(&format!("not noticed: {name}"));
    assert_eq!(found.function(), function, "{name}");
    let text = found.to_string();
    assert!(text.contains(function), "{text}");
}

#[test]
fn right_libraries_pass_and_every_answer_comes() {
    let libraries: [&dyn Library; 2] = [&Second, &Proved];
    for library in libraries {
        let tally = compare(library, SEED, COUNT).expect("a right library passes");
        assert_eq!(tally.never_came(), Vec::<String>::new());
    }
}

#[test]
fn answers_that_never_came_are_told() {
    let never = Tally::default().never_came();
    assert_eq!(never.len(), 3 * ANSWERS.len() + 1);
    assert!(never.contains(&"drift_frame_write: answer 11".to_string()));
}

#[test]
fn generated_good_frames_come_back_when_written_and_read() {
    let mut random = Random::new(SEED);
    for _ in 0..COUNT {
        let frame = good_frame(&mut random);
        let mut buffer = [0xA5; FRAME_LENGTH];
        assert_eq!(frame.write(&mut buffer), Ok(()));
        assert_eq!(Frame::read(&buffer), Ok(frame));
    }
}

#[test]
fn wrong_lengths_are_noticed() {
    assert_noticed("accepts 33 bytes", |bytes| match bytes.len() {
        33 => check(&bytes[..32]),
        _ => check(bytes),
    });
    assert_noticed("accepts longer input", |bytes| {
        check(&bytes[..bytes.len().min(32)])
    });
    assert_noticed("accepts 31 bytes", |bytes| match bytes.len() {
        31 => 0,
        _ => check(bytes),
    });
    assert_noticed("looks at 8 bits of the length", |bytes| {
        check(&bytes[..bytes.len() & 0xFF])
    });
    assert_noticed("looks at 16 bits of the length", |bytes| {
        check(&bytes[..bytes.len() & 0xFFFF])
    });
}

#[test]
fn wrong_kinds_and_senders_are_noticed() {
    assert_noticed("accepts kind 0", accepts(0, 0, 0, ORDER));
    assert_noticed("accepts kind 3", accepts(3, 0, 3, ORDER));
    assert_noticed("accepts kind 3 as beacon", accepts(3, 0, 3, BEACON));
    assert_noticed("accepts sender 8", accepts(ORDER, 1, 8, 7));
    assert_noticed("accepts sender 8 of a beacon", accepts(BEACON, 1, 8, 7));
    assert_noticed("refuses sender 7", accepts(ORDER, 1, 7, 8));
}

#[test]
fn unseen_bytes_of_a_beacon_are_noticed() {
    for position in 2..=7 {
        let name = format!("does not look at byte {position} of a beacon");
        let judge = blind(move |frame| {
            if frame[0] == BEACON {
                frame[position] = 0;
            }
        });
        assert_noticed(&name, judge);
    }
}

#[test]
fn wrong_orders_are_noticed() {
    assert_noticed("accepts lane 8", accepts(ORDER, 2, 8, 7));
    assert_noticed("refuses lane 7", accepts(ORDER, 2, 7, 8));
    assert_noticed("accepts serial 0", accepts(ORDER, 3, 0, 1));
    assert_noticed("accepts serial 17", accepts(ORDER, 3, 17, 16));
    assert_noticed("refuses serial 16", accepts(ORDER, 3, 16, 17));
    let high_byte = blind(|frame| frame[4] = 0);
    assert_noticed("does not look at the high byte of the stamp", high_byte);
    let stamp_zero = blind(|frame| {
        if frame[0] == ORDER && frame[4..6] == [0, 0] {
            frame[5] = 1;
        }
    });
    assert_noticed("accepts stamp 0", stamp_zero);
}

#[test]
fn wrong_entries_are_noticed() {
    for at in (8..FRAME_LENGTH).step_by(3) {
        let unseen = blind(move |frame| frame[at..at + 3].fill(0));
        assert_noticed(&format!("does not look at the entry at {at}"), unseen);
        let stamp_zero = blind(move |frame| {
            if frame[at..at + 3] == [1, 0, 0] {
                frame[at] = 0;
            }
        });
        assert_noticed(&format!("accepts 1, stamp 0 at {at}"), stamp_zero);
        let serial_zero = blind(move |frame| {
            if frame[at] == 0 && frame[at + 2] != 0 {
                frame[at] = 17;
            }
        });
        assert_noticed(&format!("refuses serial 0 at {at}"), serial_zero);
        let name = format!("accepts serial 17 at {at}");
        assert_noticed(&name, accepts(ORDER, at, 17, 16));
        assert_noticed(&name, accepts(BEACON, at, 17, 16));
    }
}

#[test]
fn a_wrong_order_of_refusals_is_noticed() {
    assert_noticed("10 before 9", |bytes| match check(bytes) {
        9 if bytes[1] > 7 => 10,
        answer => answer,
    });
    assert_noticed("10 before 8", |bytes| match check(bytes) {
        8 if bytes[1] > 7 => 10,
        answer => answer,
    });
    assert_noticed("10 before 7", |bytes| match check(bytes) {
        7 if bytes[1] > 7 => 10,
        answer => answer,
    });
    assert_noticed("11 before 10", |bytes| match check(bytes) {
        10 if bytes[29] > 16 => 11,
        answer => answer,
    });
}

#[test]
fn changed_bytes_are_noticed() {
    assert_noticed("changes a byte", |bytes| {
        let answer = check(bytes);
        if answer == 11 {
            bytes[31] ^= 1;
        }
        answer
    });
}
