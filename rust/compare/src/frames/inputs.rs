//! Frames, fields and other bytes to try.

use super::Bytes;
use crate::library::FIELDS;
use crate::random::Random;
use crate::second::fields_of;
use drift_reference::frame::{
    Entry, Frame, Serial, Stamp, BEACON, FRAME_LENGTH, LANES, LAST_SERIAL, ORDER,
};

/// How many random good frames get every single-byte damage.
const RANDOM_GOOD_FRAMES: usize = 48;

/// P2 of document 01.
pub const P2: Bytes = [
    0x01, 0x00, 0x01, 0x01, 0x00, 0x03, 0x00, 0x5A, 0x01, 0x00, 0x04, 0x01, 0x00, 0x03, 0, 0, 0, 0,
    0, 0, 0, 0, 0, 0, 0, 0, 0, 0, 0, 0, 0, 0,
];

/// Numbers next to the limits of fields of one byte; 256 + n is n in one byte.
const NEAR_LIMITS: [u16; 14] = [
    0, 1, 7, 8, 16, 17, 255, 256, 257, 258, 263, 272, 65_280, 65_535,
];

/// Chosen good frames and some dozens of random ones.
pub fn good_frames(random: &mut Random) -> Vec<Bytes> {
    let silent_beacon = Frame {
        kind: BEACON,
        sender: 0,
        lane: 0,
        serial: Serial(0),
        stamp: Stamp(0),
        word: 0,
        entries: [Entry::NONE; LANES],
    };
    let largest_entry = Entry {
        serial: LAST_SERIAL,
        stamp: Stamp(u16::MAX),
    };
    let largest_order = Frame {
        kind: ORDER,
        sender: 7,
        lane: 7,
        serial: LAST_SERIAL,
        stamp: Stamp(u16::MAX),
        word: u16::MAX,
        entries: [largest_entry; LANES],
    };
    let mut frames = vec![P2, bytes_of(&silent_beacon), bytes_of(&largest_order)];
    frames.extend((0..RANDOM_GOOD_FRAMES).map(|_| bytes_of(&good_frame(random))));
    frames
}

/// A random order or beacon that breaks no rule.
pub fn good_frame(random: &mut Random) -> Frame {
    let mut frame = Frame {
        kind: BEACON,
        sender: random.byte_between(0, 7),
        lane: 0,
        serial: Serial(0),
        stamp: Stamp(0),
        word: 0,
        entries: std::array::from_fn(|_| good_entry(random)),
    };
    if random.between(0, 1) == 0 {
        frame.kind = ORDER;
        frame.lane = random.byte_between(0, 7);
        frame.serial = Serial(random.byte_between(1, LAST_SERIAL.0));
        frame.stamp = Stamp(random.between_often_an_end(1, u16::MAX));
        frame.word = random.between_often_an_end(0, u16::MAX);
    }
    frame
}

/// None in a quarter of the cases, else a serial from 0 to 16 with a stamp.
fn good_entry(random: &mut Random) -> Entry {
    if random.between(0, 3) == 0 {
        return Entry::NONE;
    }
    Entry {
        serial: Serial(random.between_often_an_end(0, LAST_SERIAL.0.into()) as u8),
        stamp: Stamp(random.between_often_an_end(1, u16::MAX)),
    }
}

/// The bytes of a frame, good or not, laid out here once more.
pub fn bytes_of(frame: &Frame) -> Bytes {
    let [stamp_high, stamp_low] = frame.stamp.0.to_be_bytes();
    let [word_high, word_low] = frame.word.to_be_bytes();
    let mut bytes = vec![frame.kind, frame.sender, frame.lane, frame.serial.0];
    bytes.extend([stamp_high, stamp_low, word_high, word_low]);
    for entry in &frame.entries {
        let [high, low] = entry.stamp.0.to_be_bytes();
        bytes.extend([entry.serial.0, high, low]);
    }
    bytes.try_into().expect("a frame has 32 bytes")
}

/// The fields at their places in the bytes, good or not.
pub fn fields_in(bytes: &Bytes) -> [u16; FIELDS] {
    let wide = |at: usize| u16::from_be_bytes([bytes[at], bytes[at + 1]]);
    std::array::from_fn(|field| match field {
        0..4 => bytes[field].into(),
        4 => wide(4),
        5 => wide(6),
        _ if field % 2 == 0 => bytes[8 + 3 * (field - 6) / 2].into(),
        _ => wide(9 + 3 * (field - 7) / 2),
    })
}

/// Whether a field of one byte has a number over 255.
pub fn has_over_255(fields: &[u16]) -> bool {
    let narrow = (0..4).chain((6..FIELDS).step_by(2));
    fields.len() == FIELDS && narrow.into_iter().any(|field| fields[field] > 255)
}

/// Puts one random input of one of five sorts into `input`.
pub fn random_bytes(random: &mut Random, input: &mut Vec<u8>) {
    input.clear();
    match random.between(0, 4) {
        0 => fill(input, FRAME_LENGTH, || random.byte()),
        1 => {
            // With small bytes many of the checks pass.
            let largest = random.byte_between(1, 18);
            fill(input, FRAME_LENGTH, || random.byte_between(0, largest));
        }
        2 => {
            input.extend_from_slice(&bytes_of(&good_frame(random)));
            damage(random, input);
        }
        3 => input.extend_from_slice(&bytes_of(&good_frame(random))),
        _ => {
            let frame = bytes_of(&good_frame(random));
            let length = random.between(0, 64).into();
            input.extend(frame.iter().copied().cycle().take(length));
        }
    }
}

/// A row of fields: of a good frame, most often with a few numbers changed, or
/// any numbers. Seldom it has not 22 numbers.
pub fn random_fields(random: &mut Random) -> Vec<u16> {
    let mut fields = fields_of(&good_frame(random)).to_vec();
    for _ in 0..random.pick(&[0, 1, 1, 2, 3]) {
        let field = random.between(0, FIELDS as u16 - 1);
        fields[usize::from(field)] = match random.one_in(4) {
            true => random.between(0, u16::MAX),
            false => random.pick(&NEAR_LIMITS),
        };
    }
    if random.one_in(16) {
        let largest = random.pick(&[1, 17, 300, u16::MAX]);
        fields.fill_with(|| random.between(0, largest));
    }
    if random.one_in(40) {
        let length = wrong_row(random);
        fields.resize(length, 0);
    }
    fields
}

/// A number of fields other than 22.
pub fn wrong_row(random: &mut Random) -> usize {
    random.pick(&[0, 1, 21, 23, 44])
}

pub fn any_numbers(random: &mut Random, length: usize) -> Vec<u16> {
    std::iter::repeat_with(|| random.between(0, u16::MAX))
        .take(length)
        .collect()
}

pub fn any_bytes(random: &mut Random, length: usize) -> Vec<u8> {
    let mut bytes = Vec::with_capacity(length);
    fill(&mut bytes, length, || random.byte());
    bytes
}

fn fill(input: &mut Vec<u8>, length: usize, byte: impl FnMut() -> u8) {
    input.extend(std::iter::repeat_with(byte).take(length));
}

/// Changes 1 to 4 random bytes of a frame, half of them to a small value.
fn damage(random: &mut Random, frame: &mut [u8]) {
    for _ in 0..random.between(1, 4) {
        let position = usize::from(random.between(0, FRAME_LENGTH as u16 - 1));
        let largest = if random.between(0, 1) == 0 { 18 } else { 255 };
        frame[position] = random.byte_between(0, largest);
    }
}
