//! The two sides that are measured, in the same shape.

use drift_library as library;
use drift_records::record_of;
use drift_reference::csv;
use drift_reference::frame::{check, Frame, NOT_32_BYTES};
use drift_reference::post::{HearAnswer, Post};
use drift_reference::script;
use library::Heard;

pub use drift_library::FRAME_FIELDS as FIELDS;

/// The functions of one side. They are called through these pointers, so that
/// neither side is built into the loop that calls it.
pub struct Side {
    pub name: &'static str,
    pub check: fn(&[u8]) -> u8,
    pub read: fn(&[u8], &mut [u16]) -> u8,
    pub write: fn(&[u16], &mut [u8]) -> u8,
    /// Script, air and output; the number of bytes printed.
    pub run: fn(&[u8], &mut [u8], &mut [u8]) -> usize,
    /// The steps of a single post; what they answer, as one number.
    pub order: fn(&mut Records, u16, &mut [u8]) -> usize,
    pub hear: fn(&mut Records, &[u8], &mut [u8]) -> usize,
    pub beacon: fn(&mut Records, &mut [u8]) -> usize,
    /// This side's record after its steps.
    pub record: fn(&Records) -> library::Post,
    /// A log's numbers and the buffer for its text; a file and the place for its
    /// numbers. What they answer, as one number.
    pub csv_write: fn(&[u16], &mut [u8]) -> usize,
    pub csv_read: fn(&[u8], &mut [u16]) -> usize,
}

/// A post's record, once for each side, which leaves that of the other alone.
#[derive(Clone, PartialEq, Eq)]
pub struct Records {
    lent: library::Post,
    own: Post,
}

impl Records {
    pub fn new(post: &Post) -> Records {
        Records {
            lent: record_of(post),
            own: post.clone(),
        }
    }

    /// What one side left, so that it can be compared with the other.
    pub fn of_one(record: library::Post) -> Records {
        Records {
            lent: record,
            own: Post::EMPTY,
        }
    }
}

/// The static libraries of the proved crates, then the second implementation.
pub const SIDES: [Side; 2] = [
    Side {
        name: "rattle",
        check: library::frame_check,
        read: library::frame_read,
        write: library::frame_write,
        run: library::run_script,
        order: |records, word, buffer| match records.lent.order(word, buffer) {
            Err(number) => refused(number),
            Ok(sent) => answered(1, sent.delivered),
        },
        hear: |records, frame, buffer| match records.lent.hear(frame, buffer) {
            Err(number) => refused(number),
            Ok(Heard::Taken(count)) => answered(2, count),
            Ok(Heard::Again(count)) => answered(3, count),
            Ok(Heard::Early(count)) => answered(4, count),
            Ok(Heard::Beacon(count)) => answered(5, count),
        },
        beacon: |records, buffer| match records.lent.beacon(buffer) {
            Err(number) => refused(number),
            Ok(()) => answered(6, 0),
        },
        record: |records| records.lent,
        csv_write: |numbers, buffer| told(library::csv::write_numbers(numbers, buffer)),
        csv_read: |file, numbers| told(library::csv::read_numbers(file, numbers)),
    },
    Side {
        name: "rust",
        check,
        read: read_fields,
        write: write_fields,
        run: run_script,
        order: |records, word, buffer| match records.own.order(word, buffer) {
            Err(number) => refused(number),
            Ok(sent) => answered(1, sent.count),
        },
        hear: |records, frame, buffer| match records.own.hear(frame, buffer) {
            Err(number) => refused(number),
            Ok(HearAnswer::Taken(count)) => answered(2, count),
            Ok(HearAnswer::Again(count)) => answered(3, count),
            Ok(HearAnswer::Early(count)) => answered(4, count),
            Ok(HearAnswer::Beacon(count)) => answered(5, count),
        },
        beacon: |records, buffer| match records.own.beacon(buffer) {
            Err(number) => refused(number),
            Ok(()) => answered(6, 0),
        },
        record: |records| record_of(&records.own),
        csv_write: |numbers, buffer| told(csv::write(numbers, buffer)),
        csv_read: |file, numbers| told(csv::read(file, numbers)),
    },
];

/// The answer on a log: a refusal's number, or 256 × the value.
fn told(answer: Result<usize, u8>) -> usize {
    answer.map_or_else(refused, |value| value << 8)
}

/// The number of a refusal as an answer; no other answer has it.
fn refused(number: u8) -> usize {
    number.into()
}

/// An answer with the count delivered.
pub const fn answered(code: usize, count: u8) -> usize {
    code << 8 | (count as usize) << 16
}

/// Reads a frame into its 22 fields: 0, or the refusal.
fn read_fields(bytes: &[u8], fields: &mut [u16]) -> u8 {
    let Ok(fields) = <&mut [u16; FIELDS]>::try_from(fields) else {
        return NOT_32_BYTES;
    };
    match Frame::read(bytes) {
        Err(number) => number,
        Ok(frame) => {
            store(&frame, fields);
            0
        }
    }
}

/// Writes the frame of 22 fields into the buffer: 0, or the refusal.
fn write_fields(fields: &[u16], buffer: &mut [u8]) -> u8 {
    let Ok(fields) = <&[u16; FIELDS]>::try_from(fields) else {
        return NOT_32_BYTES;
    };
    Frame::from_fields(fields).write(buffer).err().unwrap_or(0)
}

fn run_script(script: &[u8], air: &mut [u8], output: &mut [u8]) -> usize {
    script::run(script, air, output).unwrap_or(0)
}

fn store(frame: &Frame, fields: &mut [u16; FIELDS]) {
    fields[0] = frame.kind.into();
    fields[1] = frame.sender.into();
    fields[2] = frame.lane.into();
    fields[3] = frame.serial.0.into();
    fields[4] = frame.stamp.0;
    fields[5] = frame.word;
    for (pair, entry) in fields[6..].chunks_exact_mut(2).zip(&frame.entries) {
        pair[0] = entry.serial.0.into();
        pair[1] = entry.stamp.0;
    }
}
