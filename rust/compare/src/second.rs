//! The second implementation in the shape of the static library.

use crate::answer::Answered;
use crate::lent_record::{post_of, record_of, Record};
use crate::library::{Library, FIELDS};
use crate::state::{write_state, STATE_CELLS};
use drift_reference::csv;
use drift_reference::frame::{check, Frame, NOT_32_BYTES};
use drift_reference::post::Post;
use drift_reference::script;

/// The second implementation.
pub struct Second;

impl Library for Second {
    fn frame_check(&self, bytes: &mut [u8]) -> u8 {
        check(bytes)
    }

    fn frame_read(&self, bytes: &mut [u8], fields: &mut [u16]) -> u8 {
        let Ok(fields) = <&mut [u16; FIELDS]>::try_from(fields) else {
            return NOT_32_BYTES;
        };
        match Frame::read(bytes) {
            Err(number) => number,
            Ok(frame) => {
                *fields = fields_of(&frame);
                0
            }
        }
    }

    fn frame_write(&self, fields: &mut [u16], buffer: &mut [u8]) -> u8 {
        let Ok(fields) = <&[u16; FIELDS]>::try_from(&*fields) else {
            return NOT_32_BYTES;
        };
        Frame::from_fields(fields).write(buffer).err().unwrap_or(0)
    }

    fn run_script(&self, script: &mut [u8], air: &mut [u8], output: &mut [u8]) -> usize {
        script::run(script, air, output).unwrap_or(0)
    }

    fn script_state(&self, script: &mut [u8], air: &mut [u8], state: &mut [u16]) -> u64 {
        if state.len() != STATE_CELLS {
            return Answered::bad_state().number();
        }
        let answered = match script::run_to_yard(script, air) {
            Err(bad) => Answered::bad_script(bad),
            Ok((yard, answer)) => {
                write_state(&yard, state);
                Answered::last(answer)
            }
        };
        answered.number()
    }

    fn post_fresh(&self, post: &mut Record, [lane, posts, sources, dests]: [u8; 4]) -> u8 {
        match Post::fresh(lane, posts, sources, dests) {
            Err(number) => number,
            Ok(fresh) => {
                *post = record_of(&fresh);
                0
            }
        }
    }

    fn post_order(&self, post: &mut Record, word: u16, buffer: &mut [u8]) -> u64 {
        let mut own = post_of(post);
        let answer = own.order(word, buffer);
        *post = record_of(&own);
        answer
            .map_or_else(Answered::refused, Answered::sent)
            .number()
    }

    fn post_hear(&self, post: &mut Record, frame: &mut [u8], buffer: &mut [u8]) -> u64 {
        let mut own = post_of(post);
        let answer = own.hear(frame, buffer);
        *post = record_of(&own);
        answer
            .map_or_else(Answered::refused, Answered::heard)
            .number()
    }

    fn post_beacon(&self, post: &mut Record, buffer: &mut [u8]) -> u8 {
        post_of(post).beacon(buffer).err().unwrap_or(0)
    }

    fn csv_write(&self, numbers: &mut [u16], buffer: &mut [u8]) -> u32 {
        told(csv::write(numbers, buffer))
    }

    fn csv_read(&self, file: &mut [u8], numbers: &mut [u16]) -> u32 {
        told(csv::read(file, numbers))
    }

    fn csv_first_bad(&self, file: &mut [u8]) -> u32 {
        let bad = csv::first_bad(file);
        bad.map_or(0, |bad| u32::from(bad.number) + 256 * bad.record)
    }
}

/// The answer on a delivery log: the refusal, or 256 × a value of at most 24 bits.
fn told(answer: Result<usize, u8>) -> u32 {
    match answer {
        Err(number) => number.into(),
        Ok(value) => 256 * value as u32,
    }
}

/// The fields of a frame as a row of numbers.
pub fn fields_of(frame: &Frame) -> [u16; FIELDS] {
    let mut fields = [0; FIELDS];
    fields[..6].copy_from_slice(&[
        frame.kind.into(),
        frame.sender.into(),
        frame.lane.into(),
        frame.serial.0.into(),
        frame.stamp.0,
        frame.word,
    ]);
    for (pair, entry) in fields[6..].chunks_exact_mut(2).zip(&frame.entries) {
        pair.copy_from_slice(&[entry.serial.0.into(), entry.stamp.0]);
    }
    fields
}
