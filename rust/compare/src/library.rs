//! The functions that are compared, and those of the static library of the
//! proved crates. Only this file has `unsafe`.

#![allow(unsafe_code)]

use crate::lent_record::Record;
use drift_library::raw;

pub use drift_library::FRAME_FIELDS as FIELDS;

/// The functions on frames, scripts, single posts and delivery logs, by the static
/// library or by another.
///
/// What a function only reads is lent as changeable too, so that the compiler
/// does not assume it unchanged: the caller compares it before and after.
pub trait Library {
    /// 0, or the refusal of reading these bytes.
    fn frame_check(&self, bytes: &mut [u8]) -> u8;

    /// Reads a frame into 22 fields: 0, or the refusal.
    fn frame_read(&self, bytes: &mut [u8], fields: &mut [u16]) -> u8;

    /// Writes a frame of 22 fields into a buffer: 0, or the refusal.
    fn frame_write(&self, fields: &mut [u16], buffer: &mut [u8]) -> u8;

    /// Runs a script; gives the number of bytes printed.
    fn run_script(&self, script: &mut [u8], air: &mut [u8], output: &mut [u8]) -> usize;

    /// Runs a script and writes the state behind it; gives what the last line
    /// answered, or that script or state are refused, as one number.
    fn script_state(&self, script: &mut [u8], air: &mut [u8], state: &mut [u16]) -> u64;

    /// Makes a fresh post by lane, posts, sources and dests: 0, or the refusal.
    fn post_fresh(&self, post: &mut Record, asked: [u8; 4]) -> u8;

    /// Sends an order; gives refusal, code, count, serial and stamp as one number.
    fn post_order(&self, post: &mut Record, word: u16, buffer: &mut [u8]) -> u64;

    /// Hears a frame; gives refusal, code and count as one number.
    fn post_hear(&self, post: &mut Record, frame: &mut [u8], buffer: &mut [u8]) -> u64;

    /// Sends a beacon: 0, or the refusal.
    fn post_beacon(&self, post: &mut Record, buffer: &mut [u8]) -> u8;

    /// Writes a log's numbers as text; gives refusal and length as one number.
    fn csv_write(&self, numbers: &mut [u16], buffer: &mut [u8]) -> u32;

    /// Reads a file into a log's numbers; gives refusal and orders as one number.
    fn csv_read(&self, file: &mut [u8], numbers: &mut [u16]) -> u32;

    /// Gives refusal and number of a file's first bad record as one number.
    fn csv_first_bad(&self, file: &mut [u8]) -> u32;
}

/// The static library of the proved crates.
pub struct Proved;

// SAFETY, for each call: every pointer is that of a whole record or goes with the
// length of its own slice, nothing overlaps, and no function keeps a pointer once
// it has returned.
impl Library for Proved {
    fn frame_check(&self, bytes: &mut [u8]) -> u8 {
        unsafe { raw::drift_frame_check(bytes.as_mut_ptr(), bytes.len()) }
    }

    fn frame_read(&self, bytes: &mut [u8], fields: &mut [u16]) -> u8 {
        unsafe {
            raw::drift_frame_read(
                bytes.as_mut_ptr(),
                bytes.len(),
                fields.as_mut_ptr(),
                fields.len(),
            )
        }
    }

    fn frame_write(&self, fields: &mut [u16], buffer: &mut [u8]) -> u8 {
        unsafe {
            raw::drift_frame_write(
                fields.as_mut_ptr(),
                fields.len(),
                buffer.as_mut_ptr(),
                buffer.len(),
            )
        }
    }

    fn run_script(&self, script: &mut [u8], air: &mut [u8], output: &mut [u8]) -> usize {
        unsafe {
            raw::drift_run_script(
                script.as_mut_ptr(),
                script.len(),
                air.as_mut_ptr(),
                air.len(),
                output.as_mut_ptr(),
                output.len(),
            )
        }
    }

    fn script_state(&self, script: &mut [u8], air: &mut [u8], state: &mut [u16]) -> u64 {
        unsafe {
            raw::drift_script_state(
                script.as_mut_ptr(),
                script.len(),
                air.as_mut_ptr(),
                air.len(),
                state.as_mut_ptr(),
                state.len(),
            )
        }
    }

    fn post_fresh(&self, post: &mut Record, [lane, posts, sources, dests]: [u8; 4]) -> u8 {
        unsafe { raw::drift_post_fresh(post, lane, posts, sources, dests) }
    }

    fn post_order(&self, post: &mut Record, word: u16, buffer: &mut [u8]) -> u64 {
        unsafe { raw::drift_post_order(post, word, buffer.as_mut_ptr(), buffer.len()) }
    }

    fn post_hear(&self, post: &mut Record, frame: &mut [u8], buffer: &mut [u8]) -> u64 {
        unsafe {
            raw::drift_post_hear(
                post,
                frame.as_mut_ptr(),
                frame.len(),
                buffer.as_mut_ptr(),
                buffer.len(),
            )
        }
    }

    fn post_beacon(&self, post: &mut Record, buffer: &mut [u8]) -> u8 {
        let post: *mut Record = post;
        unsafe { raw::drift_post_beacon(post, buffer.as_mut_ptr(), buffer.len()) }
    }

    fn csv_write(&self, numbers: &mut [u16], buffer: &mut [u8]) -> u32 {
        unsafe {
            raw::drift_csv_write(
                numbers.as_mut_ptr(),
                numbers.len(),
                buffer.as_mut_ptr(),
                buffer.len(),
            )
        }
    }

    fn csv_read(&self, file: &mut [u8], numbers: &mut [u16]) -> u32 {
        unsafe {
            raw::drift_csv_read(
                file.as_mut_ptr(),
                file.len(),
                numbers.as_mut_ptr(),
                numbers.len(),
            )
        }
    }

    fn csv_first_bad(&self, file: &mut [u8]) -> u32 {
        unsafe { raw::drift_csv_first_bad(file.as_mut_ptr(), file.len()) }
    }
}
