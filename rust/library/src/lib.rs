//! The exported functions of the proved crates, for programs in Rust. What each
//! asks and answers stands in `c/drift.h`.

mod answer;
pub mod csv;
mod post;
mod state;

pub use answer::{BadScript, LastAnswer};
pub use post::{Heard, Order, Post, Sent};
pub use state::{Row, State};

use answer::Answer;

/// Number of bytes in a frame, and in the buffer for one.
pub const FRAME_LENGTH: usize = 32;
/// Number of fields of a frame: kind, sender, lane, serial, stamp, word, then
/// for lanes 0 to 7 serial and stamp.
pub const FRAME_FIELDS: usize = 22;
/// Number of bytes of the air.
pub const AIR_LENGTH: usize = 65_536;
/// Number of bytes of the output of a script.
pub const OUTPUT_LENGTH: usize = 131_072;
/// Number of cells, of 16 bits each, of the state behind a script.
pub const STATE_CELLS: usize = 4_483;

/// The functions as they are in the static libraries. Every pointer goes with
/// the number of elements that it points to, but for that to a post's record;
/// what is lent does not overlap.
pub mod raw {
    use super::Post;

    extern "C" {
        pub fn drift_frame_check(bytes: *const u8, length: usize) -> u8;

        pub fn drift_frame_read(
            bytes: *const u8,
            length: usize,
            fields: *mut u16,
            fields_length: usize,
        ) -> u8;

        pub fn drift_frame_write(
            fields: *const u16,
            fields_length: usize,
            buffer: *mut u8,
            buffer_length: usize,
        ) -> u8;

        pub fn drift_run_script(
            script: *const u8,
            script_length: usize,
            air: *mut u8,
            air_length: usize,
            output: *mut u8,
            output_length: usize,
        ) -> usize;

        pub fn drift_script_state(
            script: *const u8,
            script_length: usize,
            air: *mut u8,
            air_length: usize,
            state: *mut u16,
            state_cells: usize,
        ) -> u64;

        pub fn drift_post_fresh(post: *mut Post, lane: u8, posts: u8, sources: u8, dests: u8)
            -> u8;

        pub fn drift_post_order(
            post: *mut Post,
            word: u16,
            buffer: *mut u8,
            buffer_length: usize,
        ) -> u64;

        pub fn drift_post_hear(
            post: *mut Post,
            frame: *const u8,
            frame_length: usize,
            buffer: *mut u8,
            buffer_length: usize,
        ) -> u64;

        pub fn drift_post_beacon(post: *const Post, buffer: *mut u8, buffer_length: usize) -> u8;

        pub fn drift_csv_write(
            numbers: *const u16,
            count: usize,
            buffer: *mut u8,
            length: usize,
        ) -> u32;

        pub fn drift_csv_read(
            file: *const u8,
            length: usize,
            numbers: *mut u16,
            count: usize,
        ) -> u32;

        pub fn drift_csv_first_bad(file: *const u8, length: usize) -> u32;
    }
}

// SAFETY, for each call: every pointer goes with the length of its own slice,
// the slices do not overlap, and no function keeps a pointer once it has
// returned.

/// 0, or the refusal of reading these bytes, 6 to 11.
pub fn frame_check(bytes: &[u8]) -> u8 {
    unsafe { raw::drift_frame_check(bytes.as_ptr(), bytes.len()) }
}

/// Reads a frame into 22 fields: 0, or the refusal with the fields as they were.
pub fn frame_read(bytes: &[u8], fields: &mut [u16]) -> u8 {
    let (to, length) = (fields.as_mut_ptr(), fields.len());
    unsafe { raw::drift_frame_read(bytes.as_ptr(), bytes.len(), to, length) }
}

/// Writes the frame of 22 fields into 32 bytes: 0, or the refusal with the
/// buffer as it was.
pub fn frame_write(fields: &[u16], buffer: &mut [u8]) -> u8 {
    let (to, length) = (buffer.as_mut_ptr(), buffer.len());
    unsafe { raw::drift_frame_write(fields.as_ptr(), fields.len(), to, length) }
}

/// Runs a script; gives the number of bytes printed, which are the first of the
/// output, or 0 if the output has not `OUTPUT_LENGTH` bytes.
pub fn run_script(script: &[u8], air: &mut [u8], output: &mut [u8]) -> usize {
    let (text, length) = (script.as_ptr(), script.len());
    let (bytes, bytes_length) = (air.as_mut_ptr(), air.len());
    let (to, to_length) = (output.as_mut_ptr(), output.len());
    unsafe { raw::drift_run_script(text, length, bytes, bytes_length, to, to_length) }
}

/// Runs a script; gives the state behind its printout and what its last line
/// answered. A script that is refused leaves the air as it was; on an air that has
/// not `AIR_LENGTH` bytes each step is refused by 13.
pub fn script_state(script: &[u8], air: &mut [u8]) -> Result<(State, LastAnswer), BadScript> {
    let mut cells = [0; STATE_CELLS];
    let (text, length) = (script.as_ptr(), script.len());
    let (bytes, bytes_length) = (air.as_mut_ptr(), air.len());
    let to = cells.as_mut_ptr();
    let answer =
        unsafe { raw::drift_script_state(text, length, bytes, bytes_length, to, STATE_CELLS) };
    let answer = Answer(answer).of_script();
    let answer = answer.expect("a state of STATE_CELLS cells is not refused")?;
    let state = State::read(&cells).expect("the cells of a state are numbers of a yard");
    Ok((state, answer))
}
