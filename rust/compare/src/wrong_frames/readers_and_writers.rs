//! Wrong readers and writers of frames.

use super::{assert_library_noticed, SEED};
use crate::frames::compare;
use crate::library::{Library, FIELDS};
use crate::patched::Patched;
use crate::second::Second;
use drift_reference::frame::{check, BEACON};

fn assert_reader_noticed(name: &str, read: impl Fn(&mut [u8], &mut [u16]) -> u8 + 'static) {
    let patched = Patched {
        frame_read: Box::new(read),
        ..Patched::default()
    };
    assert_library_noticed(name, "drift_frame_read", patched);
}

/// A reader that reads rightly and then changes the fields.
fn misread(change: impl Fn(&mut [u16]) + 'static) -> impl Fn(&mut [u8], &mut [u16]) -> u8 {
    move |bytes, fields| {
        let answer = Second.frame_read(bytes, fields);
        if answer == 0 {
            change(fields);
        }
        answer
    }
}

#[test]
fn wrong_readers_are_noticed() {
    for field in 0..FIELDS {
        let name = format!("field {field} has a byte too few");
        assert_reader_noticed(&name, misread(move |fields| fields[field] &= 0xFF00));
    }
    let swapped = misread(|fields| fields[4] = fields[4].swap_bytes());
    assert_reader_noticed("the stamp is little-endian", swapped);
    assert_reader_noticed(
        "lanes 0 and 1 are swapped",
        misread(|fields| fields.swap(7, 9)),
    );
    assert_reader_noticed("a refused read empties the fields", |bytes, fields| {
        let answer = Second.frame_read(bytes, fields);
        if answer == 11 {
            fields.fill(0);
        }
        answer
    });
    assert_reader_noticed("a longer row of fields is filled", |bytes, fields| {
        let length = fields.len().min(FIELDS);
        Second.frame_read(bytes, &mut fields[..length])
    });
    assert_reader_noticed("the row of fields is judged last", |bytes, fields| {
        match (check(bytes), fields.len() == FIELDS) {
            (answer, false) if answer > 6 => answer,
            _ => Second.frame_read(bytes, fields),
        }
    });
    assert_reader_noticed("the bytes are changed", |bytes, fields| {
        let answer = Second.frame_read(bytes, fields);
        if answer == 0 {
            bytes[31] ^= 1;
        }
        answer
    });
}

fn assert_writer_noticed(name: &str, write: impl Fn(&mut [u16], &mut [u8]) -> u8 + 'static) {
    let patched = Patched {
        frame_write: Box::new(write),
        ..Patched::default()
    };
    assert_library_noticed(name, "drift_frame_write", patched);
}

#[test]
fn wrong_writers_are_noticed() {
    for field in (0..4).chain((6..FIELDS).step_by(2)) {
        let name = format!("field {field} loses what is over 255");
        assert_writer_noticed(&name, move |fields, buffer| {
            let mut copy = fields.to_vec();
            if copy.len() == FIELDS {
                copy[field] &= 0xFF;
            }
            Second.frame_write(&mut copy, buffer)
        });
    }
}

#[test]
fn wrong_uses_of_a_buffer_are_noticed() {
    assert_writer_noticed("a refused write empties the buffer", |fields, buffer| {
        let answer = Second.frame_write(fields, buffer);
        if answer == 9 {
            buffer.fill(0);
        }
        answer
    });
    assert_writer_noticed("33 bytes are enough", |fields, buffer| match buffer.len() {
        33 => Second.frame_write(fields, &mut buffer[..32]),
        _ => Second.frame_write(fields, buffer),
    });
    assert_writer_noticed("23 fields are enough", |fields, buffer| {
        match fields.len() {
            23 => Second.frame_write(&mut fields[..22], buffer),
            _ => Second.frame_write(fields, buffer),
        }
    });
    assert_writer_noticed("the word of a beacon is not judged", |fields, buffer| {
        let mut copy = fields.to_vec();
        if copy.len() == FIELDS && copy[0] == u16::from(BEACON) {
            copy[5] = 0;
        }
        Second.frame_write(&mut copy, buffer)
    });
    assert_writer_noticed("the fields are changed", |fields, buffer| {
        let answer = Second.frame_write(fields, buffer);
        if answer == 0 {
            fields[21] = 0;
        }
        answer
    });
}

#[test]
fn a_difference_tells_the_call_and_both_answers() {
    let patched = Patched {
        frame_read: Box::new(misread(|fields| fields[5] = 7)),
        ..Patched::default()
    };
    let found = compare(&patched, SEED, 0).expect_err("a wrong reader");
    let text = found.to_string();
    for part in [
        "call 1 (counted from 0)",
        "function              drift_frame_read",
        "bytes                 (32 bytes) 01 00 01 01 00 03 00 5A 01 00 04 01 00 03 00",
        "second implementation answer 0",
        "  left changed        fields (22 numbers) [1, 0, 1, 1, 3, 90, 1, 4, 1, 3, 0, 0,",
        "  left changed        fields (22 numbers) [1, 0, 1, 1, 3, 7, 1, 4, 1, 3, 0, 0,",
    ] {
        assert!(text.contains(part), "{part}\n{text}");
    }
}
