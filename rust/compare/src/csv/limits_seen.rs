//! What logs and files must reach, each with a name for the case that none does.

use super::calls::{parts, Call, Function};
use super::logs::Order;
use crate::damage::LONGEST_TEXT;
use drift_reference::csv::{first_bad, write, BUFFER_LENGTH, LOG_NUMBERS};

/// A call and the right answer to it.
pub struct Look<'a> {
    call: &'a Call,
    answer: u32,
    /// The last record of a log that is refused for it, and the one before it.
    last: Option<(Order, &'a [u16])>,
}

pub type Limit = (&'static str, fn(&Look) -> bool);

/// Lengths of all that is lent, and which refusal comes first.
pub const LENGTHS: [Limit; 14] = [
    ("a text of 1,937 bytes", |look| look.has_written(1_937)),
    ("a buffer of no bytes", |look| look.has_buffer(0)),
    ("a buffer of 2,047 bytes", |look| look.has_buffer(2_047)),
    ("a buffer of 2,049 bytes", |look| look.has_buffer(2_049)),
    ("a bad log and a buffer of another length", |look| {
        look.is(Function::Write) && look.refusal() == 6 && !is_good_log(look.numbers())
    }),
    ("a place for no numbers", |look| look.has_place(0)),
    ("a place for 383 numbers", |look| look.has_place(383)),
    ("a place for 385 numbers", |look| look.has_place(385)),
    ("a bad file and another place", |look| {
        look.refusal() == 6 && look.is(Function::Read) && !is_good_file(look.file())
    }),
    ("a file that is too long and another place", |look| {
        look.refusal() == 1 && look.is(Function::Read) && look.numbers().len() != LOG_NUMBERS
    }),
    ("a file of 47,999 bytes", |look| {
        look.has_file(LONGEST_TEXT - 1)
    }),
    ("a file of 48,000 bytes", |look| look.has_file(LONGEST_TEXT)),
    ("a file of 48,001 bytes", |look| {
        look.has_file(LONGEST_TEXT + 1)
    }),
    ("a file of over 65,536 bytes", |look| {
        look.is(Function::Read) && look.file().len() > 65_536
    }),
];

/// Good files of each kind, and the files that have no record.
pub const FILES: [Limit; 6] = [
    ("the empty file", |look| {
        look.is(Function::FirstBad) && look.file().is_empty()
    }),
    ("the header alone", |look| {
        look.file() == b"stamp,lane,word\r\n"
    }),
    ("the header alone, without CR LF", |look| {
        look.file() == b"stamp,lane,word"
    }),
    ("a good file without its last CR LF", |look| {
        look.is_read() && look.value() > 0 && !look.file().ends_with(b"\r\n")
    }),
    ("a good file with quotes", |look| {
        look.is_read() && look.file().starts_with(b"stamp,") && look.file().contains(&b'"')
    }),
    ("a good file with a quoted header", |look| {
        look.is_read() && look.file().starts_with(b"\"stamp\",\"lane\",\"word\"\r\n")
    }),
];

/// What can be wrong with a log's last record, those before it being good.
pub const RECORDS: [Limit; 12] = [
    ("a log bad by stamp 0 alone", |look| {
        look.is_last_record(31, |_, last| matches!(*last, [0, 0..8, _]))
    }),
    ("a log bad by lane 8 alone", |look| {
        look.is_last_record(
            31,
            |before, last| matches!(*last, [stamp, 8, _] if stamp > before[0]),
        )
    }),
    ("a log bad by a lane that is one in 8 bits", |look| {
        look.is_last_record(31, |_, last| matches!(*last, [1..=u16::MAX, 256..264, _]))
    }),
    ("a last record of one number", |look| {
        look.is_last_record(31, |_, last| last.len() == 1)
    }),
    ("a last record of two numbers", |look| {
        look.is_last_record(31, |_, last| last.len() == 2)
    }),
    ("a 129th record of two numbers", |look| {
        look.numbers().len() == LOG_NUMBERS + 2 && look.is_last_record(31, |_, _| true)
    }),
    ("a bad lane at a stamp that falls", |look| {
        look.is_last_record(
            31,
            |before, last| matches!(*last, [stamp, 8..=u16::MAX, _] if stamp < before[0]),
        )
    }),
    ("the same stamp and lane again", |look| {
        look.is_last_record(32, |before, last| last[..2] == before[..2])
    }),
    ("the same stamp and a lower lane", |look| {
        look.is_last_record(32, |before, last| {
            last[0] == before[0] && last[1] < before[1]
        })
    }),
    ("a lower stamp and a higher lane", |look| {
        look.is_last_record(32, |before, last| {
            last[0] < before[0] && last[1] > before[1]
        })
    }),
    ("a lane's 17th that rises", |look| {
        look.numbers().len() < LOG_NUMBERS
            && look.is_last_record(32, |before, last| last[..2] > before[..2])
    }),
    ("a 129th that rises", |look| {
        look.numbers().len() > LOG_NUMBERS
            && look.is_last_record(32, |before, last| last[..2] > before[..2])
    }),
];

/// Files that are bad by 31 and good once this is put right.
pub const REPAIRED: [Limit; 9] = [
    ("a file bad by line feeds without CR", |look| {
        look.is_good_with(|file| file.replace("\r\n", "\n").replace('\n', "\r\n"))
    }),
    ("a file bad by CR without line feeds", |look| {
        look.is_good_with(|file| file.replace("\r\n", "\r").replace('\r', "\r\n"))
    }),
    ("a file bad by a blank line at its end", |look| {
        look.is_good_with(|file| file.trim_end().to_string())
    }),
    ("a file bad by a blank line", |look| {
        look.is_good_with(|file| file.replace("\r\n\r\n", "\r\n"))
    }),
    ("a file bad by semicolons", |look| {
        look.is_good_with(|file| file.replace(';', ","))
    }),
    ("a file bad by spaces", |look| {
        look.is_good_with(|file| file.replace(' ', ""))
    }),
    ("a file bad by a sign", |look| {
        look.is_good_with(|file| file.replace(['+', '-'], ""))
    }),
    ("a file bad by a byte order mark", |look| {
        look.is_good_with(|file| file.replace('\u{FEFF}', ""))
    }),
    ("a file bad by its quotes", |look| {
        look.is_good_with(|file| file.replace('"', ""))
    }),
];

impl<'a> Look<'a> {
    pub fn new(call: &'a Call, answer: u32) -> Look<'a> {
        let is_refused = call.function == Function::Write && parts(answer).0 > 6;
        let last = is_refused.then(|| last_record(call.numbers.numbers()));
        Look {
            call,
            answer,
            last: last.flatten(),
        }
    }

    fn is(&self, function: Function) -> bool {
        self.call.function == function
    }

    fn refusal(&self) -> u8 {
        parts(self.answer).0
    }

    fn value(&self) -> usize {
        parts(self.answer).1
    }

    fn numbers(&self) -> &'a [u16] {
        self.call.numbers.numbers()
    }

    fn file(&self) -> &'a [u8] {
        self.call.bytes.numbers()
    }

    fn has_written(&self, length: usize) -> bool {
        self.is(Function::Write) && self.refusal() == 0 && self.value() == length
    }

    fn is_read(&self) -> bool {
        self.is(Function::Read) && self.refusal() == 0
    }

    fn has_buffer(&self, length: usize) -> bool {
        self.is(Function::Write) && self.file().len() == length
    }

    fn has_place(&self, count: usize) -> bool {
        self.is(Function::Read) && self.numbers().len() == count
    }

    fn has_file(&self, length: usize) -> bool {
        self.is(Function::Read) && self.file().len() == length
    }

    /// Whether a log is refused so for its last record, and `shape` holds of the one
    /// before it and of this.
    fn is_last_record(&self, refusal: u8, shape: fn(Order, &[u16]) -> bool) -> bool {
        let last = self.last.filter(|_| self.refusal() == refusal);
        last.is_some_and(|(before, last)| shape(before, last))
    }

    /// Whether a file is bad by 31, and good when it is put right. Long files are
    /// not looked at.
    fn is_good_with(&self, put_right: fn(&str) -> String) -> bool {
        if !self.is(Function::FirstBad) || self.refusal() != 31 || self.file().len() > 2_048 {
            return false;
        }
        let file = std::str::from_utf8(self.file());
        file.is_ok_and(|file| is_good_file(put_right(file).as_bytes()))
    }
}

/// The last record of a log and the one before it, or else zeros, if all but the
/// last are good.
fn last_record(numbers: &[u16]) -> Option<(Order, &[u16])> {
    let last = numbers.chunks(3).last()?;
    let good = &numbers[..numbers.len() - last.len()];
    let before = good.last_chunk().copied().unwrap_or_default();
    is_good_log(good).then_some((before, last))
}

fn is_good_log(numbers: &[u16]) -> bool {
    write(numbers, &mut [0; BUFFER_LENGTH]).is_ok()
}

fn is_good_file(file: &[u8]) -> bool {
    first_bad(file).is_none()
}
