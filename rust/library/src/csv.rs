//! Delivery logs for the charging desk, written as RFC 4180 text and read back.
//!
//! The text has the header `stamp,lane,word`, then a record for each order, with
//! CR LF after each. Reading accepts quoted fields too, the header's as well, and a
//! last record without CR LF.

use crate::post::ORDERS;
use crate::{raw, Order};
use std::error::Error;
use std::fmt;

/// Number of bytes of the buffer that a log is written into. Every text fits.
pub const BUFFER_LENGTH: usize = 2_048;
/// Number of numbers that a file is read into. Every log fits.
pub const LOG_NUMBERS: usize = FIELDS * ORDERS;

/// The fields of a record: stamp, lane and word.
const FIELDS: usize = 3;

/// An order as a log tells it. Any numbers may stand here; `write` refuses bad ones.
#[derive(Clone, Copy, Debug, PartialEq, Eq)]
pub struct LogItem {
    pub stamp: u16,
    pub lane: u8,
    pub word: u16,
}

impl From<Order> for LogItem {
    fn from(order: Order) -> LogItem {
        LogItem {
            stamp: order.stamp,
            lane: order.lane,
            word: order.word,
        }
    }
}

/// A log that is refused for its first bad order.
#[derive(Clone, Copy, Debug, PartialEq, Eq)]
pub struct BadLog {
    /// The refusal, 31 or 32.
    pub number: u8,
}

/// A file that is refused for its first bad record, or for its length.
#[derive(Clone, Copy, Debug, PartialEq, Eq)]
pub struct BadFile {
    /// The first bad record: 1 is the header, 2 the first order; 0 for refusal 1.
    pub record: u16,
    /// The refusal, 1, 31 or 32.
    pub number: u8,
}

/// The text of a log. It is refused by 31 for an order with stamp 0 or a lane over
/// 7, by 32 for one that does not rise by stamp and then lane or is its lane's 17th.
pub fn write(log: &[LogItem]) -> Result<String, BadLog> {
    let numbers = |item: &LogItem| [item.stamp, item.lane.into(), item.word];
    let numbers: Vec<u16> = log.iter().flat_map(numbers).collect();
    let mut buffer = vec![0; BUFFER_LENGTH];
    let length = write_numbers(&numbers, &mut buffer).map_err(|number| BadLog { number })?;
    buffer.truncate(length);
    Ok(String::from_utf8(buffer).expect("digits, letters, commas and line ends"))
}

/// The log of a file. It is refused by 1 for over 48,000 bytes, else by 31 or 32 for
/// its first bad record.
pub fn read(file: &[u8]) -> Result<Vec<LogItem>, BadFile> {
    let mut numbers = [0; LOG_NUMBERS];
    match read_numbers(file, &mut numbers) {
        Ok(orders) => {
            let log = numbers[..FIELDS * orders].chunks_exact(FIELDS);
            Ok(log.map(item_of).collect())
        }
        Err(_) => Err(first_bad(file).expect("a refused file has a first bad record")),
    }
}

/// The order of a record that was read.
fn item_of(record: &[u16]) -> LogItem {
    LogItem {
        stamp: record[0],
        lane: record[1]
            .try_into()
            .expect("a lane that is read is at most 7"),
        word: record[2],
    }
}

// SAFETY, for each call: every pointer goes with the length of its own slice, the
// slices do not overlap, and no function keeps a pointer once it has returned.

/// Writes a log of three numbers an order into `BUFFER_LENGTH` bytes. Gives the
/// text's length, or the refusal (6, 31 or 32) with the buffer as it was.
pub fn write_numbers(numbers: &[u16], buffer: &mut [u8]) -> Result<usize, u8> {
    let (to, length) = (buffer.as_mut_ptr(), buffer.len());
    told(unsafe { raw::drift_csv_write(numbers.as_ptr(), numbers.len(), to, length) })
}

/// Reads a file into the first of `LOG_NUMBERS` numbers, three an order. Gives how
/// many orders, or the refusal (1, 6, 31 or 32) with the numbers as they were.
pub fn read_numbers(file: &[u8], numbers: &mut [u16]) -> Result<usize, u8> {
    let (to, count) = (numbers.as_mut_ptr(), numbers.len());
    told(unsafe { raw::drift_csv_read(file.as_ptr(), file.len(), to, count) })
}

/// Why a file is refused, if it is.
pub fn first_bad(file: &[u8]) -> Option<BadFile> {
    let answer = unsafe { raw::drift_csv_first_bad(file.as_ptr(), file.len()) };
    (answer != 0).then_some(BadFile {
        record: (answer >> 8) as u16,
        number: answer as u8,
    })
}

/// What an answer tells: bits 0 to 7 are the refusal or 0, the others the value.
fn told(answer: u32) -> Result<usize, u8> {
    match answer as u8 {
        0 => Ok((answer >> 8) as usize),
        number => Err(number),
    }
}

impl fmt::Display for BadLog {
    fn fmt(&self, output: &mut fmt::Formatter) -> fmt::Result {
        let why = match self.number {
            31 => "an order has stamp 0 or a lane over 7",
            _ => "an order does not rise by stamp and then lane, or is its lane's 17th",
        };
        write!(output, "refused by {}: {why}", self.number)
    }
}

impl fmt::Display for BadFile {
    fn fmt(&self, output: &mut fmt::Formatter) -> fmt::Result {
        let BadFile { record, number } = *self;
        write!(output, "refused by {number}")?;
        match (number, record) {
            (1, _) => write!(output, ": the file has over 48,000 bytes"),
            (_, 1) => write!(output, " at record 1: the header is not stamp,lane,word"),
            (31, _) => write!(
                output,
                " at record {record}: not stamp, lane and word as numbers within their ranges"
            ),
            _ => write!(
                output,
                " at record {record}: it does not rise by stamp and then lane, or is its \
                 lane's 17th"
            ),
        }
    }
}

impl Error for BadLog {}
impl Error for BadFile {}
