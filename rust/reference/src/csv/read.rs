//! A file read into a log: its records, and the first bad one.

use super::{Order, Sequence, BAD_FIELDS, FIELDS, FILE_LIMIT, FILE_TOO_LONG};
use super::{LOG_NUMBERS, WRONG_LENGTH};

/// The names of the fields: the contents of the header.
const NAMES: [&[u8]; FIELDS] = [b"stamp", b"lane", b"word"];

/// The most digits of a number.
const MOST_DIGITS: usize = 5;

/// A file's first bad record and why it is refused. The header is record 1, the
/// first order record 2; record 0 stands for the length of the file.
#[derive(Clone, Copy, Debug, PartialEq, Eq)]
pub struct Bad {
    pub record: u32,
    pub number: u8,
}

/// Reads a file. Stamp, lane and word of its orders stand at the beginning of
/// `numbers`; gives how many orders there are. A refusal leaves `numbers`.
pub fn read(file: &[u8], numbers: &mut [u16]) -> Result<usize, u8> {
    judge_length(file).map_err(|bad| bad.number)?;
    let numbers: &mut [u16; LOG_NUMBERS] = numbers.try_into().map_err(|_| WRONG_LENGTH)?;
    // A later record may be bad, so the orders are kept here up to the end.
    let mut log = [0; LOG_NUMBERS];
    let mut length = 0;
    for order in Records::new(file).map_err(|bad| bad.number)? {
        let Order { stamp, lane, word } = order.map_err(|bad| bad.number)?;
        log[length..length + FIELDS].copy_from_slice(&[stamp, lane.into(), word]);
        length += FIELDS;
    }
    numbers[..length].copy_from_slice(&log[..length]);
    Ok(length / FIELDS)
}

/// The first bad record of a file, if there is one.
pub fn first_bad(file: &[u8]) -> Option<Bad> {
    match judge_length(file).and_then(|()| Records::new(file)) {
        Err(bad) => Some(bad),
        Ok(mut records) => records.find_map(Result::err),
    }
}

/// Refusal 1.
fn judge_length(file: &[u8]) -> Result<(), Bad> {
    let bad = Bad {
        record: 0,
        number: FILE_TOO_LONG,
    };
    (file.len() <= FILE_LIMIT).then_some(()).ok_or(bad)
}

/// The orders of a file, or its first bad record; what follows that means nothing.
struct Records<'a> {
    rest: Rest<'a>,
    sequence: Sequence,
    /// The number of the record that was read last.
    record: u32,
}

impl Records<'_> {
    /// Reads the header.
    fn new(file: &[u8]) -> Result<Records<'_>, Bad> {
        let mut rest = Rest(file);
        let header = rest.record(|rest, field| rest.text(NAMES[field]));
        header.ok_or(Bad {
            record: 1,
            number: BAD_FIELDS,
        })?;
        Ok(Records {
            rest,
            sequence: Sequence::default(),
            record: 1,
        })
    }

    /// The next order, or refusal 31 or 32.
    #[inline]
    fn order(&mut self) -> Result<Order, u8> {
        let contents = self.rest.record(|rest, _| rest.number());
        let [stamp, lane, word] = contents.ok_or(BAD_FIELDS)?;
        let order = Order::new(stamp, lane, word).ok_or(BAD_FIELDS)?;
        self.sequence.add(order)?;
        Ok(order)
    }
}

impl Iterator for Records<'_> {
    type Item = Result<Order, Bad>;

    #[inline]
    fn next(&mut self) -> Option<Result<Order, Bad>> {
        if self.rest.0.is_empty() {
            return None;
        }
        self.record += 1;
        let record = self.record;
        let order = self.order();
        Some(order.map_err(|number| Bad { record, number }))
    }
}

/// What is left of a file.
struct Rest<'a>(&'a [u8]);

impl Rest<'_> {
    /// The next record by the contents of its fields, each of which may be quoted.
    /// CR LF follows, which may be missing at the end of the file.
    #[inline]
    fn record<T: Copy + Default>(
        &mut self,
        content: impl Fn(&mut Self, usize) -> Option<T>,
    ) -> Option<[T; FIELDS]> {
        let mut contents = [T::default(); FIELDS];
        for (field, value) in contents.iter_mut().enumerate() {
            if field > 0 {
                self.text(b",")?;
            }
            // No good content has a quote in it, so the next quote is the closing one.
            let is_quoted = self.text(b"\"").is_some();
            *value = content(self, field)?;
            if is_quoted {
                self.text(b"\"")?;
            }
        }
        if !self.0.is_empty() {
            self.text(b"\r\n")?;
        }
        Some(contents)
    }

    /// A number: 0, or one to five digits of which the first is not 0. One digit more
    /// would stand where the content must end.
    #[inline]
    fn number(&mut self) -> Option<usize> {
        let mut number = 0;
        let mut length = 0;
        for byte in self.0.iter().take(MOST_DIGITS) {
            let digit = byte.wrapping_sub(b'0');
            if digit > 9 {
                break;
            }
            number = 10 * number + usize::from(digit);
            length += 1;
            if number == 0 {
                break;
            }
        }
        self.0 = &self.0[length..];
        (length > 0).then_some(number)
    }

    /// Passes over a text that comes next.
    #[inline]
    fn text(&mut self, text: &[u8]) -> Option<()> {
        self.0 = self.0.strip_prefix(text)?;
        Some(())
    }
}
