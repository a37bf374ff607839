//! A log written as text.

use super::{Order, Sequence, BAD_FIELDS, BUFFER_LENGTH, FIELDS, WRONG_LENGTH};
use crate::text::put_before;

const HEADER: &[u8] = b"stamp,lane,word\r\n";

/// The longest record; each one ends as it does.
const LONGEST_RECORD: [u8; 15] = *b"65535,7,65535\r\n";

/// Writes a log, three numbers an order. The text stands at the beginning of
/// `buffer`; gives its length. A refusal leaves `buffer`.
pub fn write(numbers: &[u16], buffer: &mut [u8]) -> Result<usize, u8> {
    let buffer: &mut [u8; BUFFER_LENGTH] = buffer.try_into().map_err(|_| WRONG_LENGTH)?;
    judge(numbers)?;
    buffer[..HEADER.len()].copy_from_slice(HEADER);
    let mut length = HEADER.len();
    let mut record = LONGEST_RECORD;
    for order in numbers.chunks_exact(FIELDS) {
        let start = put_record(&mut record, [order[0], order[1], order[2]]);
        let text = &record[start..];
        buffer[length..length + text.len()].copy_from_slice(text);
        length += text.len();
    }
    Ok(length)
}

/// Refusals 31 and 32 of the first bad record.
fn judge(numbers: &[u16]) -> Result<(), u8> {
    let mut sequence = Sequence::default();
    for record in numbers.chunks(FIELDS) {
        // Only the last one can lack a field.
        let &[stamp, lane, word] = record else {
            return Err(BAD_FIELDS);
        };
        let order = Order::new(stamp.into(), lane.into(), word.into());
        sequence.add(order.ok_or(BAD_FIELDS)?)?;
    }
    Ok(())
}

/// Puts an order's record at the end of `record`; gives where it starts.
#[inline]
fn put_record(record: &mut [u8; LONGEST_RECORD.len()], [stamp, lane, word]: [u16; 3]) -> usize {
    let line_end = record.len() - "\r\n".len();
    let start = put_before(record, line_end, word.into());
    record[start - 1] = b',';
    let start = put_before(record, start - 1, lane.into());
    record[start - 1] = b',';
    put_before(record, start - 1, stamp.into())
}
