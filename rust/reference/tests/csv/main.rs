//! Tests of delivery logs as text against request K1 of document 02.

mod read;
mod records;
mod write;

use drift_reference::csv::{first_bad, read, write, Bad, BUFFER_LENGTH, LOG_NUMBERS};

/// What buffer and numbers hold before a call.
const UNTOUCHED: u8 = 0xA5;
const UNTOUCHED_NUMBER: u16 = 0xA5A5;

const HEADER: &str = "stamp,lane,word\r\n";

/// Stamp, lane and word.
type Order = [u16; 3];

/// The log of post 0 in document 01.
const LOG: [Order; 2] = [[1, 0, 417], [3, 1, 90]];

/// As many orders as a log can have: 16 rounds through the lanes.
fn full_log() -> Vec<Order> {
    let orders = (0..128).map(|n| [1 + n / 8, n % 8, 65_535 - n]);
    orders.collect()
}

/// The orders as records, laid out here once more.
fn text_of(log: &[Order]) -> String {
    let record = |[stamp, lane, word]: &Order| format!("{stamp},{lane},{word}\r\n");
    let records: String = log.iter().map(record).collect();
    format!("{HEADER}{records}")
}

/// Writes numbers; the rest of the buffer must stay, and all of it on a refusal.
fn written(numbers: &[u16]) -> Result<String, u8> {
    let mut buffer = vec![UNTOUCHED; BUFFER_LENGTH];
    let answer = write(numbers, &mut buffer);
    let rest = buffer.split_off(answer.unwrap_or(0));
    assert!(rest.iter().all(|&byte| byte == UNTOUCHED));
    answer.map(|_| String::from_utf8(buffer).expect("plain letters"))
}

fn written_log(log: &[Order]) -> Result<String, u8> {
    written(&log.concat())
}

/// Reads a file; the rest of the numbers must stay, and all of them on a refusal.
/// Whether there is a bad record must be answered alike.
fn read_file(file: impl AsRef<[u8]>) -> Result<Vec<Order>, Bad> {
    let file = file.as_ref();
    let mut numbers = [UNTOUCHED_NUMBER; LOG_NUMBERS];
    let answer = read(file, &mut numbers);
    let (log, rest) = numbers.split_at(3 * answer.unwrap_or(0));
    assert!(rest.iter().all(|&number| number == UNTOUCHED_NUMBER));
    let bad = first_bad(file);
    assert_eq!(answer.err(), bad.map(|bad| bad.number));
    let orders = log.chunks_exact(3);
    let orders = orders.map(|order| [order[0], order[1], order[2]]);
    bad.map_or(Ok(orders.collect()), Err)
}

fn assert_bad(file: impl AsRef<[u8]>, record: u32, number: u8) {
    let file = file.as_ref();
    let shown = String::from_utf8_lossy(&file[..file.len().min(200)]);
    assert_eq!(read_file(file), Err(Bad { record, number }), "{shown:?}");
}

/// The file must be read as this log.
fn assert_read(file: impl AsRef<[u8]>, log: &[Order]) {
    let shown = String::from_utf8_lossy(file.as_ref()).into_owned();
    assert_eq!(read_file(file), Ok(log.to_vec()), "{shown:?}");
}
