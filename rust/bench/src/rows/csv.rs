//! The rows of delivery logs: a full one written and read.

use super::{Job, Row};
use crate::work::Work;
use drift_reference::csv::{write, BUFFER_LENGTH};
use drift_reference::frame::LANES;
use drift_reference::post::ORDERS;

/// The counted calls.
const CALLS: u64 = 16;

type Maker = fn() -> Work;

const ROWS: [(&str, Maker); 3] = [
    ("csv write: 128 orders", || Work::CsvWrite(full_log())),
    ("csv read: 128 orders", || Work::CsvRead(text())),
    ("csv read: 128 orders, every field quoted", || {
        Work::CsvRead(quoted(&text()))
    }),
];

pub fn rows() -> Vec<Row> {
    let rows = ROWS.into_iter().map(|(name, work)| {
        Row::new(name.into(), move || Job {
            with: work(),
            without: Work::Nothing,
            operations: 1,
            calls: CALLS,
        })
    });
    rows.collect()
}

/// Stamps and words of five digits; the lanes take turns.
fn full_log() -> Vec<u16> {
    let orders = (0..ORDERS).flat_map(|n| {
        let [stamp, word] = [10_000 + 433 * n, 65_535 - 397 * n];
        [stamp, n % LANES, word]
    });
    orders.map(|number| number as u16).collect()
}

fn text() -> Vec<u8> {
    let mut buffer = vec![0; BUFFER_LENGTH];
    let length = write(&full_log(), &mut buffer).expect("a good log");
    buffer.truncate(length);
    buffer
}

/// The text with each field in quotes, the header's too.
fn quoted(text: &[u8]) -> Vec<u8> {
    let text = std::str::from_utf8(text).expect("plain letters");
    let records = text.lines().map(|record| {
        let fields: Vec<String> = record
            .split(',')
            .map(|field| format!("\"{field}\""))
            .collect();
        fields.join(",") + "\r\n"
    });
    records.collect::<String>().into_bytes()
}

#[cfg(test)]
mod tests {
    use super::{full_log, quoted, rows, text};
    use crate::side::SIDES;

    #[test]
    fn the_texts_are_as_long_as_can_be() {
        assert_eq!(full_log().len(), 384);
        assert_eq!(text().len(), 17 + 128 * 15);
        assert_eq!(quoted(&text()).len(), 23 + 128 * 21);
        assert!(quoted(&text())
            .starts_with(b"\"stamp\",\"lane\",\"word\"\r\n\"10000\",\"0\",\"65535\"\r\n"));
    }

    #[test]
    fn rows_write_and_read_the_whole_log() {
        for row in rows() {
            let results = row.job().with.results(&SIDES[1]);
            let [(answer, lent)] = &results[..] else {
                panic!("{}: one input", row.name);
            };
            match row.name.starts_with("csv write") {
                true => {
                    assert_eq!(*answer, 256 * text().len());
                    assert!(lent.text.starts_with(&text()));
                }
                false => {
                    assert_eq!(*answer, 256 * 128);
                    assert_eq!(lent.log, full_log());
                }
            }
        }
    }
}
