//! Fixed logs and files: every size, every first bad record, everything that can be
//! wrong with a record, and wrong lengths of all that is lent.

use super::files::{file_of, with_line_ends, Quotes, LINE_ENDS};
use super::inputs::{Input, WRONG_BUFFERS, WRONG_COUNTS};
use super::logs::{add, good_log_of, Order, BAD_LANES};
use super::texts::{FIELDS, HEADERS, RECORDS};
use crate::damage::LONGEST_TEXT;
use crate::random::Random;
use crate::scripts::NUMBERS;
use drift_reference::post::ORDERS;

const HEADER: &[u8] = b"stamp,lane,word\r\n";

/// The log of post 0 in document 01, and its file.
const LOG: [Order; 2] = [[1, 0, 417], [3, 1, 90]];
const FILE: &[u8] = b"stamp,lane,word\r\n1,0,417\r\n3,1,90\r\n";

/// All fixed inputs, each made when it is asked for.
pub fn inputs() -> impl Iterator<Item = Input> {
    let sizes = (0..=ORDERS).flat_map(of_size);
    let bad = (0..=ORDERS).flat_map(|orders| [bad_logs(orders), bad_files(orders)].concat());
    sizes
        .chain(bad)
        .chain((0..8).flat_map(one_lane))
        .chain([longest_text()])
        .chain(headers())
        .chain(records())
        .chain(fields())
        .chain(line_ends())
        .chain(std::iter::once_with(long_files).flatten())
        .chain(wrong_lengths())
}

/// As many orders as fit: 16 rounds through the lanes.
fn full_log() -> Vec<Order> {
    let orders = (0..ORDERS as u16).map(|n| [1 + n / 8, n % 8, 65_535 - n]);
    orders.collect()
}

fn plain(log: &[Order]) -> Vec<u8> {
    file_of(&mut Random::new(0), log, Quotes::None)
}

fn file(text: impl AsRef<[u8]>) -> Input {
    Input::file(text.as_ref().to_vec())
}

/// A log of so many orders, its file with quotes and without, and without its last
/// CR LF.
fn of_size(orders: usize) -> Vec<Input> {
    let random = &mut Random::new(orders as u64);
    let log = good_log_of(random, orders);
    let texts =
        [Quotes::None, Quotes::Some, Quotes::All].map(|quotes| file_of(random, &log, quotes));
    let mut inputs = vec![Input::log(log.concat())];
    for text in texts {
        inputs.push(file(&text[..text.len() - 2]));
        inputs.push(file(text));
    }
    inputs
}

/// Logs whose first bad record comes after so many good ones: by 31 and by 32, with
/// another bad one after it.
fn bad_logs(orders: usize) -> Vec<Input> {
    let full = full_log();
    let good = full[..orders].concat();
    let last = good.last_chunk::<3>().copied().unwrap_or([1, 0, 1]);
    let rising: Order = [last[0] + 1, 7, 0];
    let again = [last[0], last[1], 7];
    let ends: [&[u16]; 14] = [
        &[0, 0, 0],
        &[last[0], 8, 0],
        &[last[0] - 1, 8, 0],
        &[0, 8, 0, last[0], 0, 0],
        &[rising[0], 256, 0],
        &rising[..1],
        &rising[..2],
        &last[..2],
        &[0],
        &again,
        &[last[0], last[1], 7, 0, 0, 0],
        &[last[0], last[1] / 2, 7],
        &[last[0] - 1, 7, 7],
        &rising,
    ];
    let logs = ends.map(|end| Input::log([&good[..], end].concat()));
    let lanes = BAD_LANES.map(|lane| Input::log([&good[..], &[rising[0], lane, 0]].concat()));
    logs.into_iter().chain(lanes).collect()
}

/// Files whose first bad record comes after so many good orders: by 31 and by 32,
/// with another bad one after it, and with and without a line end.
fn bad_files(orders: usize) -> Vec<Input> {
    let full = full_log();
    let good = plain(&full[..orders]);
    let [stamp, lane, _] = full[..orders].last().copied().unwrap_or([1, 0, 0]);
    let next = stamp + 1;
    let ends = [
        "x\r\n".to_string(),
        format!("{next},8,0\r\n{stamp},{lane},0\r\n"),
        format!("0,{lane},0"),
        format!("{stamp},{lane},0,0"),
        format!("{stamp},{lane},0\n"),
        format!("{next},7,0\r"),
        "\r\n".to_string(),
        format!("{stamp},{lane},0\r\n"),
        format!("{stamp},{lane},0"),
        format!("{stamp},\"{lane}\",0\r\nx\r\n"),
        format!("{},7,0\r\n", stamp - 1),
        format!("{next},7,0\r\n"),
        format!("{next},7,0"),
    ];
    ends.map(|end| file([&good[..], end.as_bytes()].concat()))
        .to_vec()
}

/// Sixteen orders of a lane pass, the seventeenth does not, alone or among others;
/// with 17 of each lane the 129th order is one of these.
fn one_lane(lane: u16) -> Vec<Input> {
    let mut inputs = Vec::new();
    for others in [&LOG[..0], &LOG[..1], &full_log()[..120], &full_log()] {
        for orders in [16, 17] {
            let mut log = others.to_vec();
            add(&mut log, lane, orders);
            inputs.extend([Input::log(log.concat()), file(plain(&log))]);
        }
    }
    inputs
}

fn longest_text() -> Input {
    let log = (0..ORDERS as u16).flat_map(|n| [10_000 + n, n % 8, 65_535 - n]);
    Input::log(log.collect())
}

/// Each header alone, with a line end, and with an order.
fn headers() -> impl Iterator<Item = Input> {
    let ends = ["", "\r\n", "\r\n1,0,417\r\n", "\n1,0,417\n"];
    let headers = HEADERS.into_iter().chain(["stamp,lane,word"]);
    headers.flat_map(move |header| ends.map(|end| file(format!("{header}{end}"))))
}

/// Each record after no order, two and as many as there can be, at the end and not.
fn records() -> impl Iterator<Item = Input> {
    let starts = [HEADER.to_vec(), FILE.to_vec(), plain(&full_log())];
    starts.into_iter().flat_map(|start| {
        RECORDS.into_iter().flat_map(move |record| {
            let ends = ["", "\r\n", "\r\n9,0,0\r\n"].map(|end| format!("{record}{end}"));
            ends.map(|end| file([&start[..], end.as_bytes()].concat()))
        })
    })
}

/// Each number and each bad field at each place of one, quoted and not.
fn fields() -> impl Iterator<Item = Input> {
    let fields = NUMBERS.into_iter().chain(FIELDS);
    fields.flat_map(|field| {
        let quoted = format!("\"{field}\"");
        let texts = [field, &quoted].map(|field| {
            [
                format!("{field},1,90"),
                format!("5,{field},90"),
                format!("5,1,{field}"),
            ]
        });
        let files = texts.concat().into_iter();
        files.map(|record| file([HEADER, record.as_bytes(), b"\r\n"].concat()))
    })
}

/// Other line ends, everywhere and at the end of the file, and a byte order mark.
fn line_ends() -> impl Iterator<Item = Input> {
    let everywhere = LINE_ENDS.iter().map(|end| file(with_line_ends(FILE, end)));
    let record = &FILE[..FILE.len() - 2];
    let at_the_end = LINE_ENDS
        .iter()
        .map(move |end| file([record, end].concat()));
    let after_header = LINE_ENDS.iter().map(|end| {
        let header = with_line_ends(HEADER, end);
        file([&header, &FILE[HEADER.len()..]].concat())
    });
    let mark = file([b"\xEF\xBB\xBF", FILE].concat());
    everywhere
        .chain(at_the_end)
        .chain(after_header)
        .chain([mark])
}

/// Files about as long as allowed and longer, bad early, late or only at the end.
fn long_files() -> Vec<Input> {
    let mut inputs = Vec::new();
    let full = plain(&full_log());
    let starts: [&[u8]; 6] = [b"", HEADER, FILE, &full, b"stamp,lane,word\r\n1,0,", b"\""];
    for length in [
        LONGEST_TEXT - 1,
        LONGEST_TEXT,
        LONGEST_TEXT + 1,
        65_536,
        65_536 + FILE.len(),
    ] {
        for start in starts {
            for repeated in [&b"0"[..], b"\"", b"\r\n", b"17,0,1\r\n"] {
                let mut text = start.to_vec();
                text.extend(repeated.iter().cycle().take(length - start.len()));
                inputs.push(file(text));
            }
        }
    }
    inputs
}

/// Good and bad logs and files, lent buffers and numbers of wrong lengths.
fn wrong_lengths() -> Vec<Input> {
    let logs: [&[u16]; 5] = [&[], &[1, 0, 417], &[0, 0, 0], &[2, 0, 0, 1, 0, 0], &[1, 0]];
    let long = [FILE, &[b'0'; LONGEST_TEXT]].concat();
    let bad_order = [FILE, b"1,0,417\r\n"].concat();
    let files: [&[u8]; 6] = [b"", HEADER, FILE, b"x", &bad_order, &long];
    let mut inputs = Vec::new();
    for length in WRONG_BUFFERS {
        inputs.extend(logs.map(|log| Input::Log(log.to_vec(), length)));
    }
    for count in WRONG_COUNTS {
        inputs.extend(files.map(|file| Input::File(file.to_vec(), count)));
    }
    inputs
}
