//! Files to read: the texts of logs, quoted or not, and their damages.

use super::logs::Order;
use super::texts::{FIELDS, HEADERS, RECORDS};
use crate::damage::{self, Damage};
use crate::random::Random;
use crate::scripts::NUMBERS;

/// Bytes that files are written with, and some that look like them.
const BYTES: &[u8] = b"\"\"\",,\r\r\n\n0123456789;;  -+.'\t\0stamplneword\x0B\x7F\x80\xEF\xFF";

/// Which fields of a file are quoted.
#[derive(Clone, Copy)]
pub enum Quotes {
    None,
    Some,
    All,
}

/// The file of a log, with its last CR LF.
pub fn file_of(random: &mut Random, log: &[Order], quotes: Quotes) -> Vec<u8> {
    let mut quoted = |field: String| {
        let is_quoted = match quotes {
            Quotes::None => false,
            Quotes::Some => random.one_in(2),
            Quotes::All => true,
        };
        match is_quoted {
            true => format!("\"{field}\""),
            false => field,
        }
    };
    let header = ["stamp", "lane", "word"].map(String::from);
    let orders = log
        .iter()
        .map(|order| order.map(|number| number.to_string()));
    let records = std::iter::once(header).chain(orders);
    let records = records.map(|record| record.map(&mut quoted).join(",") + "\r\n");
    records.collect::<String>().into_bytes()
}

/// The file of a log with random quotes, at times without its last CR LF.
pub fn any_file_of(random: &mut Random, log: &[Order]) -> Vec<u8> {
    let quotes = random.pick(&[Quotes::None, Quotes::Some, Quotes::All]);
    let mut file = file_of(random, log, quotes);
    if random.one_in(3) {
        file.truncate(file.len() - "\r\n".len());
    }
    file
}

const DAMAGES: [Damage; 19] = [
    |random, file| damage::change_byte(random, file, BYTES),
    |random, file| damage::change_byte(random, file, BYTES),
    |random, file| damage::insert_byte(random, file, BYTES),
    |random, file| damage::insert_byte(random, file, BYTES),
    damage::delete_byte,
    damage::delete_byte,
    damage::delete_stretch,
    change_field,
    change_field,
    change_field,
    insert_record,
    insert_record,
    damage::duplicate_line,
    damage::swap_lines,
    damage::delete_line,
    other_header,
    other_line_ends,
    damage::cut_anywhere,
    damage::make_long,
];

/// One to three damages.
pub fn damaged(random: &mut Random, file: Vec<u8>) -> Vec<u8> {
    damage::damaged(random, &DAMAGES, file)
}

/// Puts a number of the list, or a bad field, in the place of a number or name.
fn change_field(random: &mut Random, file: &mut Vec<u8>) {
    let Some(place) = damage::any_item(random, file) else {
        return;
    };
    let field = match random.one_in(2) {
        true => random.pick(&FIELDS),
        false => random.pick(&NUMBERS),
    };
    file.splice(place, field.bytes());
}

fn insert_record(random: &mut Random, file: &mut Vec<u8>) {
    let place = damage::any_place_of_a_line(random, file);
    let record = format!("{}\r\n", random.pick(&RECORDS));
    file.splice(place..place, record.bytes());
}

fn other_header(random: &mut Random, file: &mut Vec<u8>) {
    let first = damage::lines(file).first().cloned().unwrap_or(0..0);
    let header = format!("{}\r\n", random.pick(&HEADERS));
    file.splice(first, header.bytes());
}

/// Another end of one line or of all.
fn other_line_ends(random: &mut Random, file: &mut Vec<u8>) {
    let end = random.pick(&LINE_ENDS);
    let line = damage::any_line(random, file);
    let stretch = match random.one_in(2) {
        true => line,
        false => 0..file.len(),
    };
    let changed = with_line_ends(&file[stretch.clone()], end);
    file.splice(stretch, changed);
}

/// Ends of lines other than CR LF.
pub const LINE_ENDS: [&[u8]; 10] = [
    b"",
    b"\n",
    b"\r",
    b"\n\r",
    b"\r\r\n",
    b"\r\n\n",
    b"\r\n\r",
    b"\r\n\r\n",
    b" \r\n",
    b",\r\n",
];

/// The text with each CR LF replaced.
pub fn with_line_ends(text: &[u8], end: &[u8]) -> Vec<u8> {
    let mut changed = Vec::new();
    for line in damage::lines(text) {
        match text[line.clone()].strip_suffix(b"\r\n") {
            None => changed.extend_from_slice(&text[line]),
            Some(record) => changed.extend([record, end].concat()),
        }
    }
    changed
}
