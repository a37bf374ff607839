//! Damages of scripts: bytes, lines, numbers at limits and bad yard lines.

use super::texts::{LINES, NUMBERS, YARD_LINES};
use crate::damage::{self, Damage};
use crate::random::Random;

/// Bytes that scripts are written with, and some that look like them.
const BYTES: &[u8] = b"()  \n\n0123456789abdehloprstuyYR\t\r\0\x0B-+.,[]\x7F\x80\xFF\xA0";

const DAMAGES: [Damage; 17] = [
    |random, script| damage::change_byte(random, script, BYTES),
    |random, script| damage::change_byte(random, script, BYTES),
    damage::delete_byte,
    |random, script| damage::insert_byte(random, script, BYTES),
    damage::delete_stretch,
    change_number,
    change_number,
    change_number,
    insert_line,
    insert_line,
    damage::duplicate_line,
    damage::swap_lines,
    damage::delete_line,
    other_yard_line,
    other_line_ends,
    damage::cut_anywhere,
    damage::make_long,
];

/// One to three damages.
pub fn damaged(random: &mut Random, script: Vec<u8>) -> Vec<u8> {
    damage::damaged(random, &DAMAGES, script)
}

/// Puts a number of the list, or a role, in the place of a number or word.
fn change_number(random: &mut Random, script: &mut Vec<u8>) {
    let Some(place) = damage::any_item(random, script) else {
        return;
    };
    let is_word = script[place.start].is_ascii_alphabetic() && random.one_in(2);
    let item = match is_word {
        true => random.pick(&["both", "source", "dest", "relay", "order", "hear"]),
        false => random.pick(&NUMBERS),
    };
    script.splice(place, item.bytes());
}

fn insert_line(random: &mut Random, script: &mut Vec<u8>) {
    let place = damage::any_place_of_a_line(random, script);
    let line = format!("{}\n", random.pick(&LINES));
    script.splice(place..place, line.bytes());
}

fn other_yard_line(random: &mut Random, script: &mut Vec<u8>) {
    let first = damage::lines(script).first().cloned().unwrap_or(0..0);
    let line = format!("{}\n", random.pick(&YARD_LINES));
    script.splice(first, line.bytes());
}

fn other_line_ends(random: &mut Random, script: &mut Vec<u8>) {
    let ends = random.between(0, LINE_ENDS - 1);
    *script = with_line_ends(script, ends);
}

/// How many ways there are to end lines otherwise.
pub const LINE_ENDS: u16 = 8;

/// CR LF, CR alone, more or no line feeds at the end, a byte order mark, tabs.
pub fn with_line_ends(script: &[u8], ends: u16) -> Vec<u8> {
    let replace = |from: u8, to: &'static [u8]| {
        let bytes = script.iter().flat_map(move |byte| match *byte == from {
            true => to.to_vec(),
            false => vec![*byte],
        });
        bytes.collect()
    };
    match ends {
        0 => replace(b'\n', b"\r\n"),
        1 => replace(b'\n', b"\r"),
        2 => replace(b'\n', b"\n\n"),
        3 => replace(b' ', b"\t"),
        4 => replace(b' ', b"  "),
        5 => [b"\xEF\xBB\xBF", script].concat(),
        6 => [script, b"\n"].concat(),
        _ => script[..script.len().saturating_sub(1)].to_vec(),
    }
}
