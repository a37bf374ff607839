//! Damages of any text: its bytes and its lines.

use crate::random::Random;
use std::ops::Range;

/// The most bytes of a script or a file that are not refused by 1.
pub const LONGEST_TEXT: usize = 48_000;

pub type Damage = fn(&mut Random, &mut Vec<u8>);

/// One to three of the damages.
pub fn damaged(random: &mut Random, damages: &[Damage], mut text: Vec<u8>) -> Vec<u8> {
    for _ in 0..random.pick(&[1, 1, 1, 2, 3]) {
        random.pick(damages)(random, &mut text);
    }
    text
}

/// A place below a length, which may exceed 16 bits; 0 if there is none.
pub fn below(random: &mut Random, length: usize) -> usize {
    (random.bits() % length.max(1) as u64) as usize
}

/// Any byte, most often one of these.
fn any_byte(random: &mut Random, bytes: &[u8]) -> u8 {
    match random.one_in(4) {
        true => random.byte(),
        false => random.pick(bytes),
    }
}

pub fn change_byte(random: &mut Random, text: &mut [u8], bytes: &[u8]) {
    let at = below(random, text.len());
    if let Some(byte) = text.get_mut(at) {
        *byte = any_byte(random, bytes);
    }
}

pub fn delete_byte(random: &mut Random, text: &mut Vec<u8>) {
    if !text.is_empty() {
        text.remove(below(random, text.len()));
    }
}

pub fn insert_byte(random: &mut Random, text: &mut Vec<u8>, bytes: &[u8]) {
    let at = below(random, text.len() + 1);
    text.insert(at, any_byte(random, bytes));
}

pub fn delete_stretch(random: &mut Random, text: &mut Vec<u8>) {
    let start = below(random, text.len());
    let length = usize::from(random.between(1, 40)).min(text.len() - start);
    text.drain(start..start + length);
}

/// The place of a number or word; that of its end, if the middle of it is met.
pub fn any_item(random: &mut Random, text: &[u8]) -> Option<Range<usize>> {
    let start = below(random, text.len());
    let is_item = |byte: &u8| byte.is_ascii_alphanumeric();
    let first = start + text[start..].iter().position(is_item)?;
    let length = text[first..].iter().position(|byte| !is_item(byte));
    Some(first..length.map_or(text.len(), |length| first + length))
}

/// The places of a text's lines, with their line feeds.
pub fn lines(text: &[u8]) -> Vec<Range<usize>> {
    let mut end = 0;
    let lines = text.split_inclusive(|&byte| byte == b'\n').map(|line| {
        end += line.len();
        end - line.len()..end
    });
    lines.collect()
}

pub fn any_line(random: &mut Random, text: &[u8]) -> Range<usize> {
    let lines = lines(text);
    let picked = below(random, lines.len());
    lines.get(picked).cloned().unwrap_or(0..0)
}

/// Where a line may be put in: before or after another, or at the end.
pub fn any_place_of_a_line(random: &mut Random, text: &[u8]) -> usize {
    let line = any_line(random, text);
    random.pick(&[line.start, line.end, text.len()])
}

pub fn duplicate_line(random: &mut Random, text: &mut Vec<u8>) {
    let line = any_line(random, text);
    let copy = text[line.clone()].to_vec();
    text.splice(line.end..line.end, copy);
}

pub fn swap_lines(random: &mut Random, text: &mut Vec<u8>) {
    let [one, other] = [(); 2].map(|()| any_line(random, text));
    let (early, late) = match one.start < other.start {
        true => (one, other),
        false => (other, one),
    };
    if early.end > late.start {
        return;
    }
    let mut swapped = text[late.clone()].to_vec();
    swapped.extend_from_slice(&text[early.end..late.start]);
    swapped.extend_from_slice(&text[early.clone()]);
    text.splice(early.start..late.end, swapped);
}

pub fn delete_line(random: &mut Random, text: &mut Vec<u8>) {
    let line = any_line(random, text);
    text.drain(line);
}

pub fn cut_anywhere(random: &mut Random, text: &mut Vec<u8>) {
    let length = below(random, text.len() + 1);
    text.truncate(length);
}

/// Repeats a line until the text has 48,000 bytes, one less or more, or many more.
pub fn make_long(random: &mut Random, text: &mut Vec<u8>) {
    let line = any_line(random, text);
    let repeated = match line.is_empty() {
        true => b"\n".to_vec(),
        false => text[line].to_vec(),
    };
    let length = random.pick(&[
        LONGEST_TEXT - 1,
        LONGEST_TEXT,
        LONGEST_TEXT + 1,
        LONGEST_TEXT + 1_000,
        65_536 + 100,
    ]);
    while text.len() < length {
        let left = (length - text.len()).min(repeated.len());
        text.extend_from_slice(&repeated[..left]);
    }
}
