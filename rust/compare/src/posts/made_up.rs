//! Made-up records: good by refusal 12, but seldom ones that a post can reach.

use crate::random::Random;
use drift_reference::frame::{Serial, Stamp, LANES};
use drift_reference::post::{Post, ORDERS};

/// Stamps of one record come from one of these ranges, so that many are equal.
const STAMP_RANGES: [(u16, u16); 4] = [(1, 3), (1, 12), (65_530, 65_535), (1, 65_535)];

/// A set of at least one lane: often one lane or all of them.
pub fn some_posts(random: &mut Random) -> u8 {
    let one = 1 << random.between(0, 7);
    match random.between(0, 5) {
        0 => one,
        1 => u8::MAX,
        _ => random.byte() | one,
    }
}

/// A part of the set: often all of it, seldom nothing.
pub fn subset(random: &mut Random, set: u8) -> u8 {
    match random.between(0, 9) {
        0 => 0,
        1..=4 => set,
        _ => random.byte() & set,
    }
}

/// A random lane of the set, if it has one.
pub fn lane_in(random: &mut Random, set: u8) -> Option<u8> {
    let mut left = set;
    for _ in 0..random.between(0, set.count_ones().saturating_sub(1) as u16) {
        left &= left - 1;
    }
    (left != 0).then(|| left.trailing_zeros() as u8)
}

/// A record that passes 12; stamps, table and the order of its log may be anything.
pub fn record(random: &mut Random) -> Post {
    let posts = some_posts(random);
    let lane = lane_in(random, posts).unwrap_or(0);
    let mut post = Post {
        lane,
        posts,
        sources: subset(random, posts),
        dests: subset(random, posts),
        ..Post::EMPTY
    };
    if random.one_in(2) {
        post.dests |= 1 << lane;
    }
    let (low, high) = random.pick(&STAMP_RANGES);
    post.clock = match random.between(0, 5) {
        0 => Stamp(0),
        1 => Stamp(random.between(65_534, 65_535)),
        2 => Stamp(random.between(0, 65_535)),
        _ => Stamp(random.between(low, high)),
    };
    take_orders(random, &mut post, low, high);
    post.serial = Serial(post.last[usize::from(lane)]);
    fill_table(random, &mut post, low, high);
    fill_log(random, &mut post);
    post
}

/// Some orders of each lane, most often of the sources; one record in 16 is full.
fn take_orders(random: &mut Random, post: &mut Post, low: u16, high: u16) {
    let full = random.one_in(16);
    for lane in 0..LANES {
        let is_source = post.sources >> lane & 1 == 1;
        let last = match random.between(0, 9) {
            _ if full => 16,
            0 if !is_source => random.byte_between(1, 3),
            _ if !is_source => 0,
            0..=1 => 0,
            2..=4 => random.byte_between(1, 3),
            5 => 16,
            _ => random.byte_between(0, 16),
        };
        post.last[lane] = last;
        for place in 16 * lane..16 * lane + usize::from(last) {
            post.stamps[place] = random.between(low, high);
            post.words[place] = random.between_often_an_end(0, 65_535);
        }
    }
}

/// A table with few, many or only stamps; where deliveries look, nearly always one.
fn fill_table(random: &mut Random, post: &mut Post, low: u16, high: u16) {
    let percent = random.pick(&[0, 30, 90, 100]);
    for known in &mut post.table {
        if random.between(1, 100) <= percent {
            *known = random.between(low, high);
        }
    }
    for (lane, &last) in post.last.iter().enumerate() {
        if !random.one_in(16) {
            post.table[17 * lane + usize::from(last)] = random.between(low, high);
        }
    }
}

/// None, some or all of the orders taken, in any order.
fn fill_log(random: &mut Random, post: &mut Post) {
    let mut places: Vec<u8> = taken_places(post).collect();
    // Fisher and Yates: each place changes with one at or before it.
    for index in (1..places.len()).rev() {
        let other = random.between(0, index as u16);
        places.swap(index, usize::from(other));
    }
    let length = random.between_often_an_end(0, places.len() as u16);
    places.truncate(length.into());
    post.log[..places.len()].copy_from_slice(&places);
    post.logged = places.len() as u8;
}

/// The places of the orders that a record has taken.
pub fn taken_places(post: &Post) -> impl Iterator<Item = u8> + '_ {
    (0..ORDERS as u8).filter(|place| place % 16 < post.last[usize::from(place / 16)])
}

/// Every byte of the record at random, at most `largest`.
pub fn all_random(random: &mut Random, largest: u8) -> Post {
    let mut byte = || random.byte_between(0, largest);
    Post {
        lane: byte(),
        posts: byte(),
        sources: byte(),
        dests: byte(),
        clock: Stamp(u16::from_be_bytes([byte(), byte()])),
        serial: Serial(byte()),
        last: std::array::from_fn(|_| byte()),
        table: std::array::from_fn(|_| u16::from_be_bytes([byte(), byte()])),
        stamps: std::array::from_fn(|_| u16::from_be_bytes([byte(), byte()])),
        words: std::array::from_fn(|_| u16::from_be_bytes([byte(), byte()])),
        log: std::array::from_fn(|_| byte()),
        logged: byte(),
    }
}
