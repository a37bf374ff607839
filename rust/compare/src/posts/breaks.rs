//! Changes to a record: some break a clause of refusal 12, some pass it.

use super::made_up::taken_places;
use crate::random::Random;
use drift_reference::frame::{Serial, Stamp, LANES};
use drift_reference::post::{Post, ORDERS};

type Break = fn(&mut Random, &mut Post);

/// Each breaks one clause of 12, in the words and order of document 01.
const BREAKS: [Break; 16] = [
    lane_out_of_range,
    own_serial_out_of_range,
    last_taken_out_of_range,
    log_length_out_of_range,
    log_place_out_of_range,
    source_without_post,
    dest_without_post,
    own_serial_is_another,
    last_taken_is_another,
    order_missing,
    stamp_beyond,
    word_beyond,
    log_repeats,
    log_has_one_not_taken,
    log_shorter_but_not_emptied,
    log_place_unused_but_filled,
];

/// These pass 12, as far as the record did before.
const CHANGES: [Break; 9] = [
    any_clock,
    any_table_values,
    any_stamps,
    log_in_another_order,
    log_shorter,
    not_in_yard,
    no_role,
    other_roles,
    words_of_orders,
];

/// One or two breaks, or changes that pass, or one of each.
pub fn break_record(random: &mut Random, post: &mut Post) {
    match random.between(0, 15) {
        0..=6 => random.pick(&BREAKS)(random, post),
        7 => {
            random.pick(&BREAKS)(random, post);
            random.pick(&BREAKS)(random, post);
        }
        8..=9 => {
            random.pick(&CHANGES)(random, post);
            random.pick(&BREAKS)(random, post);
        }
        10..=11 => {
            random.pick(&CHANGES)(random, post);
            random.pick(&CHANGES)(random, post);
        }
        _ => random.pick(&CHANGES)(random, post),
    }
}

fn any_lane(random: &mut Random) -> usize {
    random.between(0, LANES as u16 - 1).into()
}

/// A place of an order taken; any place if there is none.
fn taken_place(random: &mut Random, post: &Post) -> usize {
    let places: Vec<u8> = taken_places(post).collect();
    match places.is_empty() {
        true => any_place(random),
        false => random.pick(&places).into(),
    }
}

/// A place beyond the last taken of its lane; place 127 if there is none.
fn untaken_place(random: &mut Random, post: &Post) -> usize {
    let start = any_place(random);
    let mut around = (start..ORDERS).chain(0..start);
    let is_untaken = |place: &usize| place % 16 >= usize::from(post.last[place / 16]);
    around.find(is_untaken).unwrap_or(ORDERS - 1)
}

fn any_place(random: &mut Random) -> usize {
    random.between(0, ORDERS as u16 - 1).into()
}

fn lane_out_of_range(random: &mut Random, post: &mut Post) {
    post.lane = random.between_often_an_end(8, 255) as u8;
}

/// With the last taken of the own lane, so that only the range is broken.
fn own_serial_out_of_range(random: &mut Random, post: &mut Post) {
    let serial = random.between_often_an_end(17, 255) as u8;
    post.serial = Serial(serial);
    post.last[usize::from(post.lane % 8)] = serial;
}

/// Half of the times with sixteen orders kept, so that only the range is broken.
fn last_taken_out_of_range(random: &mut Random, post: &mut Post) {
    let lane = any_lane(random);
    post.last[lane] = random.between_often_an_end(17, 255) as u8;
    if random.one_in(2) {
        for stamp in &mut post.stamps[16 * lane..16 * lane + 16] {
            *stamp = random.between(1, 12).max(*stamp);
        }
    }
}

/// Half of the times with a full log, so that only the range is broken.
fn log_length_out_of_range(random: &mut Random, post: &mut Post) {
    post.logged = random.between_often_an_end(129, 255) as u8;
    if random.one_in(2) {
        post.last = [16; LANES];
        post.serial = Serial(16);
        for stamp in &mut post.stamps {
            *stamp = random.between(1, 12).max(*stamp);
        }
        post.log = std::array::from_fn(|index| index as u8);
    }
}

fn log_place_out_of_range(random: &mut Random, post: &mut Post) {
    let used = u16::from(post.logged.clamp(1, 128));
    let index = random.between(0, used - 1);
    post.log[usize::from(index)] = random.between_often_an_end(128, 255) as u8;
}

fn source_without_post(random: &mut Random, post: &mut Post) {
    let set = 1 << any_lane(random);
    post.sources |= set;
    post.posts &= !set;
    post.dests &= !set;
}

fn dest_without_post(random: &mut Random, post: &mut Post) {
    let set = 1 << any_lane(random);
    post.dests |= set;
    post.posts &= !set;
    post.sources &= !set;
}

fn own_serial_is_another(random: &mut Random, post: &mut Post) {
    post.serial = match random.between(0, 2) {
        0 => Serial(post.serial.0.wrapping_add(1)),
        1 => Serial(post.serial.0.wrapping_sub(1)),
        _ => Serial(random.byte_between(0, 16)),
    };
}

fn last_taken_is_another(random: &mut Random, post: &mut Post) {
    let last = &mut post.last[any_lane(random)];
    *last = match random.between(0, 2) {
        0 => last.wrapping_add(1),
        1 => last.wrapping_sub(1),
        _ => random.byte_between(0, 16),
    };
}

fn order_missing(random: &mut Random, post: &mut Post) {
    post.stamps[taken_place(random, post)] = 0;
}

fn stamp_beyond(random: &mut Random, post: &mut Post) {
    post.stamps[untaken_place(random, post)] = random.between_often_an_end(1, 65_535);
}

fn word_beyond(random: &mut Random, post: &mut Post) {
    post.words[untaken_place(random, post)] = random.between_often_an_end(1, 65_535);
}

/// Repeats one at the end of the log or inside it.
fn log_repeats(random: &mut Random, post: &mut Post) {
    let logged = post.logged.min(127);
    let repeated = match logged {
        0 => taken_place(random, post) as u8,
        _ => post.log[usize::from(random.between(0, logged as u16 - 1))],
    };
    post.log[usize::from(logged)] = repeated;
    post.logged = logged + 1;
    if logged == 0 {
        post.log[1] = repeated;
        post.logged = 2;
    }
}

fn log_has_one_not_taken(random: &mut Random, post: &mut Post) {
    let untaken = untaken_place(random, post) as u8;
    let logged = post.logged.min(127);
    let index = random.between(0, logged.into());
    post.log[usize::from(index)] = untaken;
    post.logged = post.logged.max(index as u8 + 1);
}

fn log_shorter_but_not_emptied(_: &mut Random, post: &mut Post) {
    post.logged = post.logged.saturating_sub(1);
}

fn log_place_unused_but_filled(random: &mut Random, post: &mut Post) {
    let index = random.between_often_an_end(post.logged.min(127).into(), 127);
    post.log[usize::from(index)] = taken_place(random, post) as u8;
}

fn any_clock(random: &mut Random, post: &mut Post) {
    post.clock = Stamp(match random.between(0, 3) {
        0 => 65_534,
        1 => 65_535,
        2 => random.between(0, 12),
        _ => random.between(0, 65_535),
    });
}

fn any_table_values(random: &mut Random, post: &mut Post) {
    for _ in 0..random.between(1, 40) {
        let place = random.between(0, post.table.len() as u16 - 1);
        post.table[usize::from(place)] = match random.between(0, 4) {
            0 => 0,
            1 => random.between(65_534, 65_535),
            2 => post.clock.0,
            3 => random.between(1, 12),
            _ => random.between(1, 65_535),
        };
    }
}

/// Equal, falling and largest stamps.
fn any_stamps(random: &mut Random, post: &mut Post) {
    for _ in 0..random.between(1, 8) {
        let place = taken_place(random, post);
        if place % 16 < usize::from(post.last[place / 16]) {
            post.stamps[place] = match random.between(0, 3) {
                0 => random.between(65_534, 65_535),
                1 => post.stamps[taken_place(random, post)],
                2 => random.between(1, 12),
                _ => random.between(1, 65_535),
            };
        }
    }
}

fn words_of_orders(random: &mut Random, post: &mut Post) {
    let place = taken_place(random, post);
    if post.stamps[place] != 0 {
        post.words[place] = random.between_often_an_end(0, 65_535);
    }
}

fn log_in_another_order(random: &mut Random, post: &mut Post) {
    let used = u16::from(post.logged.clamp(1, 128));
    for _ in 0..random.between(1, 6) {
        let [one, other] = [(); 2].map(|()| random.between(0, used - 1));
        post.log.swap(one.into(), other.into());
    }
}

fn log_shorter(random: &mut Random, post: &mut Post) {
    let logged = random.between(0, post.logged.min(128).into()) as u8;
    let old = usize::from(post.logged.min(128));
    post.log[usize::from(logged)..old].fill(0);
    post.logged = logged;
}

/// The post leaves the yard with its roles; at times nobody is left.
fn not_in_yard(random: &mut Random, post: &mut Post) {
    let gone = match random.one_in(4) {
        true => u8::MAX,
        false => 1 << (post.lane % 8),
    };
    post.posts &= !gone;
    post.sources &= !gone;
    post.dests &= !gone;
}

fn no_role(random: &mut Random, post: &mut Post) {
    match random.between(0, 3) {
        0 => post.sources = 0,
        1 => post.sources &= !(1 << (post.lane % 8)),
        2 => post.dests = 0,
        _ => post.dests = post.posts,
    }
}

fn other_roles(random: &mut Random, post: &mut Post) {
    post.sources = random.byte() & post.posts;
    post.dests = random.byte() & post.posts;
}
