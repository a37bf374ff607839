//! Logs to write: good ones of all sizes, and ones with something wrong.

use crate::random::Random;
use drift_reference::frame::{LANES, LAST_SERIAL};
use drift_reference::post::ORDERS;

/// Stamp, lane and word.
pub type Order = [u16; 3];

/// Words of one to five digits.
const WORDS: [u16; 10] = [0, 9, 10, 99, 100, 999, 1_000, 9_999, 10_000, 65_535];

/// Lanes over 7; some are a lane in their lowest 8 bits.
pub const BAD_LANES: [u16; 8] = [8, 9, 15, 255, 256, 257, 263, 65_535];

/// A random good log; a quarter of them is empty, a quarter is full.
pub fn good_log(random: &mut Random) -> Vec<Order> {
    let orders = random.between_often_an_end(0, ORDERS as u16);
    good_log_of(random, orders.into())
}

/// A random good log of so many orders, at most 128.
pub fn good_log_of(random: &mut Random, orders: usize) -> Vec<Order> {
    let largest_step = random.pick(&[0, 1, 3, 500]);
    let mut log: Vec<Order> = Vec::with_capacity(orders);
    for lane in lanes(random, orders) {
        let stamp = match log.last() {
            None => 1,
            // Of equal stamps the lanes rise.
            Some(&[stamp, last, _]) => {
                let least = u16::from(lane <= last);
                stamp + random.between(least, largest_step.max(least))
            }
        };
        log.push([stamp, lane, any_word(random)]);
    }
    // The log may start at any stamp, and may end with the last one.
    let last = log.last().map_or(1, |&[stamp, ..]| stamp);
    let later = random.between_often_an_end(0, u16::MAX - last);
    log.iter_mut().for_each(|order| order[0] += later);
    log
}

/// The lanes of so many orders, none of them more than 16 times.
fn lanes(random: &mut Random, orders: usize) -> Vec<u16> {
    let mut lanes: Vec<u16> = (0..ORDERS).map(|place| (place % LANES) as u16).collect();
    for place in (1..lanes.len()).rev() {
        lanes.swap(place, random.between(0, place as u16).into());
    }
    // Few lanes at times, as far as they have room for so many orders.
    let needed = orders.div_ceil(LAST_SERIAL.0.into());
    if random.one_in(3) {
        lanes.retain(|&lane| usize::from(lane) < needed);
    }
    lanes.truncate(orders);
    lanes
}

fn any_word(random: &mut Random) -> u16 {
    match random.one_in(2) {
        true => random.pick(&WORDS),
        false => random.between(0, u16::MAX),
    }
}

/// What an order becomes; it is told the one before it.
type Change = fn(&mut Random, Order, Order) -> Order;

const CHANGES: [Change; 6] = [
    |_, _, [_, lane, word]| [0, lane, word],
    |random, _, [stamp, _, word]| [stamp, random.pick(&BAD_LANES), word],
    // The same stamp and lane again; the same stamp and a lower lane; a lower stamp.
    |_, [stamp, lane, _], _| [stamp, lane, 7],
    |_, [stamp, lane, _], _| [stamp, lane / 2, 7],
    |_, [stamp, ..], _| [stamp.saturating_sub(1), 7, 7],
    |random, _, _| any_order(random),
];

type Break = fn(&mut Random, &mut Vec<Order>);

const BREAKS: [Break; 7] = [
    |random, log| change_order(random, log),
    |random, log| change_order(random, log),
    |random, log| change_order(random, log),
    |random, log| swap_orders(random, log),
    |random, log| add(log, random.between(0, 7), 17),
    |_, log| (0..LANES as u16).for_each(|lane| add(log, lane, 17)),
    |random, log| log.push(any_order(random)),
];

/// The numbers of a log with one to three things wrong, at times too many of them
/// or no multiple of three.
pub fn broken(random: &mut Random, mut log: Vec<Order>) -> Vec<u16> {
    for _ in 0..random.pick(&[1, 1, 1, 2, 3]) {
        random.pick(&BREAKS)(random, &mut log);
    }
    let mut numbers = log.concat();
    if random.one_in(5) {
        let kept = numbers.len().saturating_sub(random.pick(&[1, 2]));
        numbers.truncate(kept);
    }
    if random.one_in(5) {
        numbers.extend([u16::MAX; 2].iter().take(random.pick(&[1, 2])));
    }
    if random.one_in(50) {
        let more = numbers.clone();
        let most = random.pick(&[1_000, 65_536, 65_536 + 384]);
        let more = more.iter().cycle().take(most - most.min(numbers.len()));
        numbers.extend(more);
    }
    numbers
}

fn change_order(random: &mut Random, log: &mut [Order]) {
    let Some(last) = log.len().checked_sub(1) else {
        return;
    };
    let place = usize::from(random.between_often_an_end(0, last as u16));
    let before = place.checked_sub(1).map_or([1, 0, 0], |before| log[before]);
    log[place] = random.pick(&CHANGES)(random, before, log[place]);
}

fn any_order(random: &mut Random) -> Order {
    let stamp = random.between_often_an_end(0, u16::MAX);
    let lane = random.between_often_an_end(0, 8);
    [stamp, lane, any_word(random)]
}

fn swap_orders(random: &mut Random, log: &mut [Order]) {
    if log.len() > 1 {
        let place = usize::from(random.between_often_an_end(1, log.len() as u16 - 1));
        log.swap(place - 1, place);
    }
}

/// Adds orders of a lane until there are so many of it, each with the next stamp.
pub fn add(log: &mut Vec<Order>, lane: u16, orders: usize) {
    while log.iter().filter(|order| order[1] == lane).count() < orders {
        let stamp = log.last().map_or(0, |order| order[0]);
        log.push([stamp.saturating_add(1), lane, stamp]);
    }
}
