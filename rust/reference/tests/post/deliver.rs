//! Delivery from records that need not come from a yard.

use super::{beacon_frame, hear, logged, order};
use drift_reference::frame::Stamp;
use drift_reference::post::HearAnswer::{Again, Beacon, Early, Taken};
use drift_reference::post::Post;

/// A destination at lane 7 of a yard with sources 0 and 1 that has taken the orders.
fn destination(orders: &[(u8, u16)]) -> Post {
    let mut post = Post::fresh(7, 0x83, 0x03, 0x80).expect("lane 7 is in the yard");
    for &(lane, stamp) in orders {
        take(&mut post, lane, stamp);
    }
    post
}

/// Puts an order into the record without a step; its word tells lane and serial.
fn take(post: &mut Post, lane: u8, stamp: u16) {
    let last = &mut post.last[usize::from(lane)];
    let place = 16 * usize::from(lane) + usize::from(*last);
    *last += 1;
    post.stamps[place] = stamp;
    post.words[place] = 100 * u16::from(lane) + u16::from(*last);
}

/// Lets the post know a stamp of a lane at a serial.
fn know(post: &mut Post, lane: usize, serial: usize, stamp: u16) {
    post.table[17 * lane + serial] = stamp;
}

/// Makes the post deliver by an empty beacon of post 0.
fn delivered(post: &mut Post) -> Vec<(u16, u8, u16)> {
    let before = usize::from(post.logged);
    let (answer, _) = hear(post, &beacon_frame(0, &[]));
    let new = logged(post)[before..].to_vec();
    assert_eq!(answer, Beacon(new.len() as u8));
    new
}

#[test]
fn an_equal_stamp_is_enough() {
    let mut post = destination(&[(0, 5), (1, 6)]);
    know(&mut post, 0, 1, 9);
    know(&mut post, 1, 1, 4);
    assert_eq!(delivered(&mut post), []);
    know(&mut post, 1, 1, 5);
    assert_eq!(delivered(&mut post), [(5, 0, 1)]);
}

#[test]
fn a_silent_source_has_not_agreed() {
    let mut post = destination(&[(0, 5)]);
    know(&mut post, 0, 1, 9);
    assert_eq!(delivered(&mut post), []);
    know(&mut post, 1, 0, 9);
    assert_eq!(delivered(&mut post), [(5, 0, 1)]);
}

#[test]
fn only_the_entry_at_the_last_serial_taken_counts() {
    let mut post = destination(&[(0, 5), (1, 2)]);
    know(&mut post, 0, 1, 9);
    for serial in [0, 2, 16] {
        know(&mut post, 1, serial, 60_000);
    }
    assert_eq!(delivered(&mut post), []);
    know(&mut post, 1, 1, 9);
    assert_eq!(delivered(&mut post), [(2, 1, 101), (5, 0, 1)]);
}

#[test]
fn posts_that_are_no_sources_are_not_asked() {
    // The post itself and the lanes 2 to 6 have no entries at all.
    let mut post = destination(&[(0, 1)]);
    know(&mut post, 0, 1, 1);
    know(&mut post, 1, 0, 1);
    assert_eq!(delivered(&mut post), [(1, 0, 1)]);
}

#[test]
fn lowest_stamp_then_lower_lane_then_lower_serial() {
    let mut post = destination(&[(1, 4), (1, 4), (1, 3), (0, 4), (0, 9), (0, 3)]);
    know(&mut post, 0, 3, 9);
    know(&mut post, 1, 3, 9);
    let expected = [
        (3, 0, 3),
        (3, 1, 103),
        (4, 0, 1),
        (4, 1, 101),
        (4, 1, 102),
        (9, 0, 2),
    ];
    assert_eq!(delivered(&mut post), expected);
}

#[test]
fn the_log_keeps_its_order_and_grows_at_its_end() {
    let mut post = destination(&[(0, 5), (0, 6), (0, 1), (1, 2)]);
    (post.log[0], post.log[1], post.logged) = (1, 0, 2);
    know(&mut post, 0, 3, 1);
    know(&mut post, 1, 1, 3);
    assert_eq!(delivered(&mut post), [(1, 0, 3)]);
    know(&mut post, 0, 3, 2);
    assert_eq!(delivered(&mut post), [(2, 1, 101)]);
    assert_eq!(post.log[..5], [1, 0, 2, 16, 0]);
}

#[test]
fn without_a_source_every_order_is_ready() {
    let mut post = destination(&[(3, 65_535), (1, 65_535)]);
    post.sources = 0;
    assert_eq!(delivered(&mut post), [(65_535, 1, 101), (65_535, 3, 301)]);
}

#[test]
fn orders_of_lanes_that_are_no_sources_are_delivered() {
    let mut post = destination(&[(5, 2), (7, 1)]);
    post.serial.0 = 1;
    know(&mut post, 0, 0, 2);
    know(&mut post, 1, 0, 2);
    assert_eq!(delivered(&mut post), [(1, 7, 701), (2, 5, 501)]);
}

#[test]
fn posts_that_are_no_destinations_deliver_nothing() {
    let mut post = destination(&[(0, 1), (0, 2)]);
    know(&mut post, 0, 2, 9);
    know(&mut post, 1, 0, 9);
    post.dests = 0x03;
    (post.log[0], post.logged) = (1, 1);
    assert_eq!(delivered(&mut post), []);
    post.sources |= 0x80;
    post.posts |= 0x80;
    assert_eq!(order(&mut post, 1).0.count, 0);
    assert_eq!(logged(&post), [(2, 0, 2)]);
}

#[test]
fn all_128_orders_can_be_delivered_at_once() {
    let mut post = Post::fresh(3, 0xFF, 0xFF, 0x08).expect("lane 3 is in the yard");
    for serial in 1..=16 {
        for lane in 0..8 {
            take(&mut post, lane, 17 - serial);
        }
    }
    post.serial.0 = 16;
    for lane in 0..8 {
        know(&mut post, lane, 16, 16);
    }
    let all = delivered(&mut post);
    assert_eq!(all.len(), 128);
    assert!(all.is_sorted());
    // Stamp 1 is that of serial 16, and lane comes before serial.
    assert_eq!(post.log[..3], [15, 31, 47]);
    assert_eq!(post.judge(), Ok(()));
    assert_eq!(delivered(&mut post), []);
}

#[test]
fn taken_again_early_and_beacon_all_deliver() {
    let mut start = destination(&[(0, 1), (1, 1)]);
    start.clock = Stamp(0);
    know(&mut start, 0, 1, 5);
    let known = [(1, 1, 1)];
    let order_of_0 = |serial| super::order_frame(0, (0, serial, 4, 9), &known);
    let hear_fresh = |frame| hear(&mut start.clone(), &frame).0;
    assert_eq!(hear_fresh(order_of_0(1)), Again(2));
    assert_eq!(hear_fresh(order_of_0(3)), Early(2));
    assert_eq!(hear_fresh(beacon_frame(0, &known)), Beacon(2));
    // Taking serial 2 asks for the entry (0, 2), which the frame must bring.
    assert_eq!(hear_fresh(order_of_0(2)), Taken(0));
    let known = [(0, 2, 4), (1, 1, 1)];
    let frame = super::order_frame(0, (0, 2, 4, 9), &known);
    assert_eq!(hear_fresh(frame), Taken(2));
}
