//! Which refusal wins where several hold, and that the steps are total.

use super::{
    assert_beacon_refused, assert_hear_refused, assert_order_refused, beacon_frame, order_frame,
    post_of_yard, post_with_both_orders,
};
use drift_reference::frame::{Serial, Stamp};
use drift_reference::post::{Post, LAST_STAMP};

/// A fault put on top of the others.
type Fault = fn(&mut Post);

#[test]
fn order_the_lowest_number_wins() {
    // 24, then 23 on top of it, and so on; each number hides the ones before.
    let mut post = post_of_yard(0);
    let faults: [(u8, Fault); 5] = [
        (24, |post| post.clock = LAST_STAMP),
        (23, |post| {
            (post.serial, post.last[0]) = (Serial(16), 16);
            post.stamps[..16].fill(1);
        }),
        (22, |post| post.sources = 0b010),
        (21, |post| (post.posts, post.dests) = (0b110, 0b100)),
        (12, |post| post.words[127] = 1),
    ];
    for (number, fault) in faults {
        fault(&mut post);
        assert_order_refused(&post, 32, number);
        assert_order_refused(&post, 31, 6);
    }
}

#[test]
fn beacon_the_lowest_number_wins() {
    let mut post = post_of_yard(0);
    (post.posts, post.sources, post.dests) = (0b110, 0b010, 0b100);
    assert_beacon_refused(&post, 32, 21);
    post.log[5] = 1;
    assert_beacon_refused(&post, 32, 12);
    assert_beacon_refused(&post, 33, 6);
}

#[test]
fn hear_the_lowest_number_wins() {
    // An order of its own lane that is stale and beyond the own serial: 30 and 29.
    let mut post = post_with_both_orders();
    let stale = order_frame(1, (0, 2, 1, 5), &[]);
    assert_hear_refused(&post, &order_frame(1, (0, 2, 2, 5), &[]), 32, 30);
    assert_hear_refused(&post, &stale, 32, 29);
    let strange = order_frame(1, (0, 2, 1, 5), &[(7, 0, 1)]);
    assert_hear_refused(&post, &strange, 32, 28);
    let own = order_frame(0, (0, 2, 1, 5), &[(7, 0, 1)]);
    assert_hear_refused(&post, &own, 32, 26);
    post.clock = LAST_STAMP;
    assert_hear_refused(&post, &own, 32, 24);
    // Without a post at its lane it has no roles there either.
    (post.posts, post.sources, post.dests) = (0b110, 0b010, 0b100);
    assert_hear_refused(&post, &own, 32, 21);
    post.logged = 200;
    assert_hear_refused(&post, &own, 32, 12);
    let mut unreadable = own;
    for (position, value, number) in [(8, 17, 11), (1, 8, 10), (3, 0, 9), (0, 9, 7)] {
        unreadable[position] = value;
        assert_hear_refused(&post, &unreadable, 32, number);
        assert_hear_refused(&post, &unreadable, 31, 6);
        assert_hear_refused(&post, &unreadable[..31], 32, 6);
    }
}

#[test]
fn hear_other_pairs() {
    // 24 before 28: an order to be taken of a lane that is no source.
    let post = post_of_yard(0);
    let stranger = order_frame(1, (7, 1, 65_535, 5), &[]);
    assert_hear_refused(&post, &stranger, 32, 24);
    let stranger = order_frame(1, (7, 1, 65_534, 5), &[]);
    assert_hear_refused(&post, &stranger, 32, 28);
    // 24 before 29 and 30.
    let mut post = post_with_both_orders();
    post.clock = LAST_STAMP;
    assert_hear_refused(&post, &order_frame(1, (1, 2, 1, 5), &[]), 32, 24);
    assert_hear_refused(&post, &order_frame(1, (0, 2, 9, 5), &[(0, 2, 1)]), 32, 24);
    // 26 before 30, 28 before 30, 29 before 30.
    post.clock = Stamp(4);
    assert_hear_refused(&post, &beacon_frame(0, &[(0, 2, 1)]), 32, 26);
    assert_hear_refused(&post, &beacon_frame(3, &[(0, 2, 1)]), 32, 28);
    let stale = order_frame(1, (1, 2, 3, 5), &[(0, 2, 1)]);
    assert_hear_refused(&post, &stale, 32, 29);
    // 8 before 10 and 11.
    let mut beacon = beacon_frame(1, &[]);
    (beacon[1], beacon[7], beacon[8]) = (8, 1, 17);
    assert_hear_refused(&post, &beacon, 32, 8);
}

#[test]
fn fresh_12_before_21() {
    for (arguments, number) in [
        ((8, 0xFF, 0, 0), 12),
        ((255, 0xFF, 0xFF, 0xFF), 12),
        ((8, 0, 0, 0), 12),
        ((0, 0b10, 0b01, 0), 12),
        ((0, 0b10, 0, 0b01), 12),
        ((1, 0b10, 0b100, 0), 12),
        ((0, 0, 0, 1), 12),
        ((0, 0, 0, 0), 21),
        ((7, 0x7F, 0x7F, 0x7F), 21),
        ((0, 0b10, 0b10, 0b10), 21),
    ] {
        let (lane, posts, sources, dests) = arguments;
        let refused = Post::fresh(lane, posts, sources, dests);
        assert_eq!(refused, Err(number), "{arguments:?}");
    }
    for lane in 0..8 {
        let set = 1 << lane;
        assert!(Post::fresh(lane, set, 0, 0).is_ok());
        assert!(Post::fresh(lane, 0xFF, 0xFF, 0xFF).is_ok());
        assert_eq!(Post::fresh(lane, !set, 0, 0), Err(21));
    }
}

#[test]
fn any_numbers_at_all_are_answered() {
    // Every record of one repeated number, with every frame of one repeated byte.
    for number in 0..=255 {
        let wide = u16::from(number) * 257;
        let mut post = Post {
            lane: number,
            posts: number,
            sources: number,
            dests: number,
            clock: Stamp(wide),
            serial: Serial(number),
            last: [number; 8],
            table: [wide; 136],
            stamps: [wide; 128],
            words: [wide; 128],
            log: [number; 128],
            logged: number,
        };
        let expected = if number == 0 { 21 } else { 12 };
        assert_beacon_refused(&post, 32, expected);
        assert_order_refused(&post, 32, expected);
        for byte in 0..=255 {
            assert!(post.hear(&[byte; 32], &mut [0; 32]).is_err());
        }
        let frame = order_frame(7, (7, 16, 65_535, 0), &[(7, 16, 65_535)]);
        assert_hear_refused(&post, &frame, 32, expected);
    }
}
