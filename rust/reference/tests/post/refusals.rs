//! Refusals 6 and 21 to 30, each with the neighbour that passes.

use super::{
    assert_beacon_refused, assert_hear_refused, assert_order_refused, beacon, beacon_frame, hear,
    order, order_frame, post_of_yard, post_with_both_orders, Bytes,
};
use drift_reference::frame::Stamp;
use drift_reference::post::HearAnswer::{Again, Beacon, Early, Taken};
use drift_reference::post::Post;

fn with_clock(mut post: Post, clock: u16) -> Post {
    post.clock = Stamp(clock);
    post
}

fn assert_refused(post: &Post, frame: &Bytes, number: u8) {
    assert_hear_refused(post, frame, 32, number);
}

#[test]
fn refusal_6_of_frame_and_buffer() {
    let post = post_with_both_orders();
    let frame = [beacon_frame(1, &[]), beacon_frame(1, &[])].concat();
    for length in (0..=64).filter(|&length| length != 32) {
        assert_order_refused(&post, length, 6);
        assert_beacon_refused(&post, length, 6);
        // A beacon heard broadcasts nothing; its buffer is judged all the same.
        assert_hear_refused(&post, &frame[..32], length, 6);
        assert_hear_refused(&post, &frame[..length], 32, 6);
        assert_hear_refused(&post, &frame[..length], length, 6);
    }
}

#[test]
fn refusals_7_to_11_of_the_frame() {
    let post = post_with_both_orders();
    let good = order_frame(1, (1, 2, 9, 5), &[]);
    assert_eq!(hear(&mut post.clone(), &good).0, Taken(0));
    for (position, value, number) in [(0, 3, 7), (0, 2, 8), (2, 8, 9), (1, 8, 10), (8, 17, 11)] {
        let mut frame = good;
        frame[position] = value;
        assert_refused(&post, &frame, number);
    }
}

#[test]
fn refusal_21_post_not_in_the_yard() {
    let mut post = post_of_yard(2);
    post.dests = 0b001;
    hear(&mut post.clone(), &beacon_frame(1, &[]));
    post.posts = 0b011;
    assert_order_refused(&post, 32, 21);
    assert_refused(&post, &beacon_frame(1, &[]), 21);
    assert_beacon_refused(&post, 32, 21);
    // A record with no posts and no roles is good, but no post of it is in the yard.
    (post.posts, post.sources, post.dests) = (0, 0, 0);
    assert_eq!(post.judge(), Ok(()));
    assert_beacon_refused(&post, 32, 21);
}

#[test]
fn refusals_22_and_23_of_an_order() {
    let mut post = post_of_yard(2);
    assert_order_refused(&post, 32, 22);
    post.sources = 0b111;
    for _ in 1..=16 {
        order(&mut post, 9);
    }
    assert_order_refused(&post, 32, 23);
}

#[test]
fn refusal_24_of_an_order() {
    let mut last = with_clock(post_of_yard(0), 65_534);
    assert_eq!(order(&mut last, 1).0.stamp, Stamp(65_535));
    assert_order_refused(&last, 32, 24);
    beacon(&last);
}

#[test]
fn refusal_24_of_a_hearing() {
    let order_with = |stamp| order_frame(0, (0, 1, stamp, 6), &[]);
    let mut post = post_of_yard(1);
    assert_refused(&post, &order_with(65_535), 24);
    assert_refused(&with_clock(post.clone(), 65_535), &order_with(1), 24);
    let mut neighbour = with_clock(post.clone(), 65_534);
    assert_eq!(hear(&mut neighbour, &order_with(1)).0, Taken(0));
    assert_eq!(neighbour.clock, Stamp(65_535));
    assert_eq!(hear(&mut post, &order_with(65_534)).0, Taken(0));
    assert_eq!(post.clock, Stamp(65_535));
    // Again, early and a beacon do not move the clock.
    assert_eq!(hear(&mut post, &order_with(65_535)).0, Again(0));
    let early = order_frame(0, (0, 3, 65_535, 6), &[]);
    assert_eq!(hear(&mut post, &early).0, Early(0));
    assert_eq!(hear(&mut post, &beacon_frame(0, &[])).0, Beacon(0));
    // No source, no clock to move.
    let mut dest = with_clock(post_of_yard(2), 65_535);
    assert_eq!(hear(&mut dest, &order_with(65_535)).0, Taken(0));
    assert_eq!(dest.clock, Stamp(65_535));
}

#[test]
fn refusal_26_own_broadcast() {
    let post = post_with_both_orders();
    assert_refused(&post, &beacon_frame(0, &[]), 26);
    assert_refused(&post, &order_frame(0, (0, 1, 1, 417), &[]), 26);
    assert_refused(&post, &order_frame(0, (1, 1, 3, 90), &[]), 26);
    // Its own order, passed on by another post, is heard.
    let passed_on = order_frame(1, (0, 1, 1, 417), &[]);
    assert_eq!(hear(&mut post.clone(), &passed_on).0, Again(0));
}

#[test]
fn refusal_28_strangers() {
    let mut post = post_of_yard(2);
    assert_refused(&post, &beacon_frame(3, &[]), 28);
    assert_refused(&post, &order_frame(3, (0, 1, 1, 5), &[]), 28);
    assert_refused(&post, &order_frame(1, (2, 1, 1, 5), &[]), 28);
    assert_refused(&post, &order_frame(1, (7, 3, 1, 5), &[]), 28);
    for lane in 2..8 {
        assert_refused(&post, &beacon_frame(1, &[(lane, 0, 1)]), 28);
        assert_refused(&post, &order_frame(1, (0, 1, 1, 5), &[(lane, 3, 9)]), 28);
    }
    // A sender need not be a source; the empty entries belong to nobody.
    post.posts |= 0b1000;
    assert_eq!(hear(&mut post, &beacon_frame(3, &[(1, 0, 1)])).0, Beacon(0));
    // Bytes 2 of a beacon name no lane: 0 need not be a source for it.
    post.sources = 0b010;
    assert_eq!(hear(&mut post, &beacon_frame(1, &[])).0, Beacon(0));
    assert_refused(&post, &order_frame(1, (0, 1, 1, 5), &[]), 28);
}

#[test]
fn refusal_29_stamp_not_above_the_last_taken() {
    let post = post_with_both_orders();
    for stamp in [1, 2, 3] {
        assert_refused(&post, &order_frame(1, (1, 2, stamp, 5), &[]), 29);
        // Not judged for again and early.
        let again = order_frame(1, (1, 1, stamp, 5), &[]);
        assert_eq!(hear(&mut post.clone(), &again).0, Again(0));
        let early = order_frame(1, (1, 3, stamp, 5), &[]);
        assert_eq!(hear(&mut post.clone(), &early).0, Early(0));
    }
    let above = order_frame(1, (1, 2, 4, 5), &[]);
    assert_eq!(hear(&mut post.clone(), &above).0, Taken(0));
    // With falling stamps, the last taken one counts and not the highest.
    let mut falling = post.clone();
    falling.last[1] = 2;
    falling.stamps[17] = 2;
    assert_refused(&falling, &order_frame(1, (1, 3, 2, 5), &[]), 29);
    let above = order_frame(1, (1, 3, 3, 5), &[]);
    assert!(matches!(hear(&mut falling, &above).0, Taken(_)));
    // Never for serial 1, although the place before it belongs to another lane.
    let mut first = post_of_yard(2);
    first.last[0] = 16;
    first.stamps[..16].fill(9);
    assert_eq!(
        hear(&mut first, &order_frame(1, (1, 1, 1, 5), &[])).0,
        Taken(0)
    );
}

#[test]
fn refusal_30_more_of_the_own_lane_than_there_is() {
    // Own serial 1, clock 4.
    let post = post_with_both_orders();
    for (serial, stamp, passes) in [
        (1, 4, true),
        (0, 4, true),
        (0, 1, true),
        (1, 5, false),
        (0, 5, false),
        (2, 4, false),
        (2, 1, false),
        (16, 65_535, false),
    ] {
        let own = [(0, serial, stamp)];
        let frames = [beacon_frame(1, &own), order_frame(1, (1, 1, 3, 90), &own)];
        for frame in frames {
            if passes {
                hear(&mut post.clone(), &frame);
            } else {
                assert_refused(&post, &frame, 30);
            }
        }
    }
    // Entries of other lanes may be ahead of serial and clock.
    hear(&mut post.clone(), &beacon_frame(1, &[(1, 16, 65_535)]));
    // An order of the own lane: its serial is judged, its stamp is not.
    for serial in [2, 3, 16] {
        assert_refused(&post, &order_frame(1, (0, serial, 9, 5), &[]), 30);
    }
    let again = order_frame(1, (0, 1, 65_535, 5), &[]);
    assert_eq!(hear(&mut post.clone(), &again).0, Again(0));
}
