//! What a hearing and a broadcast do to clock, table and buffer.

use super::{beacon, beacon_frame, hear, order, order_frame, post_of_yard, post_with_both_orders};
use drift_reference::frame::Stamp;
use drift_reference::post::HearAnswer::{Again, Beacon, Early, Taken};
use drift_reference::post::Post;

fn known(post: &Post, lane: usize, serial: usize) -> u16 {
    post.table[17 * lane + serial]
}

#[test]
fn entries_only_raise_the_table() {
    let mut post = post_with_both_orders();
    assert_eq!((known(&post, 1, 1), known(&post, 0, 1)), (3, 4));
    for (stamp, expected) in [(2, 3), (3, 3), (4, 4), (1, 4)] {
        let frame = beacon_frame(2, &[(1, 1, stamp)]);
        assert_eq!(hear(&mut post, &frame).0, Beacon(0));
        assert_eq!(known(&post, 1, 1), expected);
    }
    // Serial 0 is a real serial, and a later serial does not touch it.
    hear(&mut post, &beacon_frame(2, &[(1, 0, 1)]));
    hear(&mut post, &beacon_frame(2, &[(1, 16, 65_535)]));
    assert_eq!(
        [0, 1, 16].map(|serial| known(&post, 1, serial)),
        [1, 4, 65_535]
    );
    assert_eq!(post.clock, Stamp(4));
}

#[test]
fn again_and_early_raise_the_table_and_nothing_else() {
    for (serial, answer) in [(1, Again(0)), (3, Early(0)), (16, Early(0))] {
        let mut post = post_with_both_orders();
        let mut expected = post.clone();
        // Neither stamp nor word is compared with what is kept.
        let frame = order_frame(1, (1, serial, 9, 91), &[(1, 1, 7)]);
        assert_eq!(hear(&mut post, &frame).0, answer);
        expected.table[17 + 1] = 7;
        assert_eq!(post, expected);
    }
}

#[test]
fn every_serial_up_to_the_last_taken_is_again() {
    let mut post = post_of_yard(2);
    for serial in 1..=16 {
        let order = (0, serial, serial.into(), 5);
        assert_eq!(hear(&mut post, &order_frame(0, order, &[])).0, Taken(0));
        for older in 1..=16 {
            let expected = if older <= serial { Again(0) } else { Early(0) };
            if older != serial + 1 {
                let frame = order_frame(1, (0, older, 1, 5), &[]);
                assert_eq!(hear(&mut post, &frame).0, expected);
            }
        }
    }
}

#[test]
fn the_order_itself_is_no_entry() {
    let mut post = post_of_yard(2);
    assert_eq!(
        hear(&mut post, &order_frame(0, (0, 1, 5, 6), &[])).0,
        Taken(0)
    );
    assert_eq!(post.table, [0; 136]);
    assert_eq!((post.stamps[0], post.words[0], post.last[0]), (5, 6, 1));
}

#[test]
fn taking_moves_the_clock_of_a_source_only() {
    for (clock, stamp, expected) in [(4, 9, 10), (9, 9, 10), (10, 9, 11), (9, 4, 10)] {
        let mut post = post_of_yard(1);
        post.clock = Stamp(clock);
        let (answer, frame) = hear(&mut post, &order_frame(0, (0, 1, stamp, 6), &[]));
        assert_eq!(answer, Taken(0));
        assert_eq!(post.clock, Stamp(expected));
        assert_eq!(known(&post, 1, 0), expected);
        let entries = [(1, 0, expected)];
        assert_eq!(frame, order_frame(1, (0, 1, stamp, 6), &entries));

        let mut post = post_of_yard(2);
        post.clock = Stamp(clock);
        let (answer, frame) = hear(&mut post, &order_frame(0, (0, 1, stamp, 6), &[]));
        assert_eq!(answer, Taken(0));
        assert_eq!(post.clock, Stamp(clock));
        assert_eq!(frame, order_frame(2, (0, 1, stamp, 6), &[]));
    }
}

#[test]
fn the_own_entry_becomes_the_clock_even_if_that_lowers_it() {
    let mut post = post_of_yard(1);
    post.table[17] = 50_000;
    post.table[17 + 1] = 60_000;
    hear(&mut post, &order_frame(0, (0, 1, 5, 6), &[]));
    assert_eq!((known(&post, 1, 0), known(&post, 1, 1)), (6, 60_000));
    assert_eq!(order(&mut post, 1).0.stamp, Stamp(7));
    assert_eq!((known(&post, 1, 0), known(&post, 1, 1)), (6, 7));
}

#[test]
fn the_broadcast_knows_what_the_frame_brought() {
    let mut post = post_of_yard(2);
    let frame = order_frame(0, (0, 1, 5, 6), &[(0, 1, 5), (1, 0, 3)]);
    let (_, broadcast) = hear(&mut post, &frame);
    let entries = [(0, 1, 5), (1, 0, 3)];
    assert_eq!(broadcast, order_frame(2, (0, 1, 5, 6), &entries));
}

#[test]
fn a_relay_takes_and_broadcasts() {
    let mut post = Post::fresh(4, 0x11, 0x01, 0x01).expect("lane 4 is in the yard");
    let frame = order_frame(0, (0, 1, 5, 6), &[(0, 1, 5)]);
    let (answer, broadcast) = hear(&mut post, &frame);
    assert_eq!(answer, Taken(0));
    assert_eq!(broadcast, order_frame(4, (0, 1, 5, 6), &[(0, 1, 5)]));
    assert_eq!((post.clock, post.last[0]), (Stamp(0), 1));
    assert_eq!(beacon(&post), beacon_frame(4, &[(0, 1, 5)]));
}

#[test]
fn newest_entry_is_the_highest_stamp_and_of_equals_the_higher_serial() {
    let mut post = post_of_yard(2);
    assert_eq!(beacon(&post), beacon_frame(2, &[]));
    // Lane 0: serial 3 has the highest stamp; lane 1: serials 0 and 5 are equal.
    post.table[3] = 9;
    post.table[16] = 8;
    post.table[17] = 9;
    post.table[17 + 5] = 9;
    // Lanes without a source or even a post have entries too.
    post.table[17 * 6] = 1;
    post.table[17 * 7 + 16] = 65_535;
    let entries = [(0, 3, 9), (1, 5, 9), (6, 0, 1), (7, 16, 65_535)];
    assert_eq!(beacon(&post), beacon_frame(2, &entries));
}

#[test]
fn a_fresh_post_is_empty() {
    let post = Post::fresh(6, 0xC1, 0x41, 0xC0).expect("lane 6 is in the yard");
    let roles = (post.lane, post.posts, post.sources, post.dests);
    assert_eq!(roles, (6, 0xC1, 0x41, 0xC0));
    assert_eq!((post.clock.0, post.serial.0, post.logged), (0, 0, 0));
    assert_eq!((post.last, post.table), ([0; 8], [0; 136]));
    assert_eq!((post.stamps, post.words), ([0; 128], [0; 128]));
    assert_eq!(post.log, [0; 128]);
}
