//! Refusal 12: each clause broken in turn, and what is not judged.

use super::{
    assert_beacon_refused, assert_hear_refused, assert_order_refused, beacon, beacon_frame, hear,
    order, post_with_both_orders,
};
use drift_reference::frame::{Serial, Stamp};
use drift_reference::post::HearAnswer::Beacon;
use drift_reference::post::Post;

/// The record of post 0 with a change.
fn changed(change: impl Fn(&mut Post)) -> Post {
    let mut post = post_with_both_orders();
    change(&mut post);
    post
}

/// Every step must refuse the changed record by 12.
fn assert_bad(name: &str, change: impl Fn(&mut Post)) {
    let post = changed(change);
    assert_eq!(post.judge(), Err(12), "{name}");
    assert_order_refused(&post, 32, 12);
    assert_hear_refused(&post, &beacon_frame(1, &[]), 32, 12);
    assert_beacon_refused(&post, 32, 12);
}

/// Every step must pass the changed record of a source.
fn assert_good(name: &str, change: impl Fn(&mut Post)) {
    let post = changed(change);
    assert_eq!(post.judge(), Ok(()), "{name}");
    order(&mut post.clone(), 7);
    hear(&mut post.clone(), &beacon_frame(1, &[]));
    beacon(&post);
}

/// A record with every order taken and logged; the lanes' stamps are all equal.
fn full(lane: u8) -> Post {
    let mut post = Post::fresh(lane, 0xFF, 0xFF, 0xFF).expect("every lane is in the yard");
    post.serial = Serial(16);
    post.last = [16; 8];
    post.stamps = [1; 128];
    post.log = std::array::from_fn(|place| 127 - place as u8);
    post.logged = 128;
    post
}

#[test]
fn numbers_outside_their_range() {
    for lane in [8, 9, 16, 128, 255] {
        assert_bad("lane", |post| post.lane = lane);
    }
    for serial in [17, 18, 255] {
        assert_bad("own serial", |post| post.serial = Serial(serial));
        assert_bad("own serial and last taken", |post| {
            post.serial = Serial(serial);
            post.last[0] = serial;
        });
        for lane in 0..8 {
            assert_bad("last taken", |post| post.last[lane] = serial);
        }
    }
    for logged in [129, 130, 255] {
        assert_bad("length of the log", |post| post.logged = logged);
    }
    for place in [128, 129, 255] {
        assert_bad("place in the log", |post| post.log[1] = place);
        assert_bad("unused place in the log", |post| post.log[127] = place);
    }
}

#[test]
fn a_full_record_is_good_and_nothing_goes_beyond() {
    for lane in 0..8 {
        assert_eq!(full(lane).judge(), Ok(()));
        assert_eq!(
            hear(&mut full(lane), &beacon_frame(lane ^ 1, &[])).0,
            Beacon(0)
        );
        for number in [17, 255] {
            let mut post = full(lane);
            post.last[7] = number;
            assert_eq!(post.judge(), Err(12));
            post.last = [number; 8];
            post.serial = Serial(number);
            assert_eq!(post.judge(), Err(12));
        }
        for logged in [127, 129, 255] {
            let mut post = full(lane);
            post.logged = logged;
            // With 127, the last place is unused but holds 0, so that is no fault.
            let expected = if logged == 127 { Ok(()) } else { Err(12) };
            assert_eq!(post.judge(), expected);
        }
    }
}

#[test]
fn a_role_at_a_lane_without_a_post() {
    for lane in 3..8 {
        assert_bad("source", |post| post.sources |= 1 << lane);
        assert_bad("dest", |post| post.dests |= 1 << lane);
        assert_good("post without a role", |post| post.posts |= 1 << lane);
    }
    assert_bad("source 1 without a post", |post| post.posts = 0b101);
    assert_bad("dest 2 without a post", |post| post.posts = 0b011);
}

#[test]
fn an_own_serial_other_than_the_last_taken() {
    for serial in [0, 2, 16] {
        assert_bad("own serial", |post| post.serial = Serial(serial));
    }
    assert_bad("order of its own beyond the own serial", |post| {
        post.last[0] = 2;
        post.stamps[1] = 2;
    });
}

#[test]
fn an_order_missing_up_to_the_last_taken() {
    assert_bad("the only order", |post| post.stamps[16] = 0);
    assert_bad("last taken 2", |post| post.last[1] = 2);
    assert_bad("a word is no order", |post| {
        post.last[1] = 2;
        post.words[17] = 5;
    });
    assert_bad("the one between", |post| {
        post.last[1] = 3;
        post.stamps[18] = 9;
    });
    assert_good("none missing", |post| {
        post.last[1] = 3;
        (post.stamps[17], post.stamps[18]) = (9, 9);
    });
}

#[test]
fn an_order_kept_beyond_the_last_taken() {
    for place in [1, 15, 17, 31, 32, 111, 112, 127] {
        assert_bad("stamp", |post| post.stamps[place] = 1);
        assert_bad("word", |post| post.words[place] = 1);
    }
    assert_good("words may be zero or not where taken", |post| {
        post.words[0] = 0;
        post.words[16] = 65_535;
    });
}

#[test]
fn a_log_that_repeats_or_has_one_not_taken() {
    assert_bad("repeats", |post| post.log[1] = post.log[0]);
    assert_bad("repeats at its end", |post| {
        post.log[2] = 16;
        post.logged = 3;
    });
    // The unused places are zero, so a longer log repeats order 1 of lane 0.
    assert_bad("longer", |post| post.logged = 3);
    for place in [1, 15, 17, 127] {
        assert_bad("not taken", |post| post.log[1] = place);
    }
    assert_bad("shorter, but the place is not emptied", |post| {
        post.logged = 1
    });
    for place in [2, 126, 127] {
        assert_bad("unused place", |post| post.log[place] = 16);
    }
    assert_good("shorter", |post| (post.log[1], post.logged) = (0, 1));
    assert_good("empty", |post| (post.log[1], post.logged) = (0, 0));
}

#[test]
fn what_is_not_judged() {
    assert_good("order of the log", |post| post.log.swap(0, 1));
    assert_good("log at no destination", |post| post.dests = 0);
    assert_good("own entry other than the clock", |post| post.table[1] = 9);
    assert_good("table of every lane", |post| post.table = [65_535; 136]);
    assert_good("equal and falling stamps", |post| {
        post.last[1] = 3;
        (post.stamps[16], post.stamps[17], post.stamps[18]) = (9, 9, 1);
    });
    assert_good("orders of a lane without a post", |post| {
        post.last[7] = 1;
        post.stamps[112] = 65_535;
    });
    assert_good("clock below its stamps", |post| post.clock = Stamp(0));
    let clock_of_no_source = changed(|post| {
        post.sources = 0;
        post.clock = Stamp(65_535);
    });
    assert_eq!(clock_of_no_source.judge(), Ok(()));
}
