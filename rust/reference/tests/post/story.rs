//! The stories of the yard bench, told with single posts that pass frames by hand.

use super::{beacon, hear, logged, order, order_frame, post_of_yard};
use drift_reference::frame::{Serial, Stamp};
use drift_reference::post::HearAnswer::{Again, Beacon, Early, Taken};
use drift_reference::post::{OrderAnswer, Post};

/// P2: frame 4 of the printout in document 01.
const P2: [u8; 32] = [
    0x01, 0x00, 0x01, 0x01, 0x00, 0x03, 0x00, 0x5A, 0x01, 0x00, 0x04, 0x01, 0x00, 0x03, 0, 0, 0, 0,
    0, 0, 0, 0, 0, 0, 0, 0, 0, 0, 0, 0, 0, 0,
];

fn order_answer(serial: u8, stamp: u16, count: u8) -> OrderAnswer {
    OrderAnswer {
        serial: Serial(serial),
        stamp: Stamp(stamp),
        count,
    }
}

/// Clock, own serial and log.
fn printed(post: &Post) -> (u16, u8, Vec<(u16, u8, u16)>) {
    (post.clock.0, post.serial.0, logged(post))
}

#[test]
fn p1_p2_and_p4() {
    let [mut zero, mut one, mut two] = [0, 1, 2].map(post_of_yard);
    let (answer, frame_0) = order(&mut zero, 417);
    assert_eq!(answer, order_answer(1, 1, 0));
    assert_eq!(frame_0, order_frame(0, (0, 1, 1, 417), &[(0, 1, 1)]));
    let (answer, frame_1) = hear(&mut one, &frame_0);
    assert_eq!(answer, Taken(0));
    let entries = [(0, 1, 1), (1, 0, 2)];
    assert_eq!(frame_1, order_frame(1, (0, 1, 1, 417), &entries));
    let (answer, frame_2) = order(&mut one, 90);
    assert_eq!(answer, order_answer(1, 3, 0));
    let entries = [(0, 1, 1), (1, 1, 3)];
    assert_eq!(frame_2, order_frame(1, (1, 1, 3, 90), &entries));
    let (answer, frame_3) = hear(&mut two, &frame_1);
    assert_eq!(answer, Taken(1));
    let entries = [(0, 1, 1), (1, 0, 2)];
    assert_eq!(frame_3, order_frame(2, (0, 1, 1, 417), &entries));
    let (answer, frame_4) = hear(&mut zero, &frame_2);
    assert_eq!(answer, Taken(2));
    assert_eq!(frame_4, P2);
    assert_eq!(printed(&zero), (4, 1, vec![(1, 0, 417), (3, 1, 90)]));
    assert_eq!(printed(&one), (3, 1, vec![]));
    assert_eq!(printed(&two), (0, 0, vec![(1, 0, 417)]));

    // P4: the ten single steps of a roll call.
    assert_eq!(hear(&mut zero, &frame_2).0, Again(0));
    assert_eq!(hear(&mut one, &frame_0).0, Again(0));
    assert_eq!(hear(&mut two, &frame_0).0, Again(0));
    assert_eq!(hear(&mut two, &frame_2).0, Taken(0));
    let (beacon_0, beacon_1) = (beacon(&zero), beacon(&one));
    assert_eq!(hear(&mut zero, &beacon_1).0, Beacon(0));
    assert_eq!(hear(&mut one, &beacon_0).0, Beacon(0));
    assert_eq!(hear(&mut two, &beacon_0).0, Beacon(1));
    assert_eq!(hear(&mut two, &beacon_1).0, Beacon(0));
    assert_eq!(logged(&zero), [(1, 0, 417), (3, 1, 90)]);
    assert_eq!(logged(&one), []);
    assert_eq!(logged(&two), [(1, 0, 417), (3, 1, 90)]);
}

#[test]
fn p3_a_lane_not_taken_holds_the_log_back() {
    let [mut zero, mut one, mut two] = [0, 1, 2].map(post_of_yard);
    let (_, frame_0) = order(&mut zero, 417);
    hear(&mut one, &frame_0);
    let (_, frame_2) = order(&mut one, 90);
    assert_eq!(hear(&mut two, &frame_2).0, Taken(0));
    assert_eq!(logged(&two), []);
    assert_eq!(hear(&mut two, &frame_0).0, Taken(1));
    assert_eq!(logged(&two), [(1, 0, 417)]);
}

#[test]
fn p5_one_post_delivers_its_own_order_at_once() {
    let mut post = Post::fresh(0, 1, 1, 1).expect("a yard of one post");
    assert_eq!(order(&mut post, 5).0, order_answer(1, 1, 1));
    assert_eq!(logged(&post), [(1, 0, 5)]);
}

#[test]
fn p6_equal_stamps_by_lower_lane() {
    let [mut zero, mut one] =
        [0, 1].map(|lane| Post::fresh(lane, 3, 3, 3).expect("a yard of two posts"));
    let (_, frame_0) = order(&mut zero, 7);
    let (_, frame_1) = order(&mut one, 8);
    // Each now knows the other up to stamp 1 and itself up to stamp 2.
    assert_eq!(hear(&mut zero, &frame_1).0, Taken(2));
    assert_eq!(hear(&mut one, &frame_0).0, Taken(2));
    let (beacon_0, beacon_1) = (beacon(&zero), beacon(&one));
    assert_eq!(hear(&mut zero, &beacon_1).0, Beacon(0));
    assert_eq!(hear(&mut one, &beacon_0).0, Beacon(0));
    for post in [&zero, &one] {
        assert_eq!(printed(post), (2, 1, vec![(1, 0, 7), (1, 1, 8)]));
    }
}

#[test]
fn p7_a_frame_heard_twice() {
    let [mut zero, mut one] = [0, 1].map(post_of_yard);
    let (_, frame) = order(&mut zero, 417);
    assert_eq!(hear(&mut one, &frame).0, Taken(0));
    let before = one.clone();
    assert_eq!(hear(&mut one, &frame).0, Again(0));
    assert_eq!(one.clock, Stamp(2));
    assert_eq!(one, before);
}

#[test]
fn p8_serial_2_before_serial_1() {
    let [mut zero, mut two] = [0, 2].map(post_of_yard);
    let (_, frame_1) = order(&mut zero, 11);
    let (_, frame_2) = order(&mut zero, 12);
    assert_eq!(hear(&mut two, &frame_2).0, Early(0));
    assert_eq!(two.last, [0; 8]);
    assert_eq!(hear(&mut two, &frame_1).0, Taken(0));
    assert_eq!(two.last, [1, 0, 0, 0, 0, 0, 0, 0]);
    // The early order was dropped, so it is taken only now.
    assert_eq!(hear(&mut two, &frame_2).0, Taken(0));
    assert_eq!((two.words[0], two.words[1]), (11, 12));
}

#[test]
fn the_sixteenth_order_passes() {
    let mut post = Post::fresh(7, 0x80, 0x80, 0x80).expect("a yard of one post");
    for number in 1..=16 {
        let (answer, frame) = order(&mut post, 100 + number);
        assert_eq!(answer, order_answer(number as u8, number, 1));
        let sent = (7, number as u8, number, 100 + number);
        assert_eq!(frame, order_frame(7, sent, &[(7, number as u8, number)]));
    }
    super::assert_order_refused(&post, 32, 23);
    assert_eq!(printed(&post).0, 16);
    assert_eq!(post.logged, 16);
}
