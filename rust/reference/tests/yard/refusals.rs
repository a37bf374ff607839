//! Each refusal of a yard's steps but 27 (`beacons.rs`); `World::run` compares yard
//! and air.

use super::{Step, World};

#[test]
fn refusal_4_lane_over_7() {
    let mut world = World::fresh(0xFF, 0xFF, 0xFF);
    world.order(7, 1);
    for lane in [8, 9, 255, 256, 65_536, 99_999, usize::MAX] {
        for step in [
            Step::Order(lane, 1),
            Step::Hear(lane, 0),
            Step::Beacon(lane),
        ] {
            assert_eq!(world.run(step), Err(4), "{step:?}");
        }
    }
    world.order(7, 2);
    world.beacon(7);
}

#[test]
fn refusal_5_word_over_65_535() {
    let mut world = World::of_document();
    for word in [65_536, 70_000, 99_999, 131_072, usize::MAX] {
        assert_eq!(world.run(Step::Order(0, word)), Err(5));
    }
    for (place, word) in [0, 1, 65_535].into_iter().enumerate() {
        world.order(0, word);
        assert_eq!(usize::from(world.yard.posts[0].words[place]), word);
    }
}

#[test]
fn refusal_21_post_not_in_the_yard() {
    let mut world = World::fresh(0b0111_1110, 0b0110_0110, 0b0111_1110);
    world.order(1, 5);
    for lane in [0, 7] {
        for step in [
            Step::Order(lane, 1),
            Step::Hear(lane, 0),
            Step::Beacon(lane),
        ] {
            assert_eq!(world.run(step), Err(21), "{step:?}");
        }
    }
}

#[test]
fn refusal_22_order_at_a_post_that_is_no_source() {
    let mut world = World::fresh(0b1111, 0b0011, 0b0101);
    for lane in [2, 3] {
        assert_eq!(world.run(Step::Order(lane, 1)), Err(22));
    }
    for lane in [0, 1] {
        world.order(lane, 1);
    }
}

#[test]
fn refusal_23_that_lane_has_sent_16() {
    let mut world = World::of_document();
    for number in 1..=16 {
        assert_eq!(world.order(0, 5).serial.0, number);
    }
    assert_eq!(world.run(Step::Order(0, 5)), Err(23));
    for number in 1..=16 {
        assert_eq!(world.order(1, 5).serial.0, number);
    }
    assert_eq!(world.run(Step::Order(1, 5)), Err(23));
    assert_eq!(world.run(Step::Order(0, 0)), Err(23));
}

#[test]
fn refusal_25_frame_not_on_the_air() {
    let mut world = World::of_document();
    for frame in [0, 1, 2_047, 2_048, 65_536, 99_999, usize::MAX] {
        assert_eq!(world.run(Step::Hear(1, frame)), Err(25));
    }
    world.beacon(0);
    world.order(0, 5);
    assert_eq!(world.run(Step::Hear(1, 2)), Err(25));
    world.hear(1, 0);
    world.hear(1, 1);
    // The relay of post 1 is frame 2.
    world.hear(0, 2);
    assert_eq!(world.run(Step::Hear(0, 3)), Err(25));
}

#[test]
fn refusal_26_own_broadcast() {
    let mut world = World::of_document();
    world.order(0, 5);
    world.beacon(1);
    world.hear(1, 0);
    world.hear(2, 0);
    world.beacon(2);
    // Order, beacon, two relays and a beacon, by these senders.
    for (frame, sender) in [0, 1, 1, 2, 2].into_iter().enumerate() {
        for lane in 0..3 {
            let answer = world.clone().run(Step::Hear(lane, frame));
            assert_eq!(answer.is_err(), lane == sender, "hear {lane} {frame}");
            assert!(answer.is_ok() || answer == Err(26));
        }
    }
}
