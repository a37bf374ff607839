//! The air: its length, its frames, and the fullest one.

use super::{Answer, Step, World, UNTOUCHED};
use drift_reference::post::HearAnswer::Taken;

#[test]
fn airs_of_any_other_length_are_13() {
    for length in [0, 31, 32, 65_535, 65_537, 131_072] {
        let mut world = World::of_document();
        world.order(0, 417);
        world.air.resize(length, UNTOUCHED);
        for step in [
            Step::Order(0, 1),
            Step::Hear(1, 0),
            Step::Beacon(2),
            Step::Roll,
        ] {
            assert_eq!(world.run(step), Err(13), "{step:?} with {length} bytes");
        }
    }
}

#[test]
fn the_length_is_judged_at_each_step() {
    let mut world = World::of_document();
    world.air.push(UNTOUCHED);
    assert_eq!(world.run(Step::Order(0, 1)), Err(13));
    world.air.pop();
    world.order(0, 1);
    let last = world.air.pop().expect("a byte");
    assert_eq!(world.run(Step::Hear(1, 0)), Err(13));
    world.air.push(last);
    assert_eq!(world.hear(1, 0), Taken(0));
}

#[test]
fn the_air_gives_back_a_stretch_of_itself() {
    let mut world = World::of_document();
    world.order(0, 417);
    world.hear(1, 0);
    let World { yard, air } = &world;
    for frame in [0, 1] {
        let stretch = yard.frame_on_air(air, frame);
        assert_eq!(stretch, world.place(frame));
        assert!(std::ptr::eq(stretch, world.place(frame)));
        assert_eq!(yard.frame_on_air_refusal(air, frame), 0);
    }
    for frame in [2, 3, 2_047, 2_048, usize::MAX] {
        assert_eq!(yard.frame_on_air(air, frame), []);
        assert_eq!(yard.frame_on_air_refusal(air, frame), 25);
    }
    for length in [0, 32, 64, 65_535] {
        for frame in [0, 1, 2] {
            assert_eq!(yard.frame_on_air(&air[..length], frame), []);
            assert_eq!(yard.frame_on_air_refusal(&air[..length], frame), 13);
        }
    }
}

#[test]
fn frames_are_counted_and_not_looked_for() {
    let mut sent = World::of_document();
    sent.order(0, 417);
    sent.order(0, 418);
    // A fresh yard over an air with good frames on it.
    let mut world = World::of_document();
    world.air = sent.air.clone();
    assert_eq!(world.run(Step::Hear(1, 0)), Err(25));
    assert_eq!(world.yard.frame_on_air(&world.air, 0), []);
    world.order(1, 5);
    assert_eq!(world.hear(0, 0), Taken(1));
    // The relay went over the second of the old frames.
    assert_ne!(world.place(1), sent.place(1));
    assert_eq!(world.run(Step::Hear(2, 2)), Err(25));
}

/// 1,024 order frames and 1,024 beacons fill the air to its last byte.
#[test]
fn the_fullest_air() {
    let mut world = World::fresh(0xFF, 0xFF, 0xFF);
    for word in 0..16 {
        for lane in 0..8 {
            world.order(lane, 100 * lane + word);
        }
    }
    for _ in 0..127 {
        assert_eq!(world.roll_call(), 960);
    }
    for lane in 0..8 {
        assert_eq!(world.yard.posts[lane].logged, 128);
        world.beacon(lane);
    }
    assert_eq!((world.yard.frames, world.yard.beacons), (2_048, [128; 8]));
    assert_eq!(world.place(2_047)[..2], [2, 7]);
    let World { yard, air } = &world;
    assert_eq!(yard.frame_on_air(air, 2_047), &air[65_504..]);
    assert_eq!(yard.frame_on_air_refusal(air, 2_048), 25);
    let before = world.clone();
    for frame in 0..2_048 {
        for lane in 0..8 {
            let answer = world.run(Step::Hear(lane, frame));
            let own = usize::from(before.place(frame)[1]) == lane;
            match answer {
                Ok(Answer::Heard(heard)) => assert!(!own && !matches!(heard, Taken(_))),
                refused => assert!(own && refused == Err(26)),
            }
        }
    }
    assert!(world == before, "nothing new was said");
    for lane in 0..8 {
        assert_eq!(world.run(Step::Beacon(lane)), Err(27));
        assert_eq!(world.run(Step::Order(lane, 0)), Err(23));
    }
    assert_eq!(world.run(Step::Roll), Err(27));
}
