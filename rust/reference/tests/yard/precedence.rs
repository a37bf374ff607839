//! Of several refusals the lowest number wins; input comes before state.

use super::{Step, World};

/// Sources 0 and 1 and the relay 2; lanes 3 to 7 have no post.
fn world() -> World {
    let mut world = World::fresh(0b111, 0b011, 0b001);
    for word in 0..16 {
        world.order(0, word);
    }
    world
}

/// The same with one byte too few of air.
fn with_short_air(mut world: World) -> World {
    world.air.pop();
    world
}

/// The same with all beacons of lane 0 spent.
fn spent(mut world: World) -> World {
    for _ in 0..128 {
        world.beacon(0);
    }
    world
}

#[test]
fn order() {
    let mut good = world();
    let mut short = with_short_air(world());
    // Lane over 7, word too large, bad air.
    assert_eq!(short.run(Step::Order(8, 65_536)), Err(4));
    assert_eq!(good.run(Step::Order(8, 65_536)), Err(4));
    assert_eq!(short.run(Step::Order(8, 5)), Err(4));
    // Word too large at a lane without a post, at a relay, at a spent lane.
    for lane in [7, 2, 0] {
        assert_eq!(short.run(Step::Order(lane, 65_536)), Err(5));
        assert_eq!(good.run(Step::Order(lane, 65_536)), Err(5));
        assert_eq!(short.run(Step::Order(lane, 5)), Err(13));
    }
    // A lane without a post is no source either.
    assert_eq!(good.run(Step::Order(7, 5)), Err(21));
    assert_eq!(good.run(Step::Order(2, 5)), Err(22));
    assert_eq!(good.run(Step::Order(0, 5)), Err(23));
}

#[test]
fn hear() {
    let mut good = world();
    let mut short = with_short_air(world());
    // No such lane, bad air, no such frame.
    for frame in [0, 99] {
        assert_eq!(short.run(Step::Hear(8, frame)), Err(4));
        assert_eq!(good.run(Step::Hear(8, frame)), Err(4));
    }
    // No post, no such frame, own broadcast.
    for (lane, frame) in [(7, 99), (7, 0), (1, 99), (0, 0)] {
        assert_eq!(short.run(Step::Hear(lane, frame)), Err(13));
    }
    assert_eq!(good.run(Step::Hear(7, 99)), Err(21));
    assert_eq!(good.run(Step::Hear(7, 0)), Err(21));
    assert_eq!(good.run(Step::Hear(0, 99)), Err(25));
    assert_eq!(good.run(Step::Hear(0, 0)), Err(26));
}

#[test]
fn beacon() {
    let mut good = spent(world());
    let mut short = with_short_air(good.clone());
    assert_eq!(short.run(Step::Beacon(8)), Err(4));
    assert_eq!(good.run(Step::Beacon(8)), Err(4));
    assert_eq!(short.run(Step::Beacon(7)), Err(13));
    assert_eq!(short.run(Step::Beacon(0)), Err(13));
    assert_eq!(good.run(Step::Beacon(7)), Err(21));
    assert_eq!(good.run(Step::Beacon(0)), Err(27));
}

#[test]
fn roll_call() {
    let mut good = spent(world());
    let mut short = with_short_air(good.clone());
    assert_eq!(short.run(Step::Roll), Err(13));
    assert_eq!(good.run(Step::Roll), Err(27));
}
