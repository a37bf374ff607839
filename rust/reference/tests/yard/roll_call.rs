//! The roll call against the list of its single steps.

use super::{lanes, Random, Step, World};

/// Runs the single steps of a roll call; gives how many they were.
fn run_single_steps(world: &mut World) -> usize {
    let (posts, sources) = (lanes(world.yard.present), lanes(world.yard.sources));
    let mut count = 0;
    for &post in &posts {
        for lane in (0..8).filter(|&lane| lane != post) {
            for frame in first_frames(world, lane) {
                world.hear(post, frame);
                count += 1;
            }
        }
    }
    let mut beacons = Vec::new();
    for &source in &sources {
        beacons.push((source, usize::from(world.yard.frames)));
        world.beacon(source);
        count += 1;
    }
    for &post in &posts {
        for &(source, frame) in &beacons {
            if source != post {
                world.hear(post, frame);
                count += 1;
            }
        }
    }
    count
}

/// The first frames of a lane's orders, found on the air: sender and lane agree.
fn first_frames(world: &World, lane: usize) -> Vec<usize> {
    let lane = lane as u8;
    let is_first = |&frame: &usize| world.place(frame)[..3] == [1, lane, lane];
    (0..world.yard.frames.into()).filter(is_first).collect()
}

/// Runs a roll call both ways; gives the number of steps.
fn roll_call(world: &mut World) -> usize {
    let mut singly = world.clone();
    let sent: u32 = world
        .yard
        .posts
        .iter()
        .map(|post| u32::from(post.serial.0))
        .sum();
    let [posts, sources] = [world.yard.present, world.yard.sources].map(u8::count_ones);
    let count = usize::from(world.roll_call());
    assert_eq!(count as u32, (posts - 1) * sent + posts * sources);
    assert_eq!(run_single_steps(&mut singly), count);
    assert!(*world == singly, "yard and air after the single steps");
    count
}

#[test]
fn the_counts_of_some_yards() {
    // Posts, sources, orders of each source, steps.
    for (present, sources, orders, expected) in [
        (0x01, 0x01, 0, 1),
        (0x01, 0x01, 1, 1),
        (0x80, 0x80, 16, 1),
        (0x03, 0x03, 1, 2 + 4),
        (0x03, 0x01, 1, 1 + 2),
        (0x05, 0x04, 16, 16 + 2),
        (0x07, 0x03, 1, 4 + 6),
        (0xFF, 0x10, 3, 21 + 8),
        (0xFF, 0xFF, 16, 896 + 64),
        (0xFF, 0xFF, 0, 64),
    ] {
        let mut world = World::fresh(present, sources, present);
        for lane in lanes(sources) {
            for word in 0..orders {
                world.order(lane, word);
            }
        }
        assert_eq!(roll_call(&mut world), expected);
        // Once more: the orders are heard again, the beacons are new.
        assert_eq!(roll_call(&mut world), expected);
    }
}

#[test]
fn with_no_source_there_are_no_steps() {
    let mut world = World::fresh(0xFF, 0, 0x0F);
    for sent in [0, 127, 1] {
        for _ in 0..sent {
            world.beacon(5);
        }
        let before = world.clone();
        // Not even when a post's 128 beacons are spent.
        assert_eq!(roll_call(&mut world), 0);
        assert!(world == before);
    }
}

#[test]
fn relays_hear_and_pass_on() {
    let mut world = World::fresh(0b1111, 0b0001, 0b0010);
    world.order(0, 5);
    world.order(0, 6);
    assert_eq!(roll_call(&mut world), 3 * 2 + 4);
    for lane in 1..4 {
        assert_eq!(world.yard.posts[lane].last[0], 2);
    }
    // Two orders, each passed on by three posts, and one beacon, the last frame.
    assert_eq!(world.yard.frames, 9);
    assert_eq!(world.yard.beacons, [1, 0, 0, 0, 0, 0, 0, 0]);
    let heads: Vec<_> = (0..9).map(|frame| &world.place(frame)[..4]).collect();
    let mut expected = vec![[1, 0, 0, 1], [1, 0, 0, 2]];
    for lane in 1..4 {
        expected.extend([[1, lane, 0, 1], [1, lane, 0, 2]]);
    }
    expected.push([2, 0, 0, 0]);
    assert_eq!(heads, expected);
    assert_eq!(world.log(1), [(1, 0, 5), (2, 0, 6)]);
    assert_eq!([0, 2, 3].map(|lane| world.log(lane).len()), [0, 0, 0]);
}

#[test]
fn the_first_frame_is_the_one_of_the_order_s_own_lane() {
    let mut world = World::of_document();
    world.beacon(2);
    world.order(0, 5);
    world.hear(2, 1);
    world.hear(1, 2);
    world.order(1, 6);
    // Beacon, order, relay of 2, relay of 1, order of 1.
    assert_eq!((world.yard.first[0], world.yard.first[16]), (1, 4));
    assert_eq!(roll_call(&mut world), 2 * 2 + 6);
    assert_eq!(world.log(0), [(1, 0, 5), (3, 1, 6)]);
    assert_eq!(world.log(2), [(1, 0, 5), (3, 1, 6)]);
}

#[test]
fn after_random_steps_it_does_what_its_list_does() {
    let mut random = Random(29);
    for _ in 0..60 {
        let mut world = random.world();
        for _ in 0..random.below(300) {
            let step = random.step(&world);
            let _ = world.run(step);
        }
        let has_left = |&lane: &usize| world.yard.beacons[lane] < 128;
        if lanes(world.yard.sources).iter().all(has_left) {
            roll_call(&mut world);
        }
    }
}

#[test]
fn the_list_goes_on_when_somebody_has_damaged_the_air() {
    // Outside document 01, but the air is lent: no panic, and the count stays.
    for damage in [0, 1, 2, 3, 255] {
        let mut world = World::fresh(0xFF, 0xFF, 0xFF);
        for lane in 0..8 {
            world.order(lane, 5);
        }
        world.air.fill(damage);
        assert_eq!(world.yard.roll_call(&mut world.air), Ok(7 * 8 + 64));
        for post in &world.yard.posts {
            assert_eq!(post.judge(), Ok(()));
        }
        let refused = world.run(Step::Hear(1, 0));
        assert!(refused.is_err());
    }
}
