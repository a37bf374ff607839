//! Request K2: each post has 128 beacons of its own, and refusal 27.

use super::{lanes, Answer, Step, World};

/// All beacons of a post.
fn spend(world: &mut World, lane: usize) {
    for _ in 0..128 {
        world.beacon(lane);
    }
}

/// The counts of beacons with so many at the lanes of a set and none elsewhere.
fn counts(set: u8, sent: u16) -> [u16; 8] {
    std::array::from_fn(|lane| if set >> lane & 1 == 1 { sent } else { 0 })
}

#[test]
fn beacon_128_passes_and_129_is_27_at_each_lane_and_role() {
    for lane in 0..8 {
        let post = 1 << lane;
        for (sources, dests) in [(post, post), (post, 0), (0, post), (0, 0)] {
            let mut world = World::fresh(0xFF, sources, dests);
            for sent in 0..128 {
                assert_eq!(world.yard.beacons, counts(post, sent));
                world.beacon(lane);
            }
            assert_eq!(world.yard.beacons, counts(post, 128));
            for _ in 0..2 {
                assert_eq!(world.run(Step::Beacon(lane)), Err(27));
            }
        }
    }
}

/// The customer's story: a noisy post at one end leaves the others theirs.
#[test]
fn a_noisy_post_takes_none_of_the_others_beacons() {
    let mut world = World::fresh(0xFF, 0xFF, 0xFF);
    spend(&mut world, 0);
    for _ in 0..1_000 {
        assert_eq!(world.run(Step::Beacon(0)), Err(27));
    }
    for lane in 1..8 {
        spend(&mut world, lane);
        assert_eq!(world.run(Step::Beacon(lane)), Err(27));
    }
    assert_eq!(world.yard.beacons, [128; 8]);
    assert_eq!(world.yard.frames, 1_024);
}

#[test]
fn orders_and_hearings_go_on_with_all_beacons_spent() {
    let mut world = World::fresh(0b111, 0b011, 0b100);
    for lane in 0..3 {
        spend(&mut world, lane);
    }
    world.order(0, 1);
    world.hear(1, 3 * 128);
    world.hear(2, 0);
    assert_eq!(world.yard.beacons, counts(0b111, 128));
}

/// Refused though every other source has all of its beacons, or but one.
#[test]
fn a_roll_call_with_one_source_spent_is_27() {
    for (present, sources) in [(0xFF, 0xFF), (0xFF, 0x81), (0b111, 0b011), (0x80, 0x80)] {
        for spent in lanes(sources) {
            let mut world = World::fresh(present, sources, present);
            world.order(spent, 5);
            for _ in 0..127 {
                world.beacon(spent);
            }
            let mut one_more = world.clone();
            one_more.beacon(spent);
            assert_eq!(one_more.run(Step::Roll), Err(27));
            // With one left it runs, once.
            world.roll_call();
            assert_eq!(world.yard.beacons[spent], 128);
            assert_eq!(world.run(Step::Roll), Err(27));
        }
    }
}

#[test]
fn a_spent_relay_or_destination_does_not_hinder_a_roll_call() {
    // Sources 0 and 1, destination 2, relay 3.
    let mut world = World::fresh(0b1111, 0b0011, 0b0100);
    world.order(0, 5);
    for lane in [2, 3] {
        spend(&mut world, lane);
        assert_eq!(world.run(Step::Beacon(lane)), Err(27));
    }
    for called in 1..=128 {
        assert_eq!(world.roll_call(), 3 + 4 * 2);
        assert_eq!(world.yard.beacons, [called, called, 128, 128, 0, 0, 0, 0]);
    }
    assert_eq!(world.log(2), [(1, 0, 5)]);
    assert_eq!(world.run(Step::Roll), Err(27));
}

#[test]
fn a_roll_call_takes_one_of_every_source_and_of_no_other_post() {
    for sources in 0..=0xFF {
        let mut world = World::fresh(0xFF, sources, 0xF0);
        for called in 1..=2 {
            assert_eq!(world.roll_call(), 8 * sources.count_ones() as u16);
            assert_eq!(world.yard.beacons, counts(sources, called));
        }
    }
}

#[test]
fn a_roll_call_without_a_source_is_never_refused() {
    let mut world = World::fresh(0xFF, 0, 0x0F);
    for lane in 0..8 {
        assert_eq!(world.run(Step::Roll), Ok(Answer::Steps(0)));
        spend(&mut world, lane);
    }
    let before = world.clone();
    assert_eq!(world.run(Step::Roll), Ok(Answer::Steps(0)));
    assert!(world == before);
}

/// A roll call and a beacon step spend the same count.
#[test]
fn beacons_of_roll_calls_and_of_steps_are_counted_together() {
    let mut world = World::fresh(0b11, 0b11, 0b11);
    for _ in 0..100 {
        world.roll_call();
    }
    for _ in 0..28 {
        world.beacon(0);
    }
    assert_eq!(world.yard.beacons[..2], [128, 100]);
    assert_eq!(world.run(Step::Beacon(0)), Err(27));
    assert_eq!(world.run(Step::Roll), Err(27));
    for _ in 0..28 {
        world.beacon(1);
    }
    assert_eq!(world.run(Step::Beacon(1)), Err(27));
}

#[test]
fn a_post_run_singly_beacons_without_limit() {
    let mut world = World::fresh(0b1, 0b1, 0b1);
    spend(&mut world, 0);
    let mut buffer = [0; 32];
    for _ in 0..1_025 {
        assert_eq!(world.yard.posts[0].beacon(&mut buffer), Ok(()));
    }
    assert_eq!(buffer[..2], [2, 0]);
}
