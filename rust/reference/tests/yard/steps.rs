//! What the single steps do to posts, air and counts.

use super::{World, UNTOUCHED};
use drift_reference::frame::{Serial, Stamp};
use drift_reference::post::HearAnswer::{Again, Beacon, Early, Taken};
use drift_reference::post::{OrderAnswer, Post};
use drift_reference::yard::Yard;

fn order_answer(serial: u8, stamp: u16, count: u8) -> OrderAnswer {
    OrderAnswer {
        serial: Serial(serial),
        stamp: Stamp(stamp),
        count,
    }
}

#[test]
fn a_fresh_yard_has_fresh_records_at_all_lanes() {
    let yard = Yard::fresh(0xB1, 0x11, 0xA0).expect("a good yard");
    assert_eq!((yard.present, yard.sources, yard.dests), (0xB1, 0x11, 0xA0));
    assert_eq!((yard.frames, yard.beacons), (0, [0; 8]));
    assert_eq!(yard.first, [0; 128]);
    for (lane, post) in (0..).zip(&yard.posts) {
        let mut expected = Post::EMPTY;
        expected.lane = lane;
        (expected.posts, expected.sources, expected.dests) = (0xB1, 0x11, 0xA0);
        assert_eq!(*post, expected);
        let singly = Post::fresh(lane, 0xB1, 0x11, 0xA0);
        let is_there = 0xB1 >> lane & 1 == 1;
        assert_eq!(singly, if is_there { Ok(expected) } else { Err(21) });
    }
}

#[test]
fn a_yard_without_posts_or_with_a_stray_role() {
    assert_eq!(Yard::fresh(0, 0, 0), Err(3));
    assert_eq!(Yard::fresh(0, 1, 1), Err(3));
    assert_eq!(Yard::fresh(1, 2, 0), Err(12));
    assert_eq!(Yard::fresh(1, 0, 0x80), Err(12));
    assert_eq!(Yard::fresh(0x7F, 0xFF, 0), Err(12));
    for present in 1..=255 {
        assert!(Yard::fresh(present, present, present).is_ok());
        assert!(Yard::fresh(present, 0, 0).is_ok());
    }
}

#[test]
fn the_steps_of_document_01_and_their_answers() {
    let mut world = World::of_document();
    assert_eq!(world.order(0, 417), order_answer(1, 1, 0));
    assert_eq!(world.hear(1, 0), Taken(0));
    assert_eq!(world.order(1, 90), order_answer(1, 3, 0));
    assert_eq!(world.hear(2, 1), Taken(1));
    assert_eq!(world.hear(0, 2), Taken(2));
    assert_eq!(world.log(0), [(1, 0, 417), (3, 1, 90)]);
    assert_eq!(world.log(1), []);
    assert_eq!(world.log(2), [(1, 0, 417)]);
    assert_eq!((world.yard.frames, world.yard.beacons), (5, [0; 8]));
    assert_eq!(world.yard.first[16], 2);
    let others = world.yard.first.iter().filter(|&&first| first != 0);
    assert_eq!(others.count(), 1, "the first order is frame 0");
}

#[test]
fn only_broadcasts_write_to_the_air_and_only_into_their_place() {
    let mut world = World::of_document();
    let mut expected = world.air.clone();
    let mut check = |world: &World, new: std::ops::Range<usize>| {
        for frame in new {
            let place = 32 * frame..32 * frame + 32;
            assert_ne!(world.air[place.clone()], expected[place.clone()]);
            expected[place.clone()].copy_from_slice(&world.air[place]);
        }
        assert!(world.air == expected);
    };
    world.order(0, 417);
    check(&world, 0..1);
    world.hear(1, 0);
    check(&world, 1..2);
    world.hear(1, 0);
    check(&world, 0..0);
    world.beacon(2);
    check(&world, 2..3);
    world.hear(0, 2);
    check(&world, 0..0);
    world.order(0, 1);
    world.order(0, 2);
    check(&world, 3..5);
    assert_eq!(world.hear(2, 4), Early(0));
    check(&world, 0..0);
    assert_eq!(world.yard.frames, 5);
    assert_eq!(world.yard.beacons, [0, 0, 1, 0, 0, 0, 0, 0]);
    assert!(world.air[32 * 5..].iter().all(|&byte| byte == UNTOUCHED));
}

#[test]
fn the_broadcast_of_each_kind() {
    let mut world = World::of_document();
    world.order(1, 258);
    let mut order = [0; 32];
    order[..8].copy_from_slice(&[1, 1, 1, 1, 0, 1, 1, 2]);
    order[11..14].copy_from_slice(&[1, 0, 1]);
    assert_eq!(world.place(0), order);
    world.hear(0, 0);
    order[1] = 0;
    // Post 0 has sent nothing: its entry has serial 0 and the clock.
    order[8..11].copy_from_slice(&[0, 0, 2]);
    assert_eq!(world.place(1), order);
    world.hear(2, 1);
    order[1] = 2;
    assert_eq!(world.place(2), order);
    world.beacon(2);
    let mut beacon = [0; 32];
    beacon[..2].copy_from_slice(&[2, 2]);
    beacon[8..14].copy_from_slice(&order[8..14]);
    assert_eq!(world.place(3), beacon);
    assert_eq!(world.hear(1, 3), Beacon(0));
}

#[test]
fn all_four_answers_and_lost_frames() {
    let mut world = World::of_document();
    world.order(0, 11);
    world.order(0, 12);
    world.beacon(1);
    assert_eq!(world.hear(2, 1), Early(0));
    assert_eq!(world.hear(2, 0), Taken(0));
    assert_eq!(world.hear(2, 0), Again(0));
    assert_eq!(world.hear(2, 2), Beacon(0));
    // A relayed order is as good as its first frame.
    assert_eq!(world.hear(1, 0), Taken(0));
    assert_eq!(world.hear(2, 4), Again(1));
    assert_eq!(world.log(2), [(1, 0, 11)]);
    // Post 1 is known to have reached stamp 2, which is that of serial 2.
    assert_eq!(world.hear(2, 1), Taken(1));
    assert_eq!(world.log(2), [(1, 0, 11), (2, 0, 12)]);
    assert_eq!(world.hear(1, 5), Taken(0));
    assert_eq!(world.hear(2, 6), Again(0));
}

#[test]
fn the_first_frames_are_remembered_for_each_order() {
    let mut world = World::fresh(0xFF, 0xFF, 0xFF);
    for round in 0..16 {
        for lane in (0..8).rev() {
            let frame = world.yard.frames;
            let answer = world.order(lane, 1_000 + lane);
            assert_eq!(usize::from(answer.serial.0), round + 1);
            assert_eq!(world.yard.first[16 * lane + round], frame);
            world.beacon(lane);
            world.hear((lane + 1) % 8, frame.into());
        }
    }
    // Each order, its relay and a beacon.
    assert_eq!((world.yard.frames, world.yard.beacons), (384, [16; 8]));
    for (place, &first) in world.yard.first.iter().enumerate() {
        let frame = world.place(first.into());
        let (lane, serial) = (place as u8 / 16, place as u8 % 16 + 1);
        assert_eq!(frame[..4], [1, lane, lane, serial]);
    }
}

#[test]
fn a_lane_without_a_post_keeps_its_fresh_record() {
    let mut world = World::fresh(0b1010_0101, 0b1000_0001, 0b0010_0100);
    let fresh = world.yard.clone();
    for word in 0..16 {
        world.order(0, word);
        world.order(7, word);
    }
    world.roll_call();
    for lane in [1, 3, 4, 6] {
        assert_eq!(world.yard.posts[lane], fresh.posts[lane]);
    }
    for lane in [0, 2, 5, 7] {
        assert_ne!(world.yard.posts[lane], fresh.posts[lane]);
    }
}

#[test]
fn any_role_sends_beacons() {
    let mut world = World::fresh(0xF0, 0x90, 0xC0);
    for lane in 4..8 {
        world.beacon(lane);
        assert_eq!(world.place(lane - 4)[..2], [2, lane as u8]);
    }
    assert_eq!(world.yard.frames, 4);
    assert_eq!(world.yard.beacons, [0, 0, 0, 0, 1, 1, 1, 1]);
}
