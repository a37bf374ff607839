//! Libraries that count beacons wrongly.

use super::{assert_all_noticed, Left, Wrong};
use crate::answer::Answer;
use crate::state::{BEACONS, FIRST};

const WRONG_COUNTS: [Wrong; 5] = [
    (
        "a beacon is counted at the next lane",
        "new frames, beacons",
        |left| left.change_if(Answer::BeaconSent, rotate),
    ),
    (
        "the counts of a roll call are at the next lanes",
        "new frames, beacons",
        |left| left.change_if(Answer::RollCallRan, rotate),
    ),
    (
        "a roll call takes one of each post",
        "new frames, beacons",
        |left| {
            left.change_if(Answer::RollCallRan, |left| {
                let [posts, sources] = [left.state[0], left.state[1]];
                change_counts(left, posts & !sources, 1);
            });
        },
    ),
    ("a roll call takes none", "new frames, beacons", |left| {
        left.change_if(Answer::RollCallRan, |left| {
            change_counts(left, left.state[1], u16::MAX);
        });
    }),
    (
        "a refused beacon is counted",
        "a refused step changed",
        |left| {
            if left.answered.refusal == 27 {
                left.state[BEACONS] += 1;
            }
        },
    ),
];

fn rotate(left: &mut Left) {
    left.state[BEACONS..FIRST].rotate_right(1);
}

/// Adds a number to the counts of the lanes in a set.
fn change_counts(left: &mut Left, set: u16, added: u16) {
    for lane in (0..8).filter(|lane| set >> lane & 1 == 1) {
        let count = &mut left.state[BEACONS + lane];
        *count = count.wrapping_add(added);
    }
}

#[test]
fn wrong_counts_of_beacons_are_noticed() {
    assert_all_noticed(&WRONG_COUNTS);
}
