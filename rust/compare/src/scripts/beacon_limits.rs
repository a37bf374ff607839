//! Fixed scripts that spend beacons, of one post or of several, and call the roll.

use super::draft::Draft;
use super::limits::all_posts;
use super::step::{Step, YardLine};

/// The beacons that a post may send.
pub const BEACONS: u32 = 128;

/// The tries of a noisy post: more than all posts together may send.
const NOISY_TRIES: u32 = 1_100;

/// All of them, each made when it is asked for.
pub fn scripts() -> impl Iterator<Item = Vec<u8>> {
    let alone = [0, 7].map(|lane| all_posts(0xFF).only(1 << lane));
    let yards = alone.into_iter().chain([0xFF, 0].map(all_posts));
    let one_post = yards.flat_map(|yard| (BEACONS - 1..=BEACONS + 1).map(move |n| of_one(yard, n)));
    one_post
        .chain([0xFF, 0xFE, 0].into_iter().map(noisy_post))
        .chain([0xFF, 0x0F, 0].into_iter().map(of_all))
        .chain((0..=8).flat_map(last_roll_calls))
}

fn push_beacons(draft: &mut Draft, lane: u32, count: u32) {
    for _ in 0..count {
        draft.push(Step::Beacon { lane });
    }
}

/// Beacons of one post up to 127, 128, or the 129th, which is 27. Then the other
/// end is tried: it has all of its own, or is 21; and a roll call.
fn of_one(yard: YardLine, count: u32) -> Vec<u8> {
    let mut draft = Draft::new(yard);
    let lane = yard.posts.trailing_zeros();
    push_beacons(&mut draft, lane, count);
    push_beacons(&mut draft, 7 - lane, 1);
    draft.push(Step::Roll);
    for lane in [lane, 7 - lane] {
        draft.push(Step::Hear { lane, frame: 127 });
    }
    push_beacons(&mut draft, lane, 1);
    draft.text
}

/// A noisy post at one end, the others with orders and beacons of their own. Roll
/// calls are refused if it is a source, and run if it is a relay.
fn noisy_post(sources: u8) -> Vec<u8> {
    let mut draft = Draft::new(YardLine {
        dests: 0xFE,
        ..all_posts(sources)
    });
    push_beacons(&mut draft, 0, NOISY_TRIES);
    for lane in (1..8).rev() {
        draft.push(Step::Order { lane, word: lane });
        push_beacons(&mut draft, lane, 2);
        draft.push(Step::Roll);
    }
    push_beacons(&mut draft, 0, 1);
    push_beacons(&mut draft, 7, 1);
    draft.text
}

/// All beacons of all posts, in turn; then each post and a roll call are tried.
fn of_all(sources: u8) -> Vec<u8> {
    let mut draft = Draft::new(all_posts(sources));
    for _ in 0..BEACONS {
        for lane in 0..8 {
            push_beacons(&mut draft, lane, 1);
        }
    }
    for lane in 0..8 {
        push_beacons(&mut draft, lane, 1);
    }
    draft.push(Step::Roll);
    draft.text
}

/// With so many sources: each has one beacon left and no other post has any, so
/// that one roll call runs. Then with the first source, or the last, spent before:
/// no roll call runs, and a beacon of another source does. Up to the first roll
/// call, and on.
fn last_roll_calls(sources: u32) -> Vec<Vec<u8>> {
    let set = (0xFF00u32 >> sources) as u8;
    let ends = [None, Some(8 - sources), Some(7)].into_iter();
    let scripts = ends.flat_map(|spent| {
        let mut draft = Draft::new(all_posts(set));
        for lane in 0..8 {
            let is_kept = set >> lane & 1 == 1 && spent != Some(lane);
            push_beacons(&mut draft, lane, BEACONS - u32::from(is_kept));
        }
        draft.push(Step::Order { lane: 7, word: 9 });
        draft.push(Step::Roll);
        let first = draft.text.clone();
        draft.push(Step::Roll);
        push_beacons(&mut draft, 6, 1);
        draft.push(Step::Roll);
        [first, draft.text]
    });
    scripts.collect()
}
