//! Fixed scripts that reach each limit of document 01.

use super::beacon_limits::{self, BEACONS};
use super::case::Case;
use super::damage::{with_line_ends, LINE_ENDS};
use super::draft::{Draft, LONGEST_SCRIPT};
use super::pick::Plan;
use super::step::{Step, YardLine};
use super::texts;
use crate::random::Random;

/// Scripts of the bench in document 01, and the smallest ones.
const BENCH: [&str; 18] = [
    // P1 and P2, P3, P4, P5, P6, P7, P8.
    "(yard (0 both) (1 source) (2 dest))\n(order 0 417)\n(hear 1 0)\n(order 1 90)\n\
     (hear 2 1)\n(hear 0 2)\n(hear 2 9)\n",
    "(yard (0 both) (1 source) (2 dest))\n(order 0 417)\n(hear 1 0)\n(order 1 90)\n(hear 2 2)\n",
    "(yard (0 both) (1 source) (2 dest))\n(order 0 417)\n(hear 1 0)\n(order 1 90)\n(hear 2 2)\n\
     (hear 2 0)\n",
    "(yard (0 both) (1 source) (2 dest))\n(order 0 417)\n(hear 1 0)\n(order 1 90)\n\
     (hear 2 1)\n(hear 0 2)\n(roll)\n",
    "(yard (0 both))\n(order 0 5)\n",
    "(yard (0 both))\n(order 0 5)\n(roll)\n",
    "(yard (0 both) (1 both))\n(order 0 7)\n(order 1 8)\n(roll)\n",
    "(yard (0 both) (1 both))\n(order 0 7)\n(hear 1 0)\n(hear 1 0)\n",
    "(yard (0 both) (1 both))\n(order 0 7)\n(order 0 8)\n(hear 1 1)\n(hear 1 0)\n",
    // An early frame brings what the delivery of an earlier order waits for.
    "(yard (0 source) (1 source) (2 dest))\n(order 0 1)\n(hear 1 0)\n(hear 0 1)\n(order 0 2)\n\
     (order 0 3)\n(hear 2 0)\n(hear 2 3)\n",
    // Lane 1 has a newer stamp, but its serial is not yet taken.
    "(yard (0 source) (1 source) (2 dest))\n(order 0 417)\n(order 1 1)\n(order 1 2)\n\
     (hear 2 0)\n(hear 2 2)\n",
    // Two orders are delivered at once, by stamp and not by lane.
    "(yard (0 source) (1 source) (2 dest))\n(order 1 5)\n(hear 0 0)\n(order 0 6)\n(hear 1 2)\n\
     (beacon 1)\n(hear 2 2)\n(hear 2 4)\n(hear 2 0)\n",
    // A relay hears in a roll call too.
    "(yard (0 both) (1 relay) (2 dest))\n(order 0 1)\n(roll)\n",
    // The yard line of document 01, alone and with a roll call of no steps.
    "(yard (0 both) (2 relay))\n",
    "(yard (2 relay))\n(roll)\n",
    // Refusals that hold at once: the lowest number wins.
    "(yard (1 dest))\n(order 0 1)\n(order 1 1)\n(hear 0 0)\n(hear 0 99999)\n(hear 1 0)\n",
    "",
    "\n",
];

/// Lengths of the air that are refused by 13.
const WRONG_AIRS: [usize; 7] = [0, 1, 32, 65_504, 65_535, 65_537, 131_072];

const WRONG_OUTPUTS: [usize; 5] = [0, 1, 131_071, 131_073, 262_144];
/// Also the length that a state had with one count of beacons.
const WRONG_STATES: [usize; 8] = [0, 1, 2_241, 4_476, 4_482, 4_484, 8_966, 70_019];

/// Bad scripts, by 2, 3, 4 and 5: a state of another length is judged before them.
const BAD: [&str; 4] = [
    "(yard (0 both))\n(roll)",
    "",
    "(yard (0 both))\n(beacon 8)\n",
    "(yard (0 both))\n(roll)\n(order 0 65536)\n",
];

/// All fixed cases, each made when it is asked for.
pub fn cases() -> impl Iterator<Item = Case> {
    let bench = BENCH.into_iter().map(|text| text.as_bytes().to_vec());
    let limits: [fn() -> Vec<u8>; 3] = [all_orders, all_frames, longest_printout];
    let ends = (0..LINE_ENDS).map(|ends| with_line_ends(BENCH[0].as_bytes(), ends));
    let scripts = bench
        .chain(ends)
        .chain(texts::scripts())
        .chain(beacon_limits::scripts())
        .chain(limits.into_iter().map(|script| script()))
        .chain(std::iter::once_with(longest_scripts).flatten());
    let cases = (0..).zip(scripts);
    let cases = cases.map(|(seed, script)| Case::new(script, seed));
    cases.chain(wrong_lengths())
}

/// All eight posts are destinations.
pub fn all_posts(sources: u8) -> YardLine {
    YardLine {
        posts: 0xFF,
        sources,
        dests: 0xFF,
    }
}

/// Sixteen orders of each lane pass, the seventeenth is 23.
fn all_orders() -> Vec<u8> {
    let mut draft = Draft::new(all_posts(0xFF));
    push_orders(&mut draft, 17);
    draft.push(Step::Roll);
    draft.text
}

fn push_orders(draft: &mut Draft, orders: u32) {
    for word in 0..orders {
        for lane in 0..8 {
            draft.push(Step::Order { lane, word });
        }
    }
}

/// 1,024 order frames and 1,024 beacons; then each kind of step is tried.
fn all_frames() -> Vec<u8> {
    let mut draft = Draft::new(all_posts(0xFF));
    push_orders(&mut draft, 16);
    for _ in 0..=BEACONS {
        draft.push(Step::Roll);
    }
    for lane in [0, 7] {
        draft.push(Step::Beacon { lane });
        draft.push(Step::Order { lane, word: 1 });
        for frame in [2_047, 2_048, 1_023, 1_024] {
            draft.push(Step::Hear { lane, frame });
        }
    }
    draft.text
}

/// Full logs of large stamps and words at all posts, then refused roll calls up
/// to the end.
fn longest_printout() -> Vec<u8> {
    let mut draft = Draft::new(all_posts(0xFF));
    for place in 0..128 {
        draft.push(Step::Order {
            lane: place / 16,
            word: 65_535 - place,
        });
        if place % 16 == 15 {
            draft.push(Step::Roll);
        }
    }
    while draft.text.len() + "(roll)\n".len() <= LONGEST_SCRIPT {
        draft.push(Step::Roll);
    }
    draft.text
}

/// Exactly 48,000 bytes; one more; the last line feed missing; too long and bad.
fn longest_scripts() -> Vec<Vec<u8>> {
    let mut random = Random::new(48_000);
    let mut draft = Draft::new(all_posts(0xFF));
    let plan = Plan::for_yard(&mut random, all_posts(0xFF));
    draft.fill(&mut random, &plan);
    let longest = draft.text;
    let with = |change: fn(&mut Vec<u8>)| {
        let mut script = longest.clone();
        change(&mut script);
        script
    };
    vec![
        with(|_| {}),
        with(|script| script.push(b'\n')),
        with(|script| script.extend_from_slice(b"(roll)\n")),
        with(|script| script[LONGEST_SCRIPT - 1] = b' '),
        with(|script| script.truncate(LONGEST_SCRIPT - 1)),
        with(|script| script[0] = b' '),
        with(|script| {
            script[0] = b' ';
            script.push(b'\n');
        }),
        with(|script| script.extend_from_within(..)),
        vec![b'\n'; LONGEST_SCRIPT],
        vec![b'0'; LONGEST_SCRIPT + 1],
    ]
}

/// A script with steps of all kinds, lent air, output and state of wrong lengths.
fn wrong_lengths() -> Vec<Case> {
    let text = "(yard (0 both) (1 dest))\n(order 0 1)\n(order 1 1)\n(order 2 1)\n(hear 1 0)\n\
                (hear 2 0)\n(hear 1 99999)\n(beacon 0)\n(beacon 5)\n(roll)\n";
    let mut cases = Vec::new();
    for (number, line) in text.match_indices('\n').enumerate() {
        let case = Case::new(text.as_bytes()[..=line.0].to_vec(), number as u64);
        cases.extend(WRONG_AIRS.map(|air_length| Case {
            air_length,
            ..case.clone()
        }));
        cases.extend(WRONG_OUTPUTS.map(|output_length| Case {
            output_length,
            ..case.clone()
        }));
        cases.extend(wrong_states(&case));
    }
    for (number, text) in (100..).zip(BAD) {
        let case = Case::new(text.as_bytes().to_vec(), number);
        cases.extend(wrong_states(&case));
    }
    cases
}

/// The case with a state of each wrong length.
fn wrong_states(case: &Case) -> impl Iterator<Item = Case> + '_ {
    WRONG_STATES.into_iter().map(|state_cells| Case {
        state_cells,
        ..case.clone()
    })
}
