//! Tests of the search for the smallest script.

use super::draft::Draft;
use super::pick::Plan;
use super::shrink::{shrink, MOST_TRIES};
use super::step::YardLine;
use crate::library::Library;
use crate::random::Random;
use crate::second::Second;
use crate::state::{State, STATE_CELLS};
use drift_reference::yard::AIR_LENGTH;

/// A script of many picked steps, without roll calls.
fn long_script(lines: usize) -> Vec<u8> {
    let mut random = Random::new(5);
    let yard = YardLine {
        posts: 0b111,
        sources: 0b011,
        dests: 0b100,
    };
    let mut plan = Plan::for_yard(&mut random, yard);
    plan.roll_calls = 0;
    let mut draft = Draft::new(yard);
    for _ in 0..lines {
        draft.push_picked(&mut random, &plan);
    }
    draft.text
}

fn has(script: &[u8], text: &str) -> bool {
    script
        .windows(text.len())
        .any(|part| part == text.as_bytes())
}

#[test]
fn lines_that_do_not_matter_are_left_out() {
    let mut script = long_script(200);
    let middle = script.len() / 2;
    let line_end = script[middle..].iter().position(|&byte| byte == b'\n');
    let at = middle + line_end.expect("a later line") + 1;
    script.splice(at..at, *b"(order 6 64000)\n");
    script.extend_from_slice(b"(roll)\n");
    let small = shrink(MOST_TRIES, &script, |script| {
        has(script, "(order 6 ") && has(script, "(roll)\n") && has(script, "(yard (")
    });
    assert_eq!(small, b"(yard (2 relay))\n(order 6 0)\n(roll)\n");
}

/// Whether the script runs and post 2 has logged two orders.
fn logs_two(script: &[u8]) -> bool {
    let (mut air, mut state) = (vec![0; AIR_LENGTH], vec![0; STATE_CELLS]);
    Second.script_state(&mut script.to_vec(), &mut air, &mut state);
    // A script that is refused leaves the state as it was.
    State(&state).post(2).logged >= 2
}

#[test]
fn frame_numbers_follow_the_lines_that_are_left() {
    let script = long_script(300);
    assert!(logs_two(&script));
    let small = shrink(MOST_TRIES, &script, logs_two);
    assert!(logs_two(&small));
    let text = String::from_utf8_lossy(&small);
    // Two orders, their hearings, and one that tells of the other source.
    assert!(text.lines().count() <= 8, "{text}");
}

#[test]
fn bytes_of_bad_scripts_are_cut() {
    let mut script = long_script(60);
    let middle = script.len() / 2;
    script.splice(middle..middle, *b"\t\xFF");
    let small = shrink(MOST_TRIES, &script, |script| {
        script.contains(&b'\t') && has(script, "\n")
    });
    assert_eq!(small, b"\t\n");
    let small = shrink(MOST_TRIES, b"", |_| true);
    assert_eq!(small, b"");
}

#[test]
fn the_work_is_bounded() {
    let script = long_script(400);
    for most in [0, 1, 50] {
        let mut tries = 0;
        let small = shrink(most, &script, |_| {
            tries += 1;
            tries % 3 == 0
        });
        assert!(tries <= most);
        assert!(small.len() <= script.len());
    }
}
