//! Refusal 1, and scripts and printouts at their largest.

use super::{assert_bad, fresh_air, printed, printed_over, ran, UNTOUCHED};
use drift_reference::script::{run, LastAnswer, OUTPUT_LENGTH};

const LIMIT: usize = 48_000;

/// Fills a script up to 48,000 bytes by lines of seven and of eleven bytes.
fn fill(mut script: String) -> String {
    while !(LIMIT - script.len()).is_multiple_of(7) {
        script += "(beacon 0)\n";
    }
    script += &"(roll)\n".repeat((LIMIT - script.len()) / 7);
    assert_eq!(script.len(), LIMIT);
    script
}

#[test]
fn refusal_1_over_48_000_bytes() {
    let script = fill("(yard (0 both))\n".to_owned());
    let printout = printed(&script);
    assert!(printout.ends_with("(post 0 (clock 0) (sent 0) (log))\n"));
    assert_bad(script.clone() + "\n", 0, 1);
    assert_bad(script + "(roll)\n", 0, 1);
    // It comes before every other flaw.
    assert_bad(vec![b'x'; LIMIT + 1], 0, 1);
    assert_bad(vec![b'\n'; 1_000_000], 0, 1);
    assert_bad(vec![0xFF; LIMIT + 1], 0, 1);
    // At the limit the flaws of the first line count.
    assert_bad(vec![b'x'; LIMIT], 1, 2);
    assert_bad(vec![b'\n'; LIMIT], 1, 2);
    assert_bad(vec![b'('; LIMIT], 1, 2);
}

#[test]
fn the_only_flaw_is_the_last_byte_or_the_last_line() {
    let script = fill("(yard (0 both))\n".to_owned());
    let lines = script.lines().count() as u32;
    assert_bad(&script[..LIMIT - 1], lines, 2);
    let mut other = script.clone();
    other.replace_range(LIMIT - 2.., "x\n");
    assert_bad(other, lines, 2);
}

/// Every step of one post's yard after its 128 beacons is refused.
#[test]
fn the_refusals_of_a_long_script_are_all_printed() {
    let script = fill("(yard (0 both))\n".to_owned());
    let lines = script.lines().count();
    let mut expected: String = (130..=lines)
        .map(|line| format!("(refused {line} 27)\n"))
        .collect();
    expected += "(post 0 (clock 0) (sent 0) (log))\n";
    assert_eq!(printed(&script), expected);
    assert_eq!(ran(&script).1, LastAnswer::Refused(27));
}

/// Eight posts with all 128 orders in their logs and as many refusals as fit.
#[test]
fn a_printout_near_the_largest_fits() {
    let posts: String = (0..8).map(|lane| format!(" ({lane} both)")).collect();
    let mut script = format!("(yard{posts})\n");
    for word in 0..16 {
        for lane in 0..8 {
            script += &format!("(order {lane} {})\n", 65_535 - 8 * word - lane);
            // The order of the next lane is stamped higher.
            script += &format!("(hear {} {})\n", (lane + 1) % 8, 16 * word + 2 * lane);
        }
    }
    let first_roll = script.lines().count() + 1;
    let script = fill(script + &"(roll)\n".repeat(128));
    let printout = printed(&script);
    assert!(printout.len() > 120_000 && printout.len() <= 130_572);
    let refusals = printout
        .lines()
        .filter(|line| line.starts_with("(refused "));
    let expected = script.lines().count() - (first_roll + 127);
    assert_eq!(refusals.count(), expected);
    let logs = printout.lines().filter(|line| line.starts_with("(post "));
    for (lane, log) in logs.enumerate() {
        assert!(log.starts_with(&format!("(post {lane} (clock ")));
        assert_eq!(log.matches(" (").count(), 3 + 128);
    }
}

/// The yard line takes all the bytes.
#[test]
fn one_long_line() {
    let posts = " (7 both)".repeat((LIMIT - 9) / 9);
    let mut script = format!("(yard{posts})\n");
    assert!(script.len() <= LIMIT);
    assert_bad(&script, 1, 3);
    script.truncate(LIMIT / 2);
    assert_bad(&script, 1, 2);
    let digits = "1".repeat(LIMIT - 20);
    assert_bad(format!("(yard ({digits} both))\n"), 1, 2);
}

/// Whatever bytes come, the script is answered, and only its output written.
#[test]
fn damaged_scripts_are_answered() {
    let script = super::SCRIPT.as_bytes();
    let mut output = vec![UNTOUCHED; OUTPUT_LENGTH];
    for at in 0..script.len() {
        for byte in [b'(', b')', b' ', b'\n', b'0', b'9', b'y', 0, 255] {
            let mut damaged = script.to_vec();
            damaged[at] = byte;
            let mut air = fresh_air();
            let length = run(&damaged, &mut air, &mut output).expect("an answer");
            assert_eq!(output[length - 1], b'\n');
            damaged.remove(at);
            let shorter = printed_over(&damaged, &mut air);
            assert!(shorter.starts_with("(bad ") || shorter.contains("(post "));
        }
        assert!(printed_over(&script[..at], &mut fresh_air()).len() > 8);
    }
}
