//! Tests of scripts and printouts against document 01.

mod answers;
mod bench;
mod forms;
mod largest;
mod numbers;
mod printout;

use drift_reference::script::{run, run_to_yard, Bad, LastAnswer, OUTPUT_LENGTH};
use drift_reference::yard::{Yard, AIR_LENGTH};

/// What air and output hold before a script runs.
const UNTOUCHED: u8 = 0xA5;

/// The script of document 01.
const SCRIPT: &str = "\
(yard (0 both) (1 source) (2 dest))
(order 0 417)
(hear 1 0)
(order 1 90)
(hear 2 1)
(hear 0 2)
(hear 2 9)
";

/// The first lines of the script of document 01.
fn first_lines(count: usize) -> String {
    SCRIPT.split_inclusive('\n').take(count).collect()
}

/// The air of a script that is not run yet.
fn fresh_air() -> Vec<u8> {
    vec![UNTOUCHED; AIR_LENGTH]
}

/// The printout of a script over an air; the output beyond it stays as it was.
fn printed_over(script: &[u8], air: &mut [u8]) -> String {
    let mut output = vec![UNTOUCHED; OUTPUT_LENGTH];
    let length = run(script, air, &mut output).expect("an output of the right length");
    let rest = output.split_off(length);
    assert!(rest.iter().all(|&byte| byte == UNTOUCHED));
    String::from_utf8(output).expect("a printout in plain letters")
}

fn printed(script: &str) -> String {
    printed_over(script.as_bytes(), &mut fresh_air())
}

/// The yard after a good script, and what its last line answered.
fn ran(script: &str) -> (Yard, LastAnswer) {
    run_to_yard(script.as_bytes(), &mut fresh_air()).expect("a good script")
}

/// The script must be refused by its line `line`, in both ways to run it, and
/// leave the air as it was.
fn assert_bad(script: impl AsRef<[u8]>, line: u32, number: u8) {
    let script = script.as_ref();
    let shown = String::from_utf8_lossy(&script[..script.len().min(200)]);
    let mut air = fresh_air();
    let expected = format!("(bad {line} {number})\n");
    assert_eq!(printed_over(script, &mut air), expected, "{shown}");
    let ran = run_to_yard(script, &mut air);
    assert_eq!(ran, Err(Bad { line, number }), "{shown}");
    assert!(air.iter().all(|&byte| byte == UNTOUCHED));
}

/// The script must pass refusals 1 to 5.
fn assert_good(script: &str) {
    let printout = printed(script);
    let first = printout.lines().next().expect("a line for each post");
    assert!(!first.starts_with("(bad "), "{script}: {printout}");
}
