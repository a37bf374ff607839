//! Instructions, counted by callgrind in a process of their own.

use crate::rows::{Job, Row};
use crate::side::{Records, Side, SIDES};
use crate::work::{Lent, PostStep, Work};
use drift_reference::frame::FRAME_LENGTH;
use drift_reference::post::Post;
use std::env;
use std::io::ErrorKind;
use std::process::Command;

/// A good script, log and file for the calls before the counted ones.
const FIRST_SCRIPT: &[u8] = b"(yard (0 both))\n(order 0 1)\n(roll)\n";
const FIRST_LOG: [u16; 3] = [1, 0, 417];
const FIRST_FILE: &[u8] = b"stamp,lane,word\r\n1,0,417\r\n";

/// Whether valgrind can be run.
pub fn valgrind_is_installed() -> bool {
    let run = Command::new("valgrind").arg("--version").output();
    !matches!(run, Err(error) if error.kind() == ErrorKind::NotFound)
}

/// Instructions of one operation at each side.
pub fn count(row: &Row, job: &Job) -> Result<[f64; 2], String> {
    let [proved, second] = SIDES.map(|side| count_side(&side, row, job));
    Ok([proved?, second?])
}

/// The difference of two runs, in which starting up and setting up cancel out.
fn count_side(side: &Side, row: &Row, job: &Job) -> Result<f64, String> {
    let none = collected_by_run(side, row, 0)?;
    let all = collected_by_run(side, row, job.calls)?;
    Ok(per_operation(none, all, job))
}

fn per_operation(none: u64, all: u64, job: &Job) -> f64 {
    (all as f64 - none as f64) / (job.calls * job.operations) as f64
}

/// Runs this program with `measure` under callgrind.
fn collected_by_run(side: &Side, row: &Row, times: u64) -> Result<u64, String> {
    let program =
        env::current_exe().map_err(|error| format!("no path of this program: {error}"))?;
    let run = Command::new("valgrind")
        .args(["--tool=callgrind", "--callgrind-out-file=/dev/null"])
        .arg(program)
        .args(["measure", side.name, &row.name, &times.to_string()])
        .output()
        .map_err(|error| format!("valgrind cannot be run: {error}"))?;
    let report = String::from_utf8_lossy(&run.stderr);
    match collected(&report) {
        Some(instructions) if run.status.success() => Ok(instructions),
        _ => Err(format!("valgrind failed at {}: {report}", row.name)),
    }
}

/// The number behind "Collected :" in callgrind's report.
fn collected(report: &str) -> Option<u64> {
    let (_, rest) = report.split_once("Collected :")?;
    rest.split_whitespace().next()?.parse().ok()
}

/// Calls the row's work as often as asked for. Of the row's counted calls the
/// others are run without the measured operations, so that two runs differ in
/// nothing but these.
pub fn measure(side: &Side, job: &Job, times: u64) {
    let mut lent = Lent::new();
    first_calls(side, &mut lent);
    for _ in 0..times {
        job.with.run(side, &mut lent);
    }
    for _ in times..job.calls {
        job.without.run(side, &mut lent);
    }
}

/// What only a first call has to do, such as finding memcpy, is not counted.
fn first_calls(side: &Side, lent: &mut Lent) {
    Work::Check(vec![Vec::new()]).run(side, lent);
    Work::Read(vec![Vec::new()]).run(side, lent);
    Work::Write(vec![Vec::new()]).run(side, lent);
    Work::Script(FIRST_SCRIPT.to_vec()).run(side, lent);
    let steps = vec![
        PostStep::Order(1),
        PostStep::Hear([0; FRAME_LENGTH]),
        PostStep::Beacon,
    ];
    let post = Post::fresh(0, 1, 1, 1).expect("a good post");
    Work::Post(Box::new(Records::new(&post)), steps).run(side, lent);
    Work::CsvWrite(FIRST_LOG.to_vec()).run(side, lent);
    Work::CsvRead(FIRST_FILE.to_vec()).run(side, lent);
}

#[cfg(test)]
mod tests {
    use super::{collected, per_operation, Job, Work};

    #[test]
    fn the_number_is_found_in_the_report() {
        let report = "==1== Events    : Ir\n==1== Collected : 127774\n==1== \n";
        assert_eq!(collected(report), Some(127_774));
        assert_eq!(collected("==1== Collected :"), None);
        assert_eq!(collected("==1== Events    : Ir\n"), None);
    }

    #[test]
    fn operations_share_the_difference() {
        let job = Job {
            with: Work::Nothing,
            without: Work::Nothing,
            operations: 64,
            calls: 4,
        };
        assert_eq!(per_operation(1_000, 1_000 + 256 * 12, &job), 12.0);
        assert_eq!(per_operation(1_000, 1_000 + 128, &job), 0.5);
    }
}
