//! Wall time: both sides in one process, in turn.

use crate::rows::Job;
use crate::side::{Side, SIDES};
use crate::work::{Lent, Work};
use std::time::{Duration, Instant};

/// What a batch of calls takes at least, so that the clock is fine enough. It is
/// short, so that some batches are run without an interruption.
const BATCH: Duration = Duration::from_micros(250);

/// Nanoseconds of one call with the measured operations and of one without.
struct Round {
    with: f64,
    without: f64,
}

/// Nanoseconds of one operation at each side.
pub fn nanoseconds(job: &Job, rounds: u64, lent: &mut Lent) -> [f64; 2] {
    let calls = SIDES.map(|side| batch_calls(&side, &job.with, lent));
    let mut measured = [Vec::new(), Vec::new()];
    for round in 0..rounds {
        // Neither side always comes first.
        for turn in 0..2 {
            let side = (round as usize + turn) % 2;
            measured[side].push(Round {
                with: per_call(&SIDES[side], &job.with, calls[side], lent),
                without: per_call(&SIDES[side], &job.without, calls[side], lent),
            });
        }
    }
    measured.map(|rounds| undisturbed(rounds) / job.operations as f64)
}

/// How many calls fill a batch. The first call only fills the caches.
fn batch_calls(side: &Side, work: &Work, lent: &mut Lent) -> u64 {
    work.run(side, lent);
    let mut calls = 1;
    while elapsed(side, work, calls, lent) < BATCH {
        calls *= 2;
    }
    calls
}

fn per_call(side: &Side, work: &Work, calls: u64, lent: &mut Lent) -> f64 {
    match work {
        Work::Nothing => 0.0,
        _ => elapsed(side, work, calls, lent).as_nanos() as f64 / calls as f64,
    }
}

fn elapsed(side: &Side, work: &Work, calls: u64, lent: &mut Lent) -> Duration {
    let start = Instant::now();
    for _ in 0..calls {
        work.run(side, lent);
    }
    start.elapsed()
}

/// What the measured operations take, as little disturbed as may be by whatever
/// else the machine does: the fastest round, but where a call without them is
/// taken off, the median of the fastest quarter.
fn undisturbed(mut rounds: Vec<Round>) -> f64 {
    rounds.sort_by(|a, b| (a.with + a.without).total_cmp(&(b.with + b.without)));
    let nothing_is_taken_off = rounds[0].without == 0.0;
    let kept = if nothing_is_taken_off {
        1
    } else {
        rounds.len().div_ceil(4)
    };
    let differences = rounds[..kept]
        .iter()
        .map(|round| round.with - round.without);
    let mut differences: Vec<f64> = differences.collect();
    differences.sort_by(f64::total_cmp);
    differences[kept / 2]
}

#[cfg(test)]
mod tests {
    use super::{undisturbed, Round};

    fn rounds(pairs: &[(f64, f64)]) -> Vec<Round> {
        let round = |&(with, without): &(f64, f64)| Round { with, without };
        pairs.iter().map(round).collect()
    }

    #[test]
    fn one_round_counts_as_it_is() {
        assert_eq!(undisturbed(rounds(&[(7.0, 2.0)])), 5.0);
    }

    #[test]
    fn the_fastest_round_counts_where_nothing_is_taken_off() {
        let pairs = [(9.0, 0.0), (7.0, 0.0), (8.0, 0.0), (9.0, 0.0), (9.0, 0.0)];
        assert_eq!(undisturbed(rounds(&pairs)), 7.0);
    }

    #[test]
    fn slow_rounds_do_not_count() {
        let mut pairs = vec![(90.0, 10.0); 9];
        pairs.extend([(7.0, 2.0), (8.0, 2.0), (7.5, 2.0)]);
        assert_eq!(undisturbed(rounds(&pairs)), 5.5);
    }
}
