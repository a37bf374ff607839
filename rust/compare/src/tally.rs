//! How often each step, answer and refusal came, and each clause of refusal 12.

use crate::answer::{Answer, Answered, ANSWERS};
use crate::posts::clauses::{broken_alone, judged_record, CLAUSES, ENDS};
use crate::request::{Request, Step};
use drift_reference::post::BAD_RECORD;
use std::fmt;

/// Each step with its name and the answers and refusals that it can give.
const POSSIBLE: [(Step, &str, &[Answer], &[u8]); 4] = [
    (Step::Fresh, "fresh", &[Answer::FreshMade], &[12, 21]),
    (
        Step::Order,
        "order",
        &[Answer::OrderSent],
        &[6, 12, 21, 22, 23, 24],
    ),
    (
        Step::Hear,
        "hear",
        &[
            Answer::Taken,
            Answer::Again,
            Answer::Early,
            Answer::BeaconHeard,
        ],
        &[6, 7, 8, 9, 10, 11, 12, 21, 24, 26, 28, 29, 30],
    ),
    (Step::Beacon, "beacon", &[Answer::BeaconSent], &[6, 12, 21]),
];

/// One more than the highest refusal number.
const REFUSALS: usize = 31;

/// Width of the names; that of a clause is the longest.
const NAME: usize = 44;

/// Counts by step, and in each by answer and by refusal number.
#[derive(Debug, Default)]
pub struct Tally {
    answers: [[u64; ANSWERS.len()]; 4],
    refusals: [[u64; REFUSALS]; 4],
    /// Steps that delivered at least one order.
    delivering: [u64; 4],
    /// Refusals by 12 where a record breaks one clause alone.
    clauses: [[u64; CLAUSES.len()]; 4],
    /// The same, where a range is broken by its least bad number.
    least_bad: [[u64; ENDS.len()]; 4],
    /// Records that passed 12 with the largest good number of a range.
    largest_good: [[u64; ENDS.len()]; 4],
}

impl Tally {
    /// Counts a request with the right outcome of it.
    pub fn add(&mut self, request: &Request, outcome: Answered) {
        let step = request.step as usize;
        self.answers[step][outcome.answer as usize] += 1;
        self.refusals[step][usize::from(outcome.refusal)] += 1;
        self.delivering[step] += u64::from(outcome.count > 0);
        match outcome.refusal {
            BAD_RECORD => self.add_clause(request),
            // Refused before the record was judged.
            1..BAD_RECORD => {}
            _ => self.add_passed(request),
        }
    }

    fn add_clause(&mut self, request: &Request) {
        let step = request.step as usize;
        let post = judged_record(request);
        let Some(clause) = broken_alone(&post) else {
            return;
        };
        self.clauses[step][clause] += 1;
        for (count, end) in self.least_bad[step].iter_mut().zip(ENDS) {
            let (_, is_least) = end.least_bad;
            *count += u64::from(end.clause == clause && is_least(&post));
        }
    }

    fn add_passed(&mut self, request: &Request) {
        let post = judged_record(request);
        let counts = &mut self.largest_good[request.step as usize];
        for (count, end) in counts.iter_mut().zip(ENDS) {
            let (_, is_largest) = end.largest_good;
            *count += u64::from(is_largest(&post));
        }
    }

    pub fn total(&self) -> u64 {
        self.answers.iter().flatten().sum()
    }

    /// The rows of the table: a name, and a count for each step that can have one.
    fn rows(&self) -> Vec<(String, [Option<u64>; 4])> {
        let mut rows = Vec::new();
        for (answer, name) in ANSWERS.into_iter().skip(1) {
            let counts = POSSIBLE.map(|(step, _, answers, _)| {
                let is_possible = answers.contains(&answer);
                is_possible.then_some(self.answers[step as usize][answer as usize])
            });
            rows.push((name.to_string(), counts));
        }
        let delivering = POSSIBLE.map(|(step, ..)| {
            let is_possible = matches!(step, Step::Order | Step::Hear);
            is_possible.then_some(self.delivering[step as usize])
        });
        rows.push(("a delivery".into(), delivering));
        for number in 1..REFUSALS as u8 {
            let counts = POSSIBLE.map(|(step, _, _, refusals)| {
                let is_possible = refusals.contains(&number);
                is_possible.then_some(self.refusals[step as usize][usize::from(number)])
            });
            rows.push((format!("refused by {number}"), counts));
        }
        rows.extend(self.clause_rows());
        rows.retain(|(_, counts)| *counts != [None; 4]);
        rows
    }

    fn clause_rows(&self) -> Vec<(String, [Option<u64>; 4])> {
        let row = |name: String, clause: usize, count: &dyn Fn(usize) -> u64| {
            let counts = POSSIBLE.map(|(step, ..)| {
                let is_judged = CLAUSES[clause].is_judged_at(step);
                is_judged.then(|| count(step as usize))
            });
            (name, counts)
        };
        let mut rows = Vec::new();
        for (index, clause) in CLAUSES.iter().enumerate() {
            let name = format!("12, only: {}", clause.name);
            rows.push(row(name, index, &|step| self.clauses[step][index]));
        }
        for (index, end) in ENDS.iter().enumerate() {
            let (bad, good) = (end.least_bad.0, end.largest_good.0);
            let least_bad = |step: usize| self.least_bad[step][index];
            rows.push(row(format!("12, only: {bad}"), end.clause, &least_bad));
            let largest_good = |step: usize| self.largest_good[step][index];
            rows.push(row(format!("not 12: {good}"), end.clause, &largest_good));
        }
        rows
    }

    /// What a step can give but never gave.
    pub fn never_came(&self) -> Vec<String> {
        let mut never = Vec::new();
        for (what, counts) in self.rows() {
            for ((_, step, ..), count) in POSSIBLE.iter().zip(counts) {
                if count == Some(0) {
                    never.push(format!("{step}: {what}"));
                }
            }
        }
        never
    }
}

impl fmt::Display for Tally {
    fn fmt(&self, output: &mut fmt::Formatter) -> fmt::Result {
        write!(output, "{:<NAME$}", "requests")?;
        for (_, name, ..) in POSSIBLE {
            write!(output, "{name:>10}")?;
        }
        writeln!(output, "{:>10}", "all")?;
        for (name, counts) in self.rows() {
            write_row(output, &name, counts)?;
        }
        let sums = self.answers.map(|counts| Some(counts.iter().sum()));
        write_row(output, "all", sums)
    }
}

/// A count for each step that can have one, and their sum.
fn write_row(output: &mut fmt::Formatter, name: &str, counts: [Option<u64>; 4]) -> fmt::Result {
    write!(output, "{name:<NAME$}")?;
    for count in counts {
        match count {
            None => write!(output, "{:>10}", ".")?,
            Some(count) => write!(output, "{count:>10}")?,
        }
    }
    writeln!(output, "{:>10}", counts.iter().flatten().sum::<u64>())
}
