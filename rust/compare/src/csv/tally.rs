//! How often each answer, size, first bad record and limit of delivery logs came.

use super::calls::{parts, Call, Function, FUNCTIONS};
use super::limits_seen::{Limit, Look, FILES, LENGTHS, RECORDS, REPAIRED};
use drift_reference::csv::{BAD_FIELDS, NOT_IN_TURN};
use drift_reference::post::ORDERS;
use std::fmt;
use std::ops::RangeInclusive;

/// The answers that each function can give: 0 for done, or a refusal.
const POSSIBLE: [&[u8]; FUNCTIONS.len()] = [&[0, 6, 31, 32], &[0, 1, 6, 31, 32], &[0, 1, 31, 32]];

/// All answers, in rising order.
const ANSWERS: [u8; 5] = [0, 1, 6, BAD_FIELDS, NOT_IN_TURN];

/// One more than the largest refusal.
const REFUSALS: usize = NOT_IN_TURN as usize + 1;

/// One more than the largest number of a first bad record: that of a 129th order.
const RECORD_NUMBERS: usize = ORDERS + 3;

/// The records that can be the first bad one by 31 and by 32: the header and all
/// orders; but the first order has none to rise above.
const BAD_RECORDS: [(u8, RangeInclusive<usize>); 2] =
    [(BAD_FIELDS, 1..=ORDERS + 2), (NOT_IN_TURN, 3..=ORDERS + 2)];

/// Width of the names; that of a limit is the longest.
const NAME: usize = 30;

#[derive(Debug)]
pub struct Tally {
    /// By function and refusal.
    answers: [[u64; REFUSALS]; FUNCTIONS.len()],
    /// Logs written and files read, by the number of their orders.
    sizes: [[u64; ORDERS + 1]; 2],
    /// First bad records, by 31 and by 32.
    records: [[u64; RECORD_NUMBERS]; 2],
    limits: Vec<u64>,
}

impl Default for Tally {
    fn default() -> Tally {
        Tally {
            answers: [[0; REFUSALS]; FUNCTIONS.len()],
            sizes: [[0; ORDERS + 1]; 2],
            records: [[0; RECORD_NUMBERS]; 2],
            limits: vec![0; limits().count()],
        }
    }
}

impl Tally {
    /// Counts a call with the right answer to it.
    pub fn add(&mut self, call: &Call, answer: u32) {
        let (refusal, value) = parts(answer);
        self.answers[call.function as usize][usize::from(refusal)] += 1;
        match (call.function, refusal) {
            (Function::Write, 0) => self.sizes[0][call.numbers.numbers().len() / 3] += 1,
            (Function::Read, 0) => self.sizes[1][value] += 1,
            (Function::FirstBad, BAD_FIELDS) => self.records[0][value] += 1,
            (Function::FirstBad, NOT_IN_TURN) => self.records[1][value] += 1,
            _ => {}
        }
        let look = Look::new(call, answer);
        for (count, (_, is_reached)) in self.limits.iter_mut().zip(limits()) {
            *count += u64::from(is_reached(&look));
        }
    }

    pub fn total(&self) -> u64 {
        self.answers.iter().flatten().sum()
    }

    /// What never came, so that the comparison says nothing of it.
    pub fn never_came(&self) -> Vec<String> {
        let mut counts = Vec::new();
        for ((function, name), answers) in FUNCTIONS.into_iter().zip(POSSIBLE) {
            for &answer in answers {
                let count = self.answers[function as usize][usize::from(answer)];
                counts.push((count, format!("{name}: {}", answer_name(answer))));
            }
        }
        for (what, counted) in ["log written", "file read"].into_iter().zip(self.sizes) {
            let sizes = counted.into_iter().enumerate();
            counts
                .extend(sizes.map(|(orders, count)| (count, format!("a {what}: {orders} orders"))));
        }
        for (row, (number, records)) in BAD_RECORDS.into_iter().enumerate() {
            let name = |record| format!("first bad record {record}, by {number}");
            counts.extend(records.map(|record| (self.records[row][record], name(record))));
        }
        let limits = self.limits.iter().zip(limits());
        counts.extend(limits.map(|(&count, (name, _))| (count, name.to_string())));
        let never = counts.into_iter().filter(|&(count, _)| count == 0);
        never.map(|(_, name)| name).collect()
    }
}

impl fmt::Display for Tally {
    fn fmt(&self, output: &mut fmt::Formatter) -> fmt::Result {
        write!(output, "{:<NAME$}", "calls")?;
        for name in ["write", "read", "first bad", "all"] {
            write!(output, "{name:>10}")?;
        }
        writeln!(output)?;
        for answer in ANSWERS {
            write!(output, "{:<NAME$}", answer_name(answer))?;
            let counts = self.answers.map(|counts| counts[usize::from(answer)]);
            for (count, possible) in counts.into_iter().zip(POSSIBLE) {
                match possible.contains(&answer) {
                    true => write!(output, "{count:>10}")?,
                    false => write!(output, "{:>10}", ".")?,
                }
            }
            writeln!(output, "{:>10}", counts.iter().sum::<u64>())?;
        }
        writeln!(output, "{:<NAME$}{:>40}", "all", self.total())?;
        let mut least = |name: String, counts: &[u64]| {
            let least = counts.iter().min().unwrap_or(&0);
            writeln!(output, "{name:<NAME$}{:>40}", format!("at least {least}"))
        };
        least(format!("each size written, 0 to {ORDERS}"), &self.sizes[0])?;
        least(format!("each size read, 0 to {ORDERS}"), &self.sizes[1])?;
        for (row, (number, records)) in BAD_RECORDS.into_iter().enumerate() {
            let (first, last) = (records.start(), records.end());
            let name = format!("bad by {number}, record {first} to {last}");
            least(name, &self.records[row][records])?;
        }
        Ok(())
    }
}

fn answer_name(answer: u8) -> String {
    match answer {
        0 => "done, or nothing bad".into(),
        number => format!("refused by {number}"),
    }
}

/// The limits that must be reached.
fn limits() -> impl Iterator<Item = Limit> {
    LENGTHS
        .into_iter()
        .chain(FILES)
        .chain(RECORDS)
        .chain(REPAIRED)
}
