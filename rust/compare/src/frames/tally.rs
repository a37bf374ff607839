//! How often each function on frames gave each answer.

use super::calls::{Function, FUNCTIONS};
use std::fmt;

/// The answers that each of the functions can give, in rising order.
pub const ANSWERS: [u8; 7] = [0, 6, 7, 8, 9, 10, 11];

/// How often the second implementation gave each answer.
#[derive(Debug, Default)]
pub struct Tally {
    counts: [[u64; 12]; FUNCTIONS.len()],
    /// Writes with a number over 255 in a field of one byte.
    pub over_255: u64,
}

impl Tally {
    pub fn add(&mut self, function: Function, answer: u32) {
        self.counts[function as usize][answer as usize] += 1;
    }

    fn of(&self, function: Function, answer: u8) -> u64 {
        self.counts[function as usize][usize::from(answer)]
    }

    pub fn total(&self) -> u64 {
        self.counts.iter().flatten().sum()
    }

    /// The answers that never came, so that the comparison says nothing of them.
    pub fn never_came(&self) -> Vec<String> {
        let mut never = Vec::new();
        for (function, name) in FUNCTIONS {
            for answer in ANSWERS {
                if self.of(function, answer) == 0 {
                    never.push(format!("{name}: answer {answer}"));
                }
            }
        }
        if self.over_255 == 0 {
            never.push("a written number over 255".into());
        }
        never
    }
}

impl fmt::Display for Tally {
    fn fmt(&self, output: &mut fmt::Formatter) -> fmt::Result {
        write!(output, "{:<14}", "calls")?;
        for name in ["check", "read", "write"] {
            write!(output, "{name:>10}")?;
        }
        writeln!(output, "{:>10}", "all")?;
        for answer in ANSWERS {
            let counts = FUNCTIONS.map(|(function, _)| self.of(function, answer));
            write_row(output, &format!("answer {answer}"), counts)?;
        }
        let sums = self.counts.map(|counts| counts.iter().sum());
        write_row(output, "all", sums)?;
        writeln!(output, "{:<14}{:>30}", "over 255", self.over_255)
    }
}

fn write_row(output: &mut fmt::Formatter, name: &str, counts: [u64; 3]) -> fmt::Result {
    write!(output, "{name:<14}")?;
    for count in counts {
        write!(output, "{count:>10}")?;
    }
    writeln!(output, "{:>10}", counts.iter().sum::<u64>())
}
