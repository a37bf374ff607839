//! How often each answer, refusal, size and limit of scripts came.

use super::case::{Case, Outcome};
use super::limits_seen::{Limit, Look, BEACON_LIMITS, LENGTHS, LIMITS};
use super::printed;
use super::step::STEPS;
use crate::answer::{Answer, ANSWERS, CODES};
use std::fmt;

/// The refusals that each step can give in a yard.
const POSSIBLE: [&[u8]; STEPS.len()] = [
    &[13, 21, 22, 23],
    &[13, 21, 25, 26],
    &[13, 21, 27],
    &[13, 27],
];

/// The answers that carry a count delivered, each of which can be above 0.
const DELIVERING: [Answer; 5] = [
    Answer::OrderSent,
    Answer::Taken,
    Answer::Again,
    Answer::Early,
    Answer::BeaconHeard,
];

/// One more than the highest refusal number of a script or a step in it.
const REFUSALS: usize = 28;

/// Upper ends of the sizes that are told apart, in bytes.
const SIZES: [usize; 6] = [50, 500, 5_000, 47_999, 48_000, usize::MAX];

type ByStep = [[u64; REFUSALS]; STEPS.len()];

#[derive(Debug, Default)]
pub struct Tally {
    sizes: [u64; SIZES.len()],
    /// Bad scripts, by refusal.
    bad: [u64; 6],
    /// What the state answered: by code, and of them the delivering ones.
    answers: [u64; CODES],
    delivering: [u64; CODES],
    /// Refusals that the last line answered, and refusals that were printed.
    last: ByStep,
    printed: ByStep,
    limits: [u64; LIMITS.len()],
    beacon_limits: [u64; BEACON_LIMITS.len()],
    lengths: [u64; LENGTHS.len()],
}

impl Tally {
    /// Counts a case with the right outcome of it.
    pub fn add(&mut self, case: &Case, outcome: &Outcome) {
        let size = SIZES.iter().position(|&end| case.script.len() <= end);
        self.sizes[size.expect("a length has a size")] += 1;
        let answered = outcome.answered;
        self.answers[answered.answer as usize] += 1;
        self.delivering[answered.answer as usize] += u64::from(answered.count > 0);
        let look = Look { case, outcome };
        if let (Some(step), true) = (look.last_step(), answered.has_run()) {
            self.last[step.kind()][usize::from(answered.refusal)] += 1;
        }
        for (step, number) in look.refused_steps() {
            self.printed[step.kind()][number] += 1;
        }
        if let Some((_, number)) = printed::bad(&outcome.printout) {
            self.bad[number] += 1;
        }
        let counts = self.limits.iter_mut().chain(&mut self.beacon_limits);
        let counts = counts.chain(&mut self.lengths);
        for (count, (_, is_reached)) in counts.zip(limits()) {
            *count += u64::from(is_reached(&look));
        }
    }

    pub fn total(&self) -> u64 {
        self.sizes.iter().sum()
    }

    /// What never came, so that the comparison says nothing of it.
    pub fn never_came(&self) -> Vec<String> {
        let mut counts = self.counts_of_scripts();
        for (answer, name) in ANSWERS.into_iter().take(CODES) {
            let place = answer as usize;
            counts.push((self.answers[place], format!("answer: {name}")));
            if DELIVERING.contains(&answer) {
                let name = format!("answer: {name} with a delivery");
                counts.push((self.delivering[place], name));
            }
        }
        for (step, refusals) in POSSIBLE.iter().enumerate() {
            for &number in *refusals {
                let name = format!("{}: refused by {number}", STEPS[step]);
                let place = usize::from(number);
                counts.push((self.last[step][place], format!("last line: {name}")));
                counts.push((self.printed[step][place], format!("printed: {name}")));
            }
        }
        let never = counts.into_iter().filter(|&(count, _)| count == 0);
        never.map(|(_, name)| name).collect()
    }

    /// The counts of bad scripts, sizes and limits, with their names.
    fn counts_of_scripts(&self) -> Vec<(u64, String)> {
        let bad = self.bad.into_iter().enumerate().skip(1);
        let bad = bad.map(|(number, count)| (count, format!("a script that is bad by {number}")));
        let sizes = self.sizes.into_iter().zip(SIZES);
        let sizes = sizes.map(|(count, end)| (count, format!("a script of up to {end} bytes")));
        let counts = self.limits.into_iter().chain(self.beacon_limits);
        let limits = counts.chain(self.lengths).zip(limits());
        let limits = limits.map(|(count, (name, _))| (count, name.to_string()));
        bad.chain(sizes).chain(limits).collect()
    }

    fn write_refusals(
        &self,
        output: &mut fmt::Formatter,
        name: &str,
        counts: &ByStep,
    ) -> fmt::Result {
        for number in 1..REFUSALS {
            let is_possible = |step: usize| POSSIBLE[step].contains(&(number as u8));
            if !(0..STEPS.len()).any(is_possible) {
                continue;
            }
            write!(output, "{:<26}", format!("{name} {number}"))?;
            for (step, counts) in counts.iter().enumerate() {
                match is_possible(step) {
                    true => write!(output, "{:>10}", counts[number])?,
                    false => write!(output, "{:>10}", ".")?,
                }
            }
            writeln!(output)?;
        }
        Ok(())
    }
}

impl fmt::Display for Tally {
    fn fmt(&self, output: &mut fmt::Formatter) -> fmt::Result {
        writeln!(output, "{:<26}{:>10}", "scripts", self.total())?;
        for (end, count) in SIZES.iter().zip(self.sizes) {
            let name = match *end {
                usize::MAX => "more bytes".to_string(),
                _ => format!("up to {end} bytes"),
            };
            writeln!(output, "{name:<26}{count:>10}")?;
        }
        for (number, count) in self.bad.iter().enumerate().skip(1) {
            writeln!(output, "{:<26}{count:>10}", format!("bad by {number}"))?;
        }
        writeln!(output, "{:<26}{:>10}{:>10}", "answer", "all", "deliver")?;
        for (answer, name) in ANSWERS.into_iter().take(CODES) {
            write!(output, "{name:<26}{:>10}", self.answers[answer as usize])?;
            match DELIVERING.contains(&answer) {
                true => writeln!(output, "{:>10}", self.delivering[answer as usize])?,
                false => writeln!(output, "{:>10}", ".")?,
            }
        }
        write!(output, "{:<26}", "refusals")?;
        for name in STEPS {
            write!(output, "{name:>10}")?;
        }
        writeln!(output)?;
        self.write_refusals(output, "last line refused by", &self.last)?;
        self.write_refusals(output, "printed: refused by", &self.printed)
    }
}

/// The limits and lengths that must be reached.
fn limits() -> impl Iterator<Item = Limit> {
    LIMITS.into_iter().chain(BEACON_LIMITS).chain(LENGTHS)
}
