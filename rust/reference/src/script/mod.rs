//! Scripts and printouts: document 01, "Script and printout", and refusals 1 to 5.

mod form;
mod parse;
mod printout;

use crate::post::{HearAnswer, OrderAnswer};
use crate::yard::Yard;
use form::Step;
use parse::{parse, Script};
use printout::Printout;

/// Refusal 1: script over 48,000 bytes.
pub const SCRIPT_TOO_LONG: u8 = 1;
/// Refusal 2: a line that is not of any form.
pub const BAD_FORM: u8 = 2;

/// The most bytes that a script may have.
pub const SCRIPT_LIMIT: usize = 48_000;
/// The bytes that `run` must be lent; every printout fits.
pub const OUTPUT_LENGTH: usize = 131_072;

/// A script's first bad line, from 1, and why it is refused; line 0 for the length.
#[derive(Clone, Copy, Debug, PartialEq, Eq)]
pub struct Bad {
    pub line: u32,
    pub number: u8,
}

/// What the script's last line answered.
#[derive(Clone, Copy, Debug, PartialEq, Eq)]
pub enum LastAnswer {
    YardMade,
    Order(OrderAnswer),
    Hear(HearAnswer),
    Beacon,
    Roll(u16),
    Refused(u8),
}

/// Runs a script. The printout stands at the beginning of `output`; gives its
/// length. None, and nothing changed, if `output` has not `OUTPUT_LENGTH` bytes.
pub fn run(script: &[u8], air: &mut [u8], output: &mut [u8]) -> Option<usize> {
    let mut printout = Printout::new(output.try_into().ok()?);
    match parse(script) {
        Ok(script) => run_and_print(script, air, &mut printout),
        Err(bad) => printout.bad(bad),
    }
    Some(printout.length())
}

/// Runs a script and gives the yard after its last line and that line's answer;
/// or the bad line and its number, with the air as it was.
pub fn run_to_yard(script: &[u8], air: &mut [u8]) -> Result<(Yard, LastAnswer), Bad> {
    let Script { mut yard, steps } = parse(script)?;
    let mut last = LastAnswer::YardMade;
    for step in steps {
        last = run_step(&mut yard, air, step);
    }
    Ok((yard, last))
}

fn run_and_print(script: Script, air: &mut [u8], printout: &mut Printout) {
    let Script { mut yard, steps } = script;
    // Line 1 is the yard.
    for (line, step) in (2..).zip(steps) {
        if let LastAnswer::Refused(number) = run_step(&mut yard, air, step) {
            printout.refused(line, number);
        }
    }
    printout.posts(&yard);
}

fn run_step(yard: &mut Yard, air: &mut [u8], step: Step) -> LastAnswer {
    let answer = match step {
        Step::Order { lane, word } => yard.order(air, lane, word).map(LastAnswer::Order),
        Step::Hear { lane, frame } => yard.hear(air, lane, frame).map(LastAnswer::Hear),
        Step::Beacon { lane } => yard.beacon(air, lane).map(|()| LastAnswer::Beacon),
        Step::Roll => yard.roll_call(air).map(LastAnswer::Roll),
    };
    answer.unwrap_or_else(LastAnswer::Refused)
}
