//! A whole script: its lines, and the first bad one.

use super::form::{Form, Step};
use super::{Bad, BAD_FORM, SCRIPT_LIMIT, SCRIPT_TOO_LONG};
use crate::yard::{Yard, BAD_YARD};

/// A script that passed refusals 1 to 5.
pub(super) struct Script {
    /// The fresh yard of line 1.
    pub(super) yard: Yard,
    /// The steps from line 2 on.
    pub(super) steps: Vec<Step>,
}

/// Judges a script; gives its yard and steps, or its first bad line.
pub(super) fn parse(script: &[u8]) -> Result<Script, Bad> {
    if script.len() > SCRIPT_LIMIT {
        return Err(Bad {
            line: 0,
            number: SCRIPT_TOO_LONG,
        });
    }
    let mut lines = script.split_inclusive(|&byte| byte == b'\n');
    // Empty text has no yard form on line 1.
    let yard = lines.next().ok_or(BAD_YARD).and_then(read_yard);
    let yard = yard.map_err(|number| Bad { line: 1, number })?;
    let steps = (2..).zip(lines).map(|(line, text)| {
        let step = read_step(text);
        step.map_err(|number| Bad { line, number })
    });
    let steps = steps.collect::<Result<_, _>>()?;
    Ok(Script { yard, steps })
}

/// Line 1: refusals 2 and 3.
fn read_yard(line: &[u8]) -> Result<Yard, u8> {
    match read_form(line)? {
        Form::Yard(form) => form.yard(),
        Form::Step(_) => Err(BAD_YARD),
    }
}

/// A later line: refusals 2 to 5.
fn read_step(line: &[u8]) -> Result<Step, u8> {
    match read_form(line)? {
        Form::Yard(_) => Err(BAD_YARD),
        Form::Step(step) => step.judge().map(|()| step),
    }
}

/// Refusal 2. Only the last line of a script can lack its line feed.
fn read_form(line: &[u8]) -> Result<Form, u8> {
    let line = line.strip_suffix(b"\n").ok_or(BAD_FORM)?;
    Form::read(line).ok_or(BAD_FORM)
}
