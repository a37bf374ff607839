//! A difference between two runs of a script in readable words.

use super::case::{Difference, Function, Ran, Written};
use crate::answer::{told, Answered};
use crate::report::{differing_fields, hex};
use crate::state::{state_field, STATE_CELLS};
use crate::stretch::Stretch;
use drift_reference::frame::FRAME_LENGTH;
use std::fmt::{self, Display};

/// More lines, frames or fields than this that differ are only counted.
const PRINTED: usize = 12;

/// A difference that was found.
#[derive(Debug)]
pub struct Found {
    /// How many scripts came before it.
    pub before: u64,
    /// The number of a random script; a fixed one has none.
    pub number: Option<u64>,
    pub difference: Box<Difference>,
}

impl Found {
    /// Where it was found.
    pub fn place(&self) -> String {
        match self.number {
            Some(number) => format!("random script {number} (counted from 0)"),
            None => format!("fixed script {} (counted from 0)", self.before),
        }
    }
}

impl Display for Difference {
    fn fmt(&self, output: &mut fmt::Formatter) -> fmt::Result {
        let case = &self.case;
        let length = case.script.len();
        writeln!(output, "the script ({length} bytes)")?;
        write!(output, "{}", escaped(&case.script))?;
        let (function, lent) = match self.function {
            Function::Run => ("drift_run_script", format!("{} bytes", case.output_length)),
            Function::State => ("drift_script_state", format!("{} cells", case.state_cells)),
        };
        let (air, seed) = (case.air_length, case.seed);
        writeln!(
            output,
            "{function}, air of {air} bytes and {lent} lent, filled by seed {seed}"
        )?;
        self.write_written(output)?;
        self.write_air(output)?;
        for (name, ran) in [
            ("second implementation", &self.reference),
            ("static library", &self.library),
        ] {
            if ran.script.numbers() != case.script {
                writeln!(output, "{name}: the script was changed")?;
            }
        }
        Ok(())
    }
}

impl Difference {
    fn write_written(&self, output: &mut fmt::Formatter) -> fmt::Result {
        match (&self.reference.written, &self.library.written) {
            (Written::Output(right), Written::Output(wrong)) => {
                self.write_output(output, right, wrong)
            }
            (Written::State(right), Written::State(wrong)) => {
                self.write_state(output, right, wrong)
            }
            _ => unreachable!("both sides run the same function"),
        }
    }

    fn write_output(
        &self,
        output: &mut fmt::Formatter,
        right: &Stretch<u8>,
        wrong: &Stretch<u8>,
    ) -> fmt::Result {
        let [answer, other] = [&self.reference, &self.library].map(|ran| ran.answer);
        line(output, "answer", answer, other)?;
        write_some(output, differing_lines(&self.reference, &self.library))?;
        let used = self.reference.printout().len();
        if answer == other && right.numbers()[used..] != wrong.numbers()[used..] {
            writeln!(output, "the bytes after the printout differ")?;
        }
        tell_margins(output, "output", right, wrong)
    }

    fn write_state(
        &self,
        output: &mut fmt::Formatter,
        right: &Stretch<u16>,
        wrong: &Stretch<u16>,
    ) -> fmt::Result {
        let answers = [&self.reference, &self.library].map(|ran| ran.answer);
        let [answer, other] = answers.map(told);
        line(output, "answer", answer, other)?;
        let have_run = answers.map(|answer| Answered::read(answer).is_some_and(Answered::has_run));
        let (cells, others) = (right.numbers(), wrong.numbers());
        // If only one side has run the script, all is different.
        match have_run[0] == have_run[1] && cells.len() == STATE_CELLS {
            true => write_some(output, differing_fields(cells, others, state_field))?,
            false if cells != others => writeln!(output, "the state's cells differ")?,
            false => {}
        }
        tell_margins(output, "state", right, wrong)
    }

    fn write_air(&self, output: &mut fmt::Formatter) -> fmt::Result {
        let (reference, library) = (&self.reference.air, &self.library.air);
        let frames = reference.numbers().chunks(FRAME_LENGTH);
        let differing = (0..).zip(frames.zip(library.numbers().chunks(FRAME_LENGTH)));
        let lines = differing.filter(|(_, (right, wrong))| right != wrong);
        let lines = lines.map(|(number, (right, wrong)): (u32, _)| {
            (format!("frame {number}"), hex(right), hex(wrong))
        });
        write_some(output, lines)?;
        tell_margins(output, "air", reference, library)
    }
}

/// The printed lines that differ; a missing one is told as such.
fn differing_lines(reference: &Ran, library: &Ran) -> Vec<(String, String, String)> {
    let lines = |ran: &Ran| -> Vec<String> {
        let printout = ran.printout();
        let lines = printout.split_inclusive(|&byte| byte == b'\n');
        lines
            .map(|line| escaped(line).trim_end().to_string())
            .collect()
    };
    let (right, wrong) = (lines(reference), lines(library));
    let none = "(no line)".to_string();
    let both = (0..right.len().max(wrong.len())).map(|at| {
        let [right, wrong] = [&right, &wrong].map(|lines| lines.get(at).unwrap_or(&none));
        (
            format!("printed line {}", at + 1),
            right.clone(),
            wrong.clone(),
        )
    });
    both.filter(|(_, right, wrong)| right != wrong).collect()
}

/// The first of some differences, and how many more there are.
fn write_some<Value: Display>(
    output: &mut fmt::Formatter,
    lines: impl IntoIterator<Item = (String, Value, Value)>,
) -> fmt::Result {
    let mut more = 0;
    for (number, (name, right, wrong)) in lines.into_iter().enumerate() {
        match number < PRINTED {
            true => line(output, &name, right, wrong)?,
            false => more += 1,
        }
    }
    match more {
        0 => Ok(()),
        _ => writeln!(output, "and {more} more that differ"),
    }
}

/// What both sides have for one thing, if that differs.
fn line<Value: Display>(
    output: &mut fmt::Formatter,
    name: &str,
    right: Value,
    wrong: Value,
) -> fmt::Result {
    let (right, wrong) = (right.to_string(), wrong.to_string());
    if right == wrong {
        return Ok(());
    }
    writeln!(output, "{name}")?;
    writeln!(output, "  second implementation {right}")?;
    writeln!(output, "  static library        {wrong}")
}

fn tell_margins<Number: Copy + fmt::Debug + PartialEq>(
    output: &mut fmt::Formatter,
    name: &str,
    reference: &Stretch<Number>,
    library: &Stretch<Number>,
) -> fmt::Result {
    match reference.margins().eq(library.margins()) {
        true => Ok(()),
        false => writeln!(output, "what stands beside the {name} was written"),
    }
}

/// The text with its line feeds; every other byte that is not printed is escaped,
/// and so is a missing line feed at the end.
pub fn escaped(text: &[u8]) -> String {
    let mut escaped = String::new();
    for line in text.split_inclusive(|&byte| byte == b'\n') {
        let (line, end) = match line.strip_suffix(b"\n") {
            Some(line) => (line, "\n"),
            None => (line, "<no line feed>\n"),
        };
        for &byte in line {
            match byte {
                b' '..=b'~' => escaped.push(byte.into()),
                _ => escaped += &format!("\\x{byte:02X}"),
            }
        }
        escaped += end;
    }
    escaped
}
