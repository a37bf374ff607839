//! The functions on delivery logs, and what is printed of a call that differs.

use crate::calls::{self, Difference};
use crate::library::Library;
use crate::report::{differing_lent, differing_lines, joined};
use crate::scripts::escaped;
use std::fmt::{self, Display};

/// A longer file or log is printed only up to so many bytes or orders.
const PRINTED_BYTES: usize = 4_000;
const PRINTED_ORDERS: usize = 140;

#[derive(Clone, Copy, Debug, PartialEq, Eq)]
pub enum Function {
    Write,
    Read,
    FirstBad,
}

/// The functions with their names.
pub const FUNCTIONS: [(Function, &str); 3] = [
    (Function::Write, "drift_csv_write"),
    (Function::Read, "drift_csv_read"),
    (Function::FirstBad, "drift_csv_first_bad"),
];

/// A function with a file, or the buffer for a text, and a log's numbers.
pub type Call = calls::Call<Function>;

impl calls::Function for Function {
    fn name(self) -> &'static str {
        FUNCTIONS[self as usize].1
    }

    fn call(self, library: &dyn Library, bytes: &mut [u8], numbers: &mut [u16]) -> u32 {
        match self {
            Function::Write => library.csv_write(numbers, bytes),
            Function::Read => library.csv_read(bytes, numbers),
            Function::FirstBad => library.csv_first_bad(bytes),
        }
    }
}

/// Refusal, or 0, and value of an answer.
pub fn parts(answer: u32) -> (u8, usize) {
    (answer as u8, (answer >> 8) as usize)
}

impl Display for Difference<Function> {
    /// The call, both answers, and in what the two sides left something else.
    fn fmt(&self, output: &mut fmt::Formatter) -> fmt::Result {
        let mut line = |name: &str, value: &dyn Display| writeln!(output, "{name:<22}{value}");
        let given = &self.given;
        let (bytes, numbers) = (given.bytes.numbers(), given.numbers.numbers());
        line("call", &format!("{} (counted from 0)", self.number))?;
        line("function", &self.function())?;
        match given.function {
            Function::Write => {
                line("numbers", &orders(numbers))?;
                line("buffer", &format!("({} bytes)", bytes.len()))?;
            }
            Function::Read => {
                line("file", &file(bytes))?;
                line("numbers", &format!("({} numbers)", numbers.len()))?;
            }
            Function::FirstBad => line("file", &file(bytes))?,
        }
        for (name, ran) in self.sides() {
            let (refusal, value) = parts(ran.answer);
            line(name, &format!("refusal {refusal}, value {value}"))?;
        }
        let (right, wrong) = (&self.reference.after, &self.library.after);
        let mut differing = differing_lent("byte", "bytes", &right.bytes, &wrong.bytes);
        let numbers = differing_lent("number", "numbers", &right.numbers, &wrong.numbers);
        differing.extend(numbers);
        for told in differing_lines(&differing) {
            line("differs", &told)?;
        }
        Ok(())
    }
}

/// The numbers as orders; the last one may have fewer than three.
fn orders(numbers: &[u16]) -> String {
    let order = |order: &[u16]| format!("({})", joined(order.iter().map(u16::to_string)));
    let shown = joined(numbers.chunks(3).take(PRINTED_ORDERS).map(order));
    format!("({} numbers) {shown}", numbers.len())
}

/// The file's lines, from the next line on.
fn file(bytes: &[u8]) -> String {
    let shown = escaped(&bytes[..bytes.len().min(PRINTED_BYTES)]);
    format!("({} bytes)\n{}", bytes.len(), shown.trim_end())
}
