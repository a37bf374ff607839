//! The functions on frames, and what is printed of a call that differs.

use crate::calls::{self, Difference};
use crate::library::Library;
use crate::report::hex;
use crate::stretch::Stretch;
use std::fmt::{self, Display};

/// A longer input is printed only up to this many numbers.
const PRINTED_NUMBERS: usize = 96;

#[derive(Clone, Copy, Debug, PartialEq, Eq)]
pub enum Function {
    Check,
    Read,
    Write,
}

/// The functions with their names.
pub const FUNCTIONS: [(Function, &str); 3] = [
    (Function::Check, "drift_frame_check"),
    (Function::Read, "drift_frame_read"),
    (Function::Write, "drift_frame_write"),
];

/// A function with the frame's bytes, or the buffer for them, and its fields as
/// numbers.
pub type Call = calls::Call<Function>;

impl calls::Function for Function {
    fn name(self) -> &'static str {
        FUNCTIONS[self as usize].1
    }

    fn call(self, library: &dyn Library, bytes: &mut [u8], fields: &mut [u16]) -> u32 {
        let answer = match self {
            Function::Check => library.frame_check(bytes),
            Function::Read => library.frame_read(bytes, fields),
            Function::Write => library.frame_write(fields, bytes),
        };
        answer.into()
    }
}

impl Display for Difference<Function> {
    /// The call, both answers, and what either side changed of what was lent.
    fn fmt(&self, output: &mut fmt::Formatter) -> fmt::Result {
        let given = &self.given;
        writeln!(output, "call {} (counted from 0)", self.number)?;
        writeln!(output, "{:<22}{}", "function", self.function())?;
        writeln!(output, "{:<22}{}", "bytes", bytes(&given.bytes))?;
        if given.function != Function::Check {
            writeln!(output, "{:<22}{}", "fields", fields(&given.numbers))?;
        }
        for (name, ran) in self.sides() {
            writeln!(output, "{name:<22}answer {}", ran.answer)?;
            if ran.after.bytes != given.bytes {
                let left = bytes(&ran.after.bytes);
                writeln!(output, "{:<22}bytes {left}", "  left changed")?;
            }
            if ran.after.numbers != given.numbers {
                let left = fields(&ran.after.numbers);
                writeln!(output, "{:<22}fields {left}", "  left changed")?;
            }
        }
        Ok(())
    }
}

fn bytes(stretch: &Stretch<u8>) -> String {
    let all = stretch.numbers();
    let shown = hex(&all[..all.len().min(PRINTED_NUMBERS)]);
    format!("({} bytes) {shown}{}", all.len(), margins(stretch))
}

fn fields(stretch: &Stretch<u16>) -> String {
    let all = stretch.numbers();
    let shown = &all[..all.len().min(PRINTED_NUMBERS)];
    format!("({} numbers) {shown:?}{}", all.len(), margins(stretch))
}

/// Tells of margins that do not repeat one number any more: those were written.
fn margins<T: Copy + fmt::Debug + PartialEq>(stretch: &Stretch<T>) -> &'static str {
    let mut margins = stretch.margins();
    let first = margins.next();
    match margins.all(|number| Some(number) == first) {
        true => "",
        false => " and outside of them",
    }
}
