//! Measures the static libraries of the proved crates against the second
//! implementation, by instructions and by time, on the same inputs.

#![deny(unsafe_code)]

mod arguments;
mod instructions;
mod rows;
mod side;
mod table;
mod timing;
mod work;

use arguments::Mode;
use rows::{Job, Row};
use side::SIDES;
use std::env;
use std::process::ExitCode;
use table::Measured;
use work::Lent;

const NOTES: &str = "
Each row is one operation. A line in a yard or a roll call costs what a script
with such lines costs, less the same script without them, shared out among them;
a step of one post in the same way, less the copying of its record. Air and output
are not cleared between calls. Both sides are compiled at their usual release
level, are called through a pointer and call the same C library's memcpy.
Instructions are callgrind's, with some 10 of the loop around each call. Times are
those of the fastest round, for posts, lines and roll calls the median of the
fastest quarter; the two sides take turns.";

const NO_VALGRIND: &str = "\
valgrind is not installed: no instructions were counted, the times follow alone.";

fn main() -> ExitCode {
    let words = env::args_os().skip(1).map(|word| word.into_string().ok());
    let words: Option<Vec<String>> = words.collect();
    let Some(mode) = words.and_then(|words| arguments::mode(&words)) else {
        eprintln!("{}", arguments::USAGE);
        return ExitCode::from(2);
    };
    let result = match mode {
        Mode::Measure { side, row, times } => rows::all()
            .iter()
            .find(|known| known.name == row)
            .map(|row| instructions::measure(&side, &row.job(), times))
            .ok_or_else(|| format!("there is no row {row}")),
        Mode::Table {
            with_instructions,
            rounds,
            parts,
        } => print_table(with_instructions, rounds, &rows::with_names(&parts)),
    };
    match result {
        Ok(()) => ExitCode::SUCCESS,
        Err(message) => {
            eprintln!("{message}");
            ExitCode::FAILURE
        }
    }
}

/// Prints each line of the table as soon as its row is measured.
fn print_table(with_instructions: bool, rounds: u64, rows: &[Row]) -> Result<(), String> {
    if rows.is_empty() {
        return Err("no row has such a name".into());
    }
    let counted = with_instructions && instructions::valgrind_is_installed();
    if with_instructions && !counted {
        println!("{NO_VALGRIND}\n");
    }
    println!("{}", table::heading());
    let mut lent = Lent::new();
    for row in rows {
        let job = row.job();
        demand_agreement(row, &job)?;
        let measured = Measured {
            instructions: match counted {
                true => Some(instructions::count(row, &job)?),
                false => None,
            },
            nanoseconds: timing::nanoseconds(&job, rounds, &mut lent),
        };
        println!("{}", table::row(&row.name, &measured));
    }
    println!("{NOTES}");
    Ok(())
}

/// Nothing is measured of sides that do not do the same.
fn demand_agreement(row: &Row, job: &Job) -> Result<(), String> {
    match job.with.agrees(&SIDES) && job.without.agrees(&SIDES) {
        true => Ok(()),
        false => Err(format!("{}: the two sides differ", row.name)),
    }
}
