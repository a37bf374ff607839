//! The command line.

use crate::side::{Side, SIDES};

pub const USAGE: &str = "\
usage: drift-bench table [--rounds N] [PART..]
       drift-bench time [--rounds N] [PART..]
       drift-bench measure SIDE ROW TIMES
table prints instructions and times, time only times, of the rows whose name has
one of the parts, or of all. N, at least 1, is the number of timed rounds; 60 if
not given. measure calls the work of one row, for callgrind: SIDE is rattle or
rust, ROW a whole name, TIMES a number.";

const DEFAULT_ROUNDS: u64 = 60;

/// What the program is asked to do.
pub enum Mode {
    Table {
        with_instructions: bool,
        rounds: u64,
        parts: Vec<String>,
    },
    Measure {
        side: Side,
        row: String,
        times: u64,
    },
}

/// What to do, or nothing if the words are not as the usage says.
pub fn mode(words: &[String]) -> Option<Mode> {
    let (first, rest) = words.split_first()?;
    match first.as_str() {
        "table" => table(true, rest),
        "time" => table(false, rest),
        "measure" => measure(rest),
        _ => None,
    }
}

fn table(with_instructions: bool, words: &[String]) -> Option<Mode> {
    let (rounds, parts) = match words {
        [option, rounds, parts @ ..] if option == "--rounds" => (rounds.parse().ok()?, parts),
        _ => (DEFAULT_ROUNDS, words),
    };
    let is_option = |part: &String| part.starts_with('-');
    (rounds > 0 && !parts.iter().any(is_option)).then(|| Mode::Table {
        with_instructions,
        rounds,
        parts: parts.to_vec(),
    })
}

fn measure(words: &[String]) -> Option<Mode> {
    let [side, row, times] = words else {
        return None;
    };
    Some(Mode::Measure {
        side: SIDES.into_iter().find(|known| known.name == side)?,
        row: row.clone(),
        times: times.parse().ok()?,
    })
}

#[cfg(test)]
mod tests {
    use super::{mode, Mode};

    fn parsed(words: &[&str]) -> Option<Mode> {
        let words: Vec<String> = words.iter().map(|&word| word.into()).collect();
        mode(&words)
    }

    /// Whether instructions are counted, the rounds and the parts.
    fn table(words: &[&str]) -> Option<(bool, u64, Vec<String>)> {
        match parsed(words)? {
            Mode::Table {
                with_instructions,
                rounds,
                parts,
            } => Some((with_instructions, rounds, parts)),
            Mode::Measure { .. } => None,
        }
    }

    #[test]
    fn tables_are_read() {
        assert_eq!(table(&["table"]), Some((true, 60, Vec::new())));
        let parts = vec!["small".into(), "roll call".into()];
        let words = ["time", "--rounds", "3", "small", "roll call"];
        assert_eq!(table(&words), Some((false, 3, parts)));
    }

    #[test]
    fn measurements_are_read() {
        let Some(Mode::Measure { side, row, times }) = parsed(&["measure", "rust", "a b", "7"])
        else {
            panic!("not a measurement");
        };
        assert_eq!((side.name, row.as_str(), times), ("rust", "a b", 7));
    }

    #[test]
    fn other_words_are_refused() {
        let bad: [&[&str]; 9] = [
            &[],
            &["tables"],
            &["table", "--rounds"],
            &["table", "--rounds", "0"],
            &["table", "--rounds", "x"],
            &["table", "--other"],
            &["measure", "rust", "a"],
            &["measure", "c", "a", "1"],
            &["measure", "rust", "a", "x"],
        ];
        for words in bad {
            assert!(parsed(words).is_none(), "{words:?}");
        }
    }
}
