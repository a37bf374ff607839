//! A log to write or a file to read, with the length of what is lent for the other.

use super::calls::{Call, Function};
use super::{files, logs};
use crate::random::Random;
use crate::stretch::Stretch;
use drift_reference::csv::{BUFFER_LENGTH, LOG_NUMBERS};

/// Lengths of the buffer that are refused by 6; the last is 2,048 in 16 bits.
pub const WRONG_BUFFERS: [usize; 8] = [0, 1, 17, 1_937, 2_047, 2_049, 4_096, 67_584];

/// Counts of numbers that are refused by 6; the last is 384 in 16 bits.
pub const WRONG_COUNTS: [usize; 8] = [0, 1, 3, 128, 383, 385, 768, 65_920];

/// Stand around a file: reading past its end would find a digit, a quote, a comma
/// or a line end there.
const AROUND_FILES: &[u8] = b"0\",\r\n";

/// Stand around a log: they could be a stamp, a lane or a word.
const AROUND_LOGS: [u16; 4] = [0, 1, 7, u16::MAX];

#[derive(Clone, Debug, PartialEq, Eq)]
pub enum Input {
    /// A log's numbers, and the length of the buffer for its text.
    Log(Vec<u16>, usize),
    /// A file, and how many numbers are lent for its log.
    File(Vec<u8>, usize),
}

impl Input {
    /// The log with a buffer of the right length.
    pub fn log(numbers: Vec<u16>) -> Input {
        Input::Log(numbers, BUFFER_LENGTH)
    }

    /// The file with the right count of numbers.
    pub fn file(file: Vec<u8>) -> Input {
        Input::File(file, LOG_NUMBERS)
    }

    /// The calls on it. What is lent to be written is filled by the seed.
    pub fn calls(&self, seed: u64) -> Vec<Call> {
        let random = &mut Random::new(seed);
        match self {
            Input::Log(numbers, length) => vec![Call {
                function: Function::Write,
                numbers: Stretch::new(numbers.iter().copied(), random.pick(&AROUND_LOGS)),
                bytes: Stretch::any_bytes(random, *length),
            }],
            Input::File(file, count) => {
                let bytes = Stretch::new(file.iter().copied(), random.pick(AROUND_FILES));
                let first_bad = Call {
                    function: Function::FirstBad,
                    numbers: Stretch::new([], 0),
                    bytes: bytes.clone(),
                };
                let read = Call {
                    function: Function::Read,
                    numbers: Stretch::any_cells(random, *count),
                    bytes,
                };
                vec![read, first_bad]
            }
        }
    }
}

/// The inputs of this number, the same for the same seed and number: a log that is
/// good or not, and a file made of one of these.
pub fn random_inputs(seed: u64, number: u64) -> [Input; 2] {
    let random = &mut Random::numbered(seed, number);
    let good = logs::good_log(random);
    let numbers = match random.one_in(3) {
        true => good.concat(),
        false => logs::broken(random, good.clone()),
    };
    let file = match random.between(0, 3) {
        0 => files::any_file_of(random, &good),
        1 => {
            let orders = numbers
                .chunks_exact(3)
                .map(|order| [order[0], order[1], order[2]]);
            files::any_file_of(random, &orders.collect::<Vec<_>>())
        }
        _ => {
            let file = files::any_file_of(random, &good);
            files::damaged(random, file)
        }
    };
    let length = right_or(random, BUFFER_LENGTH, &WRONG_BUFFERS);
    let count = right_or(random, LOG_NUMBERS, &WRONG_COUNTS);
    [Input::Log(numbers, length), Input::File(file, count)]
}

/// The right length, seldom a wrong one.
fn right_or(random: &mut Random, right: usize, wrong: &[usize]) -> usize {
    match random.one_in(30) {
        true => random.pick(wrong),
        false => right,
    }
}

#[cfg(test)]
mod tests {
    use super::super::{files, logs};
    use super::random_inputs;
    use crate::random::Random;
    use drift_reference::csv::{first_bad, write, BUFFER_LENGTH};

    #[test]
    fn a_number_gives_the_same_inputs_each_time() {
        for number in 0..40 {
            assert_eq!(random_inputs(3, number), random_inputs(3, number));
            assert_ne!(random_inputs(3, number), random_inputs(3, number + 1));
            assert_ne!(random_inputs(3, number), random_inputs(4, number));
        }
    }

    #[test]
    fn good_logs_and_their_files_are_good() {
        let random = &mut Random::new(1);
        for _ in 0..2_000 {
            let log = logs::good_log(random);
            let written = write(&log.concat(), &mut [0; BUFFER_LENGTH]);
            assert!(written.is_ok(), "{log:?}");
            let file = files::any_file_of(random, &log);
            assert_eq!(first_bad(&file), None, "{}", String::from_utf8_lossy(&file));
        }
    }

    #[test]
    fn every_file_can_be_damaged() {
        for file in ["", "\n", "\"", "stamp,lane,word\r\n1,0,417\r\n"] {
            let damage = |seed| files::damaged(&mut Random::new(seed), file.into());
            let others = (0..300)
                .map(damage)
                .filter(|other| other != file.as_bytes());
            assert!(others.count() > 100, "{file}");
        }
    }
}
