//! The comparison of a library with the second implementation on frames.

mod calls;
mod inputs;
mod tally;

use crate::calls::Difference;
use crate::library::{Library, FIELDS};
use crate::random::Random;
use crate::stretch::Stretch;
use calls::{Call, Function};
use drift_reference::frame::FRAME_LENGTH;

pub use inputs::{bytes_of, good_frame};
pub use tally::Tally;
#[cfg(test)]
pub use tally::ANSWERS;

type Bytes = [u8; FRAME_LENGTH];
type Compared<T> = Result<T, Box<Difference<Function>>>;

/// One in so many reads gets a row of fields that has not 22 numbers.
const WRONG_ROW_ONE_IN: u16 = 40;

/// Compares check, reader and writer on `count` random inputs, on damaged frames
/// and on frames and buffers of many lengths; stops at the first difference.
pub fn compare(library: &dyn Library, seed: u64, count: u64) -> Compared<Tally> {
    let mut random = Random::new(seed);
    let frames = inputs::good_frames(&mut random);
    let mut comparison = Comparison {
        library,
        random,
        tally: Tally::default(),
    };
    comparison.compare_bytes(&inputs::P2)?;
    let mut input = Vec::new();
    for _ in 0..count {
        inputs::random_bytes(&mut comparison.random, &mut input);
        comparison.compare_bytes(&input)?;
        comparison.compare_fields()?;
    }
    for frame in frames {
        comparison.compare_damages(frame)?;
        comparison.compare_lengths(&frame)?;
    }
    Ok(comparison.tally)
}

struct Comparison<'a> {
    library: &'a dyn Library,
    random: Random,
    tally: Tally,
}

impl Comparison<'_> {
    fn compare_call(&mut self, call: Call) -> Compared<()> {
        let function = call.function;
        let is_over_255 = inputs::has_over_255(call.numbers.numbers());
        let answer = call.compare(self.library, self.tally.total())?;
        self.tally.add(function, answer);
        if function == Function::Write && is_over_255 {
            self.tally.over_255 += 1;
        }
        Ok(())
    }

    /// These bytes checked, read, and as the fields that they are written again.
    fn compare_bytes(&mut self, bytes: &[u8]) -> Compared<()> {
        let check = self.call(Function::Check, bytes, &[]);
        self.compare_call(check)?;
        let random = &mut self.random;
        let length = match random.one_in(WRONG_ROW_ONE_IN) {
            true => inputs::wrong_row(random),
            false => FIELDS,
        };
        let row: Vec<u16> = inputs::any_numbers(random, length);
        let read = self.call(Function::Read, bytes, &row);
        self.compare_call(read)?;
        let write = match bytes.try_into() {
            Ok(frame) => {
                let buffer = inputs::any_bytes(&mut self.random, FRAME_LENGTH);
                self.call(Function::Write, &buffer, &inputs::fields_in(frame))
            }
            // Good fields and a buffer of the wrong length.
            Err(_) => self.call(Function::Write, bytes, &inputs::fields_in(&inputs::P2)),
        };
        self.compare_call(write)
    }

    /// A random row of fields written, seldom into a buffer of a wrong length.
    fn compare_fields(&mut self) -> Compared<()> {
        let random = &mut self.random;
        let fields = inputs::random_fields(random);
        let length = match random.one_in(WRONG_ROW_ONE_IN) {
            true => random.pick(&[0, 31, 33, 64]),
            false => FRAME_LENGTH,
        };
        let buffer = inputs::any_bytes(random, length);
        let write = self.call(Function::Write, &buffer, &fields);
        self.compare_call(write)
    }

    /// A call with random margins around all that is lent.
    fn call(&mut self, function: Function, bytes: &[u8], fields: &[u16]) -> Call {
        let random = &mut self.random;
        Call {
            function,
            bytes: Stretch::new(bytes.iter().copied(), random.byte()),
            numbers: Stretch::new(fields.iter().copied(), random.between(0, u16::MAX)),
        }
    }

    /// The frame itself, and each position with each of the 255 other values.
    fn compare_damages(&mut self, frame: Bytes) -> Compared<()> {
        self.compare_bytes(&frame)?;
        for position in 0..FRAME_LENGTH {
            let mut damaged = frame;
            for change in 1..=255 {
                damaged[position] = frame[position] ^ change;
                self.compare_bytes(&damaged)?;
            }
        }
        Ok(())
    }

    /// The frame cut short, and the frame followed by itself up to each length.
    fn compare_lengths(&mut self, frame: &Bytes) -> Compared<()> {
        // 288 and 65,568 are 32 in their lowest 8 and 16 bits.
        for length in (0..=40).chain([64, 288, 65_536, 65_568]) {
            let input: Vec<u8> = frame.iter().copied().cycle().take(length).collect();
            self.compare_bytes(&input)?;
        }
        // As many numbers as there are fields, and more or fewer of them.
        let fields = inputs::fields_in(frame);
        for length in (0..=24).chain([44, 278, 65_558]) {
            let row: Vec<u16> = fields.iter().copied().cycle().take(length).collect();
            for function in [Function::Read, Function::Write] {
                let call = self.call(function, frame, &row);
                self.compare_call(call)?;
            }
        }
        Ok(())
    }
}
