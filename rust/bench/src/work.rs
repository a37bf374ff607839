//! What one call of a measurement does, and the buffers that it is lent.

use crate::side::{Records, Side, FIELDS};
use drift_reference::csv::{BUFFER_LENGTH, LOG_NUMBERS};
use drift_reference::frame::FRAME_LENGTH;
use drift_reference::post::Post;
use drift_reference::script::OUTPUT_LENGTH;
use drift_reference::yard::AIR_LENGTH;
use std::hint::black_box;

/// The inputs of one call; each is handed to the side once.
pub enum Work {
    Check(Vec<Vec<u8>>),
    Read(Vec<Vec<u8>>),
    Write(Vec<Vec<u16>>),
    Script(Vec<u8>),
    /// Steps of a single post from this record on, which is copied first.
    Post(Box<Records>, Vec<PostStep>),
    /// A log's numbers, and a file.
    CsvWrite(Vec<u16>),
    CsvRead(Vec<u8>),
    Nothing,
}

/// A step of a single post.
#[derive(Clone)]
pub enum PostStep {
    Order(u16),
    Hear([u8; FRAME_LENGTH]),
    Beacon,
}

/// The buffers lent to a side. Nothing clears them between calls.
#[derive(Clone, PartialEq, Eq)]
pub struct Lent {
    pub air: Vec<u8>,
    pub output: Vec<u8>,
    pub fields: Vec<u16>,
    pub buffer: Vec<u8>,
    pub records: Records,
    /// For the text of a log, and for its numbers.
    pub text: Vec<u8>,
    pub log: Vec<u16>,
}

impl Lent {
    pub fn new() -> Lent {
        Lent {
            air: vec![0; AIR_LENGTH],
            output: vec![0; OUTPUT_LENGTH],
            fields: vec![0; FIELDS],
            buffer: vec![0; FRAME_LENGTH],
            records: Records::new(&Post::EMPTY),
            text: vec![0; BUFFER_LENGTH],
            log: vec![0; LOG_NUMBERS],
        }
    }

    /// With the record of the side that ran a step, and not that of the other.
    fn left_by(&self, side: &Side) -> Lent {
        Lent {
            records: Records::of_one((side.record)(&self.records)),
            ..self.clone()
        }
    }
}

impl PostStep {
    fn run(&self, side: &Side, lent: &mut Lent) -> usize {
        let Lent {
            records, buffer, ..
        } = lent;
        match self {
            PostStep::Order(word) => (side.order)(records, *word, buffer),
            PostStep::Hear(frame) => (side.hear)(records, frame, buffer),
            PostStep::Beacon => (side.beacon)(records, buffer),
        }
    }
}

impl Work {
    /// One call. The compiler may assume nothing about inputs and results.
    pub fn run(&self, side: &Side, lent: &mut Lent) {
        match self {
            Work::Check(frames) => {
                for bytes in frames {
                    black_box((side.check)(black_box(bytes)));
                }
            }
            Work::Read(frames) => {
                for bytes in frames {
                    black_box((side.read)(black_box(bytes), &mut lent.fields));
                }
            }
            Work::Write(rows_of_fields) => {
                for fields in rows_of_fields {
                    black_box((side.write)(black_box(fields), &mut lent.buffer));
                }
            }
            Work::Script(script) => {
                let Lent { air, output, .. } = lent;
                black_box((side.run)(black_box(script), air, output));
            }
            Work::Post(start, steps) => {
                lent.records.clone_from(black_box(start));
                for step in steps {
                    black_box(black_box(step).run(side, lent));
                }
            }
            Work::CsvWrite(numbers) => {
                black_box((side.csv_write)(black_box(numbers), &mut lent.text));
            }
            Work::CsvRead(file) => {
                black_box((side.csv_read)(black_box(file), &mut lent.log));
            }
            Work::Nothing => {}
        }
    }

    /// Whether both sides give the same answers and leave the same buffers.
    pub fn agrees(&self, [one, other]: &[Side; 2]) -> bool {
        self.results(one) == self.results(other)
    }

    /// The answer to each input, and the buffers after it.
    pub fn results(&self, side: &Side) -> Vec<(usize, Lent)> {
        let mut lent = Lent::new();
        let mut results = Vec::new();
        let mut note = |answer: usize, lent: &Lent| results.push((answer, lent.clone()));
        match self {
            Work::Check(frames) => {
                for bytes in distinct(frames) {
                    note((side.check)(bytes).into(), &lent);
                }
            }
            Work::Read(frames) => {
                for bytes in distinct(frames) {
                    note((side.read)(bytes, &mut lent.fields).into(), &lent);
                }
            }
            Work::Write(rows_of_fields) => {
                for fields in distinct(rows_of_fields) {
                    note((side.write)(fields, &mut lent.buffer).into(), &lent);
                }
            }
            Work::Script(script) => {
                note((side.run)(script, &mut lent.air, &mut lent.output), &lent);
            }
            Work::Post(start, steps) => {
                lent.records.clone_from(start);
                for step in steps {
                    note(step.run(side, &mut lent), &lent.left_by(side));
                }
            }
            Work::CsvWrite(numbers) => {
                note((side.csv_write)(numbers, &mut lent.text), &lent);
            }
            Work::CsvRead(file) => {
                note((side.csv_read)(file, &mut lent.log), &lent);
            }
            Work::Nothing => {}
        }
        results
    }
}

/// The inputs, without those that only repeat the one before.
fn distinct<T: PartialEq>(inputs: &[T]) -> Vec<&T> {
    let mut inputs: Vec<&T> = inputs.iter().collect();
    inputs.dedup();
    inputs
}

#[cfg(test)]
mod tests {
    use super::{PostStep, Work};
    use crate::side::{Records, Side, SIDES};
    use drift_reference::post::Post;

    const BEACON: [u8; 32] = {
        let mut bytes = [0; 32];
        bytes[0] = 2;
        bytes
    };

    fn works() -> [Work; 7] {
        let mut fields = vec![0; 22];
        fields[0] = 2;
        let post = Post::fresh(1, 3, 3, 3).expect("a good post");
        let steps = vec![PostStep::Order(7), PostStep::Hear(BEACON), PostStep::Beacon];
        [
            Work::Check(vec![BEACON.to_vec()]),
            Work::Read(vec![BEACON.to_vec()]),
            Work::Write(vec![fields]),
            Work::Script(b"(yard (0 both))\n(order 0 1)\n".to_vec()),
            Work::Post(Box::new(Records::new(&post)), steps),
            Work::CsvWrite(vec![1, 0, 417]),
            Work::CsvRead(b"stamp,lane,word\r\n1,0,417\r\n".to_vec()),
        ]
    }

    #[test]
    fn the_sides_agree() {
        assert!(works().iter().all(|work| work.agrees(&SIDES)));
    }

    /// Answers that are right do not hide buffers that were left as they were.
    #[test]
    fn a_wrong_side_is_noticed() {
        let [_, second] = SIDES;
        let wrong = Side {
            name: "wrong",
            check: |_| 7,
            read: |_, _| 0,
            write: |_, _| 0,
            run: |script, air, output| {
                let mut other_air = air.to_vec();
                (SIDES[1].run)(script, &mut other_air, output)
            },
            order: |records, word, buffer| (SIDES[1].order)(&mut records.clone(), word, buffer),
            csv_write: |numbers, buffer| (SIDES[1].csv_write)(numbers, &mut buffer.to_vec()),
            csv_read: |file, numbers| (SIDES[1].csv_read)(file, &mut numbers.to_vec()),
            ..SIDES[1]
        };
        let sides = [wrong, second];
        assert!(!works().iter().any(|work| work.agrees(&sides)));
    }
}
