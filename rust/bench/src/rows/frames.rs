//! The rows of frames: check, read and write.

use super::{Job, Row};
use crate::side::FIELDS;
use crate::work::Work;
use drift_reference::frame::{BEACON, FRAME_LENGTH, LANES, ORDER};

/// Inputs of one call. A single frame is handed in as often as that.
const INPUTS: usize = 64;
/// The counted calls.
const CALLS: u64 = 16;

type Inputs = fn() -> Vec<Vec<u8>>;
type Operation = fn(Vec<Vec<u8>>) -> Work;

const OPERATIONS: [(&str, Operation); 3] = [
    ("check", Work::Check),
    ("read", Work::Read),
    ("write", write_work),
];

const FRAMES: [(&str, Inputs); 4] = [
    ("order frame", || vec![order_frame(); INPUTS]),
    ("beacon", || vec![beacon(); INPUTS]),
    ("refused by 11, last entry", || vec![refused(); INPUTS]),
    ("half good, half refused by 6 to 11", mixed),
];

pub fn rows() -> Vec<Row> {
    let mut rows = Vec::new();
    for (operation, work) in OPERATIONS {
        for (frames, inputs) in FRAMES {
            let name = format!("frame {operation}: {frames}");
            rows.push(Row::new(name, move || Job {
                with: work(inputs()),
                without: Work::Nothing,
                operations: INPUTS as u64,
                calls: CALLS,
            }));
        }
    }
    rows
}

fn order_frame() -> Vec<u8> {
    laid_out(ORDER, 3, [5, 7, 3, 232, 1, 161], |lane| (lane + 1, 900))
}

fn beacon() -> Vec<u8> {
    laid_out(BEACON, 3, [0; 6], |lane| (lane + 1, 900))
}

/// Only the last entry is bad, so the whole frame has to be judged.
fn refused() -> Vec<u8> {
    let mut frame = order_frame();
    frame[FRAME_LENGTH - 3] = 17;
    frame
}

/// A good frame and a damaged one in turn; the damage goes through 6 to 11.
fn mixed() -> Vec<Vec<u8>> {
    let pairs = (0..INPUTS / 2).flat_map(|n| [good(n, n % 4 == 3), damaged(n)]);
    pairs.collect()
}

/// The good frame of a number: other lanes, serials, stamps and entries each time.
fn good(n: usize, is_beacon: bool) -> Vec<u8> {
    let entry = |lane: usize| match (n + lane) % 3 {
        0 => (0, 0),
        _ => ((n + 5 * lane) % 17, 1 + 1_999 * n),
    };
    if is_beacon {
        return laid_out(BEACON, n % LANES, [0; 6], entry);
    }
    let (lane, serial) = ((3 * n % LANES) as u8, 1 + (n % 16) as u8);
    laid_out(ORDER, n % LANES, [lane, serial, 1, 1, 200, 200], entry)
}

fn damaged(n: usize) -> Vec<u8> {
    let refusal = 6 + n % 6;
    let mut frame = good(n, refusal == 8);
    match refusal {
        6 => frame.truncate(FRAME_LENGTH - 1),
        7 => frame[0] = 3,
        8 => frame[5] = 1,
        9 => frame[3] = 0,
        10 => frame[1] = LANES as u8,
        _ => frame[8 + 3 * (n % LANES)] = 17,
    }
    frame
}

/// Kind, sender, bytes 2 to 7 and the serial and stamp of each lane's entry.
fn laid_out(
    kind: u8,
    sender: usize,
    order: [u8; 6],
    entry: impl Fn(usize) -> (usize, usize),
) -> Vec<u8> {
    let mut frame = vec![kind, sender as u8];
    frame.extend(order);
    for (serial, stamp) in (0..LANES).map(entry) {
        frame.push(serial as u8);
        frame.extend((stamp as u16).to_be_bytes());
    }
    frame
}

fn write_work(frames: Vec<Vec<u8>>) -> Work {
    Work::Write(frames.iter().map(|frame| fields(frame)).collect())
}

/// The 22 fields at their places, good or not; one too few for a frame cut short.
fn fields(frame: &[u8]) -> Vec<u16> {
    let mut bytes = [0; FRAME_LENGTH];
    bytes[..frame.len()].copy_from_slice(frame);
    let pair = |at: usize| u16::from_be_bytes([bytes[at], bytes[at + 1]]);
    let mut fields: Vec<u16> = bytes[..4].iter().map(|&byte| byte.into()).collect();
    fields.extend([pair(4), pair(6)]);
    for at in (8..FRAME_LENGTH).step_by(3) {
        fields.extend([bytes[at].into(), pair(at + 1)]);
    }
    fields.truncate(FIELDS - (FRAME_LENGTH - frame.len()));
    fields
}

#[cfg(test)]
mod tests {
    use super::{rows, FRAMES, INPUTS};
    use crate::side::SIDES;
    use crate::work::Work;

    fn answers(work: &Work) -> Vec<usize> {
        let results = work.results(&SIDES[1]);
        results.into_iter().map(|(answer, _)| answer).collect()
    }

    #[test]
    fn rows_give_the_answers_that_they_name() {
        for row in rows() {
            let answers = answers(&row.job().with);
            match row.name.split(": ").nth(1) {
                Some("order frame" | "beacon") => assert_eq!(answers, [0]),
                Some("refused by 11, last entry") => assert_eq!(answers, [11]),
                _ => {
                    let expected = (0..INPUTS / 2).flat_map(|n| [0, 6 + n % 6]);
                    assert_eq!(answers, expected.collect::<Vec<usize>>(), "{}", row.name);
                }
            }
        }
    }

    #[test]
    fn every_row_has_as_many_inputs() {
        for (name, inputs) in FRAMES {
            assert_eq!(inputs().len(), INPUTS, "{name}");
        }
    }

    /// What is written is what was read.
    #[test]
    fn fields_are_those_of_the_reader() {
        for frame in FRAMES[0].1().iter().chain(&FRAMES[1].1()) {
            let mut fields = vec![0; super::FIELDS];
            assert_eq!((SIDES[1].read)(frame, &mut fields), 0);
            assert_eq!(fields, super::fields(frame));
        }
    }
}
