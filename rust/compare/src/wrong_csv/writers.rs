//! Wrong writers of delivery logs.

use super::assert_noticed;
use crate::library::Library;
use crate::patched::Patched;
use crate::second::Second;
use drift_reference::csv::BUFFER_LENGTH;

fn assert_writer_noticed(name: &str, write: impl Fn(&mut [u16], &mut [u8]) -> u32 + 'static) {
    let patched = Patched {
        csv_write: Box::new(write),
        ..Patched::default()
    };
    assert_noticed(name, "drift_csv_write", patched);
}

/// A writer that writes rightly and then changes the text.
fn assert_text_noticed(name: &str, change: impl Fn(String) -> String + 'static) {
    assert_writer_noticed(name, move |numbers, buffer| {
        let mut copy = buffer.to_vec();
        let answer = Second.csv_write(numbers, &mut copy);
        if answer < 256 {
            return answer;
        }
        let text = String::from_utf8(copy[..answer as usize / 256].to_vec());
        let changed = change(text.expect("plain letters"));
        let length = changed.len().min(buffer.len());
        buffer[..length].copy_from_slice(&changed.as_bytes()[..length]);
        256 * length as u32
    });
}

#[test]
fn wrong_texts_are_noticed() {
    assert_text_noticed("line feeds alone", |text| text.replace("\r\n", "\n"));
    assert_text_noticed("no last CR LF", |text| text.trim_end().into());
    assert_text_noticed("one more CR LF", |text| text + "\r\n");
    assert_text_noticed("semicolons", |text| text.replace(',', ";"));
    assert_text_noticed("spaces", |text| text.replace(',', ", "));
    assert_text_noticed("quotes", |text| text.replace(",7,", ",\"7\","));
    assert_text_noticed("a quoted header", |text| text.replace("lane", "\"lane\""));
    assert_text_noticed("no header", |text| text.replace("stamp,lane,word\r\n", ""));
    assert_text_noticed("capitals", |text| text.replace("word", "Word"));
    assert_text_noticed("word 0 is empty", |text| text.replace(",0\r\n", ",\r\n"));
    assert_text_noticed("four digits at most", |text| text.replace("65535", "6553"));
    assert_text_noticed("nothing of a full log", |text| match text.len() {
        1_937 => String::new(),
        _ => text,
    });
}

/// A writer that first changes its copy of a log and then writes rightly.
fn assert_blind_noticed(name: &str, change: impl Fn(&mut Vec<u16>) + 'static) {
    assert_writer_noticed(name, move |numbers, buffer| {
        let mut copy = numbers.to_vec();
        change(&mut copy);
        Second.csv_write(&mut copy, buffer)
    });
}

#[test]
fn wrong_judgements_of_a_record_are_noticed() {
    assert_blind_noticed("a lane of 8 bits", |numbers| {
        let lanes = numbers.iter_mut().skip(1).step_by(3);
        lanes.for_each(|lane| *lane &= 0xFF);
    });
    assert_blind_noticed("lane 8 is lane 7", |numbers| {
        let lanes = numbers.iter_mut().skip(1).step_by(3);
        lanes.for_each(|lane| *lane -= u16::from(*lane == 8));
    });
    assert_blind_noticed("stamp 0 is stamp 1", |numbers| {
        let stamps = numbers.iter_mut().step_by(3);
        stamps.for_each(|stamp| *stamp = (*stamp).max(1));
    });
    assert_blind_noticed("a last record of one number is left out", |numbers| {
        numbers.truncate(numbers.len() - usize::from(numbers.len() % 3 == 1));
    });
    assert_blind_noticed("a last record of two numbers has word 0", |numbers| {
        numbers.extend([0].iter().take(usize::from(numbers.len() % 3 == 2)));
    });
    assert_blind_noticed("only 128 orders are looked at", |numbers| {
        numbers.truncate(384)
    });
    assert_blind_noticed("only 65,536 numbers are counted", |numbers| {
        numbers.truncate(numbers.len() & 0xFFFF);
    });
}

/// The orders of a log in pairs, each with the one before it.
fn all_pairs(numbers: &[u16], holds: fn(&[u16], &[u16]) -> bool) -> bool {
    let orders = numbers.chunks_exact(3);
    let mut pairs = orders.clone().zip(orders.skip(1));
    pairs.all(|(before, order)| holds(before, order))
}

/// A writer that does not refuse by 32 what rises in its own way.
fn assert_rising_noticed(name: &str, rises: fn(&[u16], &[u16]) -> bool) {
    assert_writer_noticed(name, move |numbers, buffer| {
        match Second.csv_write(numbers, buffer) {
            32 if all_pairs(numbers, rises) => 256 * 17,
            answer => answer,
        }
    });
}

#[test]
fn wrong_judgements_of_the_sequence_are_noticed() {
    assert_rising_noticed("a lane's 17th", |before, order| order[..2] > before[..2]);
    assert_rising_noticed("equal orders", |before, order| order[..2] >= before[..2]);
    assert_rising_noticed("by stamp alone", |before, order| order[0] >= before[0]);
    assert_rising_noticed("by lane and then stamp", |before, order| {
        [order[1], order[0]] > [before[1], before[0]]
    });
    assert_writer_noticed("equal stamps are refused", |numbers, buffer| {
        let answer = Second.csv_write(numbers, &mut buffer.to_vec());
        match all_pairs(numbers, |before, order| order[0] > before[0]) || answer < 256 {
            true => Second.csv_write(numbers, buffer),
            false => 32,
        }
    });
    assert_writer_noticed("a lane's 16th is refused", |numbers, buffer| {
        let lanes = numbers.iter().skip(1).step_by(3);
        let has_16 = lanes.filter(|&&lane| lane == 5).count() == 16;
        match Second.csv_write(numbers, &mut buffer.to_vec()) {
            256.. if has_16 => 32,
            _ => Second.csv_write(numbers, buffer),
        }
    });
    assert_writer_noticed("32 before 31", |numbers, buffer| {
        let answer = Second.csv_write(numbers, buffer);
        match all_pairs(numbers, |before, order| order[0] >= before[0]) || answer != 31 {
            true => answer,
            false => 32,
        }
    });
    assert_writer_noticed("32 before 31 in a 129th", |numbers, buffer| {
        match Second.csv_write(numbers, buffer) {
            31 if numbers.len() == 386 => 32,
            answer => answer,
        }
    });
}

#[test]
fn wrong_uses_of_what_is_lent_are_noticed() {
    for refusal in [6, 31, 32] {
        let name = format!("a write refused by {refusal} empties the buffer");
        assert_writer_noticed(&name, move |numbers, buffer| {
            let answer = Second.csv_write(numbers, buffer);
            if answer == refusal {
                buffer.fill(0);
            }
            answer
        });
    }
    assert_writer_noticed(
        "what is good is written before a refusal",
        |numbers, buffer| {
            let answer = Second.csv_write(numbers, buffer);
            if matches!(answer, 31 | 32) && numbers.len() > 3 {
                Second.csv_write(&mut numbers[..3].to_vec(), buffer);
            }
            answer
        },
    );
    assert_writer_noticed("a 0 after the text", |numbers, buffer| {
        let answer = Second.csv_write(numbers, buffer);
        if answer >= 256 {
            buffer[answer as usize / 256] = 0;
        }
        answer
    });
    assert_writer_noticed("2,049 bytes are enough", |numbers, buffer| {
        let length = buffer.len() - usize::from(buffer.len() == BUFFER_LENGTH + 1);
        Second.csv_write(numbers, &mut buffer[..length])
    });
    assert_writer_noticed("the buffer's length in 16 bits", |numbers, buffer| {
        let length = buffer.len() & 0xFFFF;
        Second.csv_write(numbers, &mut buffer[..length])
    });
    assert_writer_noticed("6 is judged last", |numbers, buffer| {
        match Second.csv_write(numbers, &mut [0; BUFFER_LENGTH]) {
            answer @ (31 | 32) => answer,
            _ => Second.csv_write(numbers, buffer),
        }
    });
    assert_writer_noticed("the numbers are changed", |numbers, buffer| {
        let answer = Second.csv_write(numbers, buffer);
        if answer == 32 {
            numbers[0] ^= 1;
        }
        answer
    });
    assert_writer_noticed("the length is one off", |numbers, buffer| {
        match Second.csv_write(numbers, buffer) {
            answer @ 256.. => answer + 256,
            answer => answer,
        }
    });
}
