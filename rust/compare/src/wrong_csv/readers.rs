//! Wrong readers of delivery logs.

use super::assert_noticed;
use crate::library::Library;
use crate::patched::Patched;
use crate::second::Second;
use drift_reference::csv::{FILE_LIMIT, LOG_NUMBERS};

fn assert_reader_noticed(name: &str, read: impl Fn(&mut [u8], &mut [u16]) -> u32 + 'static) {
    let patched = Patched {
        csv_read: Box::new(read),
        ..Patched::default()
    };
    assert_noticed(name, "drift_csv_read", patched);
}

fn assert_first_bad_noticed(name: &str, first_bad: impl Fn(&mut [u8]) -> u32 + 'static) {
    let patched = Patched {
        csv_first_bad: Box::new(first_bad),
        ..Patched::default()
    };
    assert_noticed(name, "drift_csv_first_bad", patched);
}

/// Both functions must be noticed if they take a file for another.
fn assert_misread_noticed(name: &str, taken_for: fn(&str) -> String) {
    let misread = move |file: &[u8]| match file.len() {
        // The lengths are judged by themselves.
        0..=FILE_LIMIT => taken_for(&String::from_utf8_lossy(file)).into_bytes(),
        _ => file.to_vec(),
    };
    assert_reader_noticed(name, move |file, numbers| {
        Second.csv_read(&mut misread(file), numbers)
    });
    assert_first_bad_noticed(name, move |file| Second.csv_first_bad(&mut misread(file)));
}

/// The file with each record changed.
fn each_record(file: &str, change: impl Fn(&str) -> String) -> String {
    let records: Vec<String> = file.split("\r\n").map(change).collect();
    records.join("\r\n")
}

#[test]
fn wrong_line_ends_are_noticed() {
    assert_misread_noticed("line feeds alone", |file| {
        file.replace("\r\n", "\n").replace('\n', "\r\n")
    });
    assert_misread_noticed("CR alone", |file| {
        file.replace("\r\n", "\r").replace('\r', "\r\n")
    });
    assert_misread_noticed("a blank last line", |file| file.replace("\r\n\r\n", "\r\n"));
    assert_misread_noticed("white space at the end", |file| file.trim_end().into());
    assert_misread_noticed("a last CR", |file| {
        file.strip_suffix('\r').unwrap_or(file).into()
    });
    assert_misread_noticed("the last CR LF is needed", |file| {
        match file.ends_with("\r\n") {
            true => file.into(),
            false => format!("{file}x"),
        }
    });
}

#[test]
fn wrong_fields_are_noticed() {
    assert_misread_noticed("semicolons", |file| file.replace(';', ","));
    assert_misread_noticed("spaces", |file| file.replace(' ', ""));
    assert_misread_noticed("signs", |file| file.replace(['+', '-'], ""));
    assert_misread_noticed("open quotes", |file| file.replace('"', ""));
    assert_misread_noticed("doubled quotes", |file| file.replace("\"\"", ""));
    assert_misread_noticed("single quotes", |file| file.replace('\'', ""));
    assert_misread_noticed("no quotes", |file| file.replace('"', "x"));
    assert_misread_noticed("a byte order mark", |file| file.replace('\u{FEFF}', ""));
    assert_misread_noticed("leading zeros", |file| {
        file.replace(",00", ",0").replace(",01", ",1")
    });
    assert_misread_noticed("a fourth field", |file| {
        each_record(file, |record| {
            let fields: Vec<&str> = record.split(',').take(3).collect();
            fields.join(",")
        })
    });
    assert_misread_noticed("an empty word is 0", |file| file.replace(",\r\n", ",0\r\n"));
    assert_misread_noticed("65,536 is 65,535", |file| file.replace("65536", "65535"));
    assert_misread_noticed("100,000 is 10,000", |file| file.replace("100000", "10000"));
    assert_misread_noticed("lane 8 is lane 7", |file| file.replace(",8,", ",7,"));
    assert_misread_noticed("stamp 0 is stamp 1", |file| file.replace("\n0,", "\n1,"));
}

#[test]
fn wrong_headers_are_noticed() {
    assert_misread_noticed("any header", |file| {
        let (_, records) = file.split_once("\r\n").unwrap_or_default();
        format!("stamp,lane,word\r\n{records}")
    });
    assert_misread_noticed("capitals", |file| file.to_lowercase());
    assert_misread_noticed("the empty file is the empty log", |file| match file {
        "" => "stamp,lane,word".into(),
        _ => file.into(),
    });
    assert_misread_noticed("the header alone is refused", |file| match file {
        "stamp,lane,word" => "".into(),
        _ => file.into(),
    });
    assert_misread_noticed("a quoted header is refused", |file| {
        file.replace("\"stamp\"", "'stamp'")
    });
}

#[test]
fn wrong_lengths_are_noticed() {
    assert_reader_noticed("385 numbers are enough", |file, numbers| {
        let count = numbers.len() - usize::from(numbers.len() == LOG_NUMBERS + 1);
        Second.csv_read(file, &mut numbers[..count])
    });
    assert_reader_noticed("the count in 16 bits", |file, numbers| {
        let count = numbers.len() & 0xFFFF;
        Second.csv_read(file, &mut numbers[..count])
    });
    assert_reader_noticed("6 is judged first", |file, numbers| match numbers.len() {
        LOG_NUMBERS => Second.csv_read(file, numbers),
        _ => 6,
    });
    assert_reader_noticed("6 is judged last", |file, numbers| {
        match Second.csv_read(file, &mut [0; LOG_NUMBERS]) {
            answer @ (31 | 32) => answer,
            _ => Second.csv_read(file, numbers),
        }
    });
    assert_reader_noticed("48,000 bytes are too many", |file, numbers| {
        match file.len() {
            FILE_LIMIT => 1,
            _ => Second.csv_read(file, numbers),
        }
    });
    assert_first_bad_noticed("48,001 bytes are not too many", |file| {
        let length = file.len() - usize::from(file.len() == FILE_LIMIT + 1);
        Second.csv_first_bad(&mut file[..length])
    });
    assert_first_bad_noticed("the length in 16 bits", |file| {
        let length = file.len() & 0xFFFF;
        Second.csv_first_bad(&mut file[..length])
    });
}

#[test]
fn wrong_first_bad_records_are_noticed() {
    assert_first_bad_noticed("orders are counted from 1", |file| {
        match Second.csv_first_bad(file) {
            answer @ 512.. => answer - 256,
            answer => answer,
        }
    });
    assert_first_bad_noticed(
        "a file that is too long is bad at record 1",
        |file| match Second.csv_first_bad(file) {
            1 => 256 + 1,
            answer => answer,
        },
    );
    assert_first_bad_noticed("a 129th record is not looked at", |file| {
        match Second.csv_first_bad(file) {
            answer if answer / 256 == 130 => 0,
            answer => answer,
        }
    });
    assert_first_bad_noticed("32 before 31 in a 129th", |file| {
        match Second.csv_first_bad(file) {
            answer if answer == 256 * 130 + 31 => 256 * 130 + 32,
            answer => answer,
        }
    });
    for record in [3, 57, 130] {
        let name = format!("record {record} need not rise");
        assert_first_bad_noticed(&name, move |file| match Second.csv_first_bad(file) {
            answer if answer == 256 * record + 32 => 0,
            answer => answer,
        });
    }
}

#[test]
fn wrong_uses_of_what_is_lent_are_noticed() {
    for refusal in [1, 6, 31, 32] {
        let name = format!("a read refused by {refusal} empties the numbers");
        assert_reader_noticed(&name, move |file, numbers| {
            let answer = Second.csv_read(file, numbers);
            if answer == refusal {
                numbers.fill(0);
            }
            answer
        });
    }
    assert_reader_noticed("a 0 after the log", |file, numbers| {
        let answer = Second.csv_read(file, numbers);
        if (256..256 * 128).contains(&answer) {
            numbers[3 * answer as usize / 256] = 0;
        }
        answer
    });
    assert_reader_noticed("stamp and word are swapped", |file, numbers| {
        let answer = Second.csv_read(file, numbers);
        if answer >= 256 {
            numbers.swap(0, 2);
        }
        answer
    });
    assert_reader_noticed("the file is changed", |file, numbers| {
        let answer = Second.csv_read(file, numbers);
        if answer == 32 {
            file[0] = b'S';
        }
        answer
    });
    assert_first_bad_noticed("the file is changed", |file| {
        let answer = Second.csv_first_bad(file);
        if answer > 1 {
            file.last_mut().into_iter().for_each(|byte| *byte = 0);
        }
        answer
    });
}
