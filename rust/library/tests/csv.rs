//! Delivery logs written and read by the static library, as a host would.

use drift_library::csv::{self, BadFile, BadLog, LogItem, BUFFER_LENGTH, LOG_NUMBERS};
use drift_library::{script_state, AIR_LENGTH};

fn item(stamp: u16, lane: u8, word: u16) -> LogItem {
    LogItem { stamp, lane, word }
}

/// The log of post 0 in document 01, and its text.
fn document_log() -> Vec<LogItem> {
    vec![item(1, 0, 417), item(3, 1, 90)]
}

const TEXT: &str = "stamp,lane,word\r\n1,0,417\r\n3,1,90\r\n";

#[test]
fn the_log_of_a_post_is_written_and_read_back() {
    let script =
        b"(yard (0 both) (1 source))\n(order 0 417)\n(hear 1 0)\n(order 1 90)\n(hear 0 2)\n";
    let ran = script_state(script, &mut vec![0; AIR_LENGTH]);
    let (state, _) = ran.expect("a good script");
    let orders = state.rows[0].post.logged_orders();
    let log: Vec<LogItem> = orders.map(LogItem::from).collect();
    assert_eq!(log, document_log());
    assert_eq!(csv::write(&log), Ok(TEXT.to_string()));
    assert_eq!(csv::read(TEXT.as_bytes()), Ok(log));
}

#[test]
fn the_empty_and_the_largest_log_come_back() {
    let largest: Vec<LogItem> = (0..128)
        .map(|n| item(10_000 + n, (n % 8) as u8, 65_535))
        .collect();
    for (log, length) in [(&largest[..0], 17), (&largest[..], 1_937)] {
        let text = csv::write(log).expect("a good log");
        assert_eq!(text.len(), length);
        assert_eq!(csv::read(text.as_bytes()), Ok(log.to_vec()));
    }
}

#[test]
fn quotes_and_a_missing_last_line_end_are_read() {
    let file = b"\"stamp\",lane,\"word\"\r\n1,\"0\",417\r\n\"3\",\"1\",\"90\"";
    assert_eq!(csv::read(file), Ok(document_log()));
}

#[test]
fn a_bad_log_is_refused() {
    let of_one_lane: Vec<LogItem> = (1..=17).map(|stamp| item(stamp, 5, 0)).collect();
    for (log, number) in [
        (vec![item(0, 0, 0)], 31),
        (vec![item(1, 8, 0)], 31),
        (vec![item(1, 255, 0)], 31),
        (vec![item(3, 1, 90), item(3, 1, 91)], 32),
        (vec![item(3, 1, 90), item(2, 7, 0), item(0, 0, 0)], 32),
        (of_one_lane, 32),
    ] {
        assert_eq!(csv::write(&log), Err(BadLog { number }));
    }
    let long = vec![item(1, 0, 0); 30_000];
    assert_eq!(csv::write(&long), Err(BadLog { number: 32 }));
}

#[test]
fn a_bad_file_is_refused_with_its_first_bad_record() {
    let long = [TEXT.as_bytes(), &[b'\n'; 48_000]].concat();
    let files: [(&[u8], u16, u8, &str); 6] = [
        (b"", 1, 31, "refused by 31 at record 1: the header is not "),
        (b"stamp,lane,word\n", 1, 31, "refused by 31 at record 1: "),
        (
            b"stamp,lane,word\r\n1,8,0\r\n",
            2,
            31,
            "refused by 31 at record 2: not ",
        ),
        (
            b"stamp,lane,word\r\n1,0,0\r\n\r\n",
            3,
            31,
            "refused by 31 at record 3: not ",
        ),
        (
            b"stamp,lane,word\r\n1,0,0\r\n1,0,1\r\n",
            3,
            32,
            "refused by 32 at record 3: it does not rise ",
        ),
        (&long, 0, 1, "refused by 1: the file has over 48,000 bytes"),
    ];
    for (file, record, number, told) in files {
        let bad = csv::read(file).expect_err("a bad file");
        assert_eq!(bad, BadFile { record, number });
        assert!(bad.to_string().starts_with(told), "{bad}");
        assert_eq!(csv::first_bad(file), Some(bad));
    }
    assert_eq!(csv::first_bad(TEXT.as_bytes()), None);
}

#[test]
fn numbers_and_buffers_of_another_length_are_refused_and_left() {
    for length in [0, BUFFER_LENGTH - 1, BUFFER_LENGTH + 1] {
        let mut buffer = vec![0xA5; length];
        assert_eq!(csv::write_numbers(&[1, 0, 417], &mut buffer), Err(6));
        assert!(buffer.iter().all(|&byte| byte == 0xA5));
    }
    for count in [0, LOG_NUMBERS - 1, LOG_NUMBERS + 1] {
        let mut numbers = vec![0xA5A5; count];
        assert_eq!(csv::read_numbers(TEXT.as_bytes(), &mut numbers), Err(6));
        assert!(numbers.iter().all(|&number| number == 0xA5A5));
    }
    assert_eq!(
        csv::write_numbers(&[1, 0], &mut [0; BUFFER_LENGTH]),
        Err(31)
    );
}

#[test]
fn what_is_lent_keeps_its_rest() {
    let mut buffer = [0xA5; BUFFER_LENGTH];
    let written = csv::write_numbers(&[1, 0, 417, 3, 1, 90], &mut buffer);
    assert_eq!(written, Ok(TEXT.len()));
    assert_eq!(&buffer[..TEXT.len()], TEXT.as_bytes());
    assert!(buffer[TEXT.len()..].iter().all(|&byte| byte == 0xA5));
    let mut numbers = [0xA5A5; LOG_NUMBERS];
    assert_eq!(csv::read_numbers(TEXT.as_bytes(), &mut numbers), Ok(2));
    assert_eq!(numbers[..6], [1, 0, 417, 3, 1, 90]);
    assert!(numbers[6..].iter().all(|&number| number == 0xA5A5));
}
