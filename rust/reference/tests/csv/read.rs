//! Files read: what their text may be, and refusals 1, 6 and 31.

use super::{assert_bad, assert_read, read_file, HEADER, LOG, UNTOUCHED_NUMBER};
use drift_reference::csv::{read, LOG_NUMBERS};

/// The log of document 01 as the charging program writes it.
const FILE: &str = "stamp,lane,word\r\n1,0,417\r\n3,1,90\r\n";

#[test]
fn the_last_cr_lf_may_be_missing() {
    assert_read(FILE, &LOG);
    assert_read(FILE.trim_end(), &LOG);
    assert_read(HEADER, &[]);
    assert_read(HEADER.trim_end(), &[]);
}

#[test]
fn each_field_may_be_quoted_or_not() {
    for quoted in 0..1 << 6 {
        let mut fields = ["stamp", "lane", "word", "3", "1", "90"].map(String::from);
        for (at, field) in fields.iter_mut().enumerate() {
            if quoted >> at & 1 == 1 {
                *field = format!("\"{field}\"");
            }
        }
        let [stamp, lane, word, three, one, ninety] = fields;
        let file = format!("{stamp},{lane},{word}\r\n{three},{one},{ninety}");
        assert_read(&file, &LOG[1..]);
        assert_read(file + "\r\n", &LOG[1..]);
    }
}

#[test]
fn refusal_31_another_header() {
    for header in [
        "",
        "\r\n",
        "\n",
        "\r",
        "stamp",
        "stamp,lane",
        "stamp,lane,word,",
        "stamp,lane,word,serial",
        "lane,stamp,word",
        "Stamp,lane,word",
        "stamp,lane,words",
        "stamps,lane,word",
        "stamp,lan,word",
        "stamp, lane,word",
        " stamp,lane,word",
        "stamp,lane,word ",
        "stamp;lane;word",
        "stamp\tlane\tword",
        "'stamp',lane,word",
        "\"stamp,lane,word",
        "\"stamp,lane,word\"",
        "stamp\",lane,word",
        "\"stamp\"x,lane,word",
        "\"\"stamp\"\",lane,word",
        "\"sta\"\"mp\",lane,word",
        "\"stamp \",lane,word",
        "\u{FEFF}stamp,lane,word",
        "1,0,417",
    ] {
        assert_bad(header, 1, 31);
        assert_bad(format!("{header}\r\n1,0,417\r\n"), 1, 31);
    }
    for end in ["\n", "\r", "\n\r", "\r\r\n", "\r \n"] {
        assert_bad(format!("stamp,lane,word{end}1,0,417\r\n"), 1, 31);
        assert_bad(format!("stamp,lane,word{end}"), 1, 31);
    }
}

/// Records that are not three numbers, whatever stands before and after them.
const NOT_THREE_NUMBERS: [&str; 45] = [
    "",
    ",",
    ",,",
    "5",
    "5,1",
    "5,1,",
    ",1,90",
    "5,,90",
    "5,1,90,",
    "5,1,90,0",
    ",5,1,90",
    "5;1;90",
    "5 1 90",
    "5.1.90",
    " 5,1,90",
    "5 ,1,90",
    "5, 1,90",
    "5,1,90 ",
    "+5,1,90",
    "5,-1,90",
    "5,1,+90",
    "0x5,1,90",
    "5,1,9e1",
    "05,1,90",
    "5,01,90",
    "5,1,00",
    "000005,1,90",
    "100000,1,90",
    "5,1,123456",
    "\"5,1,90",
    "5,1,\"90",
    "5,\"1,90",
    "5\",1,90",
    "5,1,90\"",
    "\"5\"5,1,90",
    "5,1,\"9\"0",
    "5,1,9\"0\"",
    "\"\",1,90",
    "5,\"\",90",
    "5,\"0\"\"1\",90",
    "\"5,1\",90,0",
    "\" 5\",1,90",
    "\"5\" ,1,90",
    "'5',1,90",
    "stamp,lane,word",
];

#[test]
fn refusal_31_a_record_that_is_not_three_numbers() {
    for record in NOT_THREE_NUMBERS {
        assert_bad(format!("{FILE}{record}\r\n"), 4, 31);
        assert_bad(format!("{FILE}{record}\r\n9,1,90\r\n"), 4, 31);
        // Without CR LF the empty record is no record.
        if !record.is_empty() {
            assert_bad(format!("{FILE}{record}"), 4, 31);
        }
    }
}

#[test]
fn refusal_31_a_number_outside_its_range() {
    for record in [
        "0,1,90",
        "65536,1,90",
        "99999,1,90",
        "5,8,90",
        "5,9,90",
        "5,10,90",
        "5,256,90",
        "5,65536,90",
        "5,1,65536",
        "5,1,99999",
    ] {
        assert_bad(format!("{FILE}{record}\r\n"), 4, 31);
        assert_bad(format!("{HEADER}{record}"), 2, 31);
    }
    assert_read(
        format!("{HEADER}1,0,0\r\n65535,7,65535"),
        &[[1, 0, 0], [65_535, 7, 65_535]],
    );
}

#[test]
fn refusal_31_other_line_ends_and_blank_lines() {
    for end in ["\n", "\r", "\n\r", "\r\r\n", "\r\n\n", "\r\n\r", "\r\n\r\n"] {
        // A good record ends with CR LF; what follows it belongs to the next.
        let record = if end.starts_with("\r\n") { 3 } else { 2 };
        assert_bad(format!("{HEADER}1,0,417{end}"), record, 31);
        assert_bad(format!("{HEADER}1,0,417{end}3,1,90\r\n"), record, 31);
    }
    assert_bad(format!("{HEADER}\r\n"), 2, 31);
    assert_bad(format!("{HEADER}\r\n1,0,417\r\n"), 2, 31);
    assert_bad(format!("{HEADER}\"1\r\n\",0,417\r\n"), 2, 31);
}

#[test]
fn refusal_1_a_file_over_48000_bytes() {
    for length in [48_001, 48_002, 65_536, 65_536 + 100, 100_000] {
        let mut file = FILE.as_bytes().to_vec();
        file.resize(length, b'\n');
        assert_bad(&file, 0, 1);
        assert_bad(vec![b'x'; length], 0, 1);
        // 1 comes before 6.
        assert_eq!(read(&file, &mut [0; LOG_NUMBERS - 1]), Err(1));
    }
    for length in [47_999, 48_000] {
        let mut file = FILE.as_bytes().to_vec();
        file.resize(length, b'\n');
        assert_bad(file, 4, 31);
        assert_bad(vec![b'x'; length], 1, 31);
    }
}

#[test]
fn refusal_6_any_place_but_384_numbers() {
    for count in [0, 1, 6, 383, 385, 768, 65_536 + 384] {
        let mut numbers = vec![UNTOUCHED_NUMBER; count];
        // 6 comes before all that can be wrong with a record.
        for file in [
            FILE,
            HEADER,
            "",
            "x",
            "stamp,lane,word\r\n1,0,1\r\n1,0,1\r\n",
        ] {
            assert_eq!(
                read(file.as_bytes(), &mut numbers),
                Err(6),
                "{count} numbers"
            );
        }
        assert!(numbers.iter().all(|&number| number == UNTOUCHED_NUMBER));
    }
    assert_eq!(LOG_NUMBERS, 384);
    assert!(read_file(FILE).is_ok());
}
