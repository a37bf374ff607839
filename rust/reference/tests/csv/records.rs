//! Refusal 32 of files, and which record is the first bad one.

use super::{assert_bad, assert_read, full_log, text_of, HEADER, LOG};

#[test]
fn refusal_32_records_that_do_not_rise() {
    for bad in ["3,1,90", "3,1,91", "3,0,90", "2,7,90", "1,0,417"] {
        assert_bad(format!("{}{bad}\r\n", text_of(&LOG)), 4, 32);
        assert_bad(format!("{}{bad}\r\n9,0,0\r\n", text_of(&LOG)), 4, 32);
    }
    assert_read(
        text_of(&[LOG[1], [3, 2, 5], [4, 0, 5]]),
        &[LOG[1], [3, 2, 5], [4, 0, 5]],
    );
}

#[test]
fn refusal_32_a_lane_s_17th() {
    let lone: Vec<_> = (1..=17).map(|stamp| [stamp, 6, 0]).collect();
    assert_read(text_of(&lone[..16]), &lone[..16]);
    assert_bad(text_of(&lone), 18, 32);
    // Other lanes between them do not help.
    let mut mixed: Vec<_> = (1..=17).flat_map(|n| [[n, 2, 0], [n, 6, 0]]).collect();
    mixed.remove(32);
    assert_bad(text_of(&mixed), 34, 32);
}

#[test]
fn the_129th_record_is_32_if_it_is_a_record_at_all() {
    let full = text_of(&full_log());
    assert_read(&full, &full_log());
    for record in ["17,0,0", "17,7,0", "65535,3,1", "1,0,0", "\"17\",0,0"] {
        assert_bad(format!("{full}{record}\r\n"), 130, 32);
        assert_bad(format!("{full}{record}"), 130, 32);
        assert_bad(format!("{full}{record}\r\nx\r\n"), 130, 32);
    }
    for record in ["17,8,0", "0,0,0", "17,0", "x", "", "17,0,0,0"] {
        assert_bad(format!("{full}{record}\r\n"), 130, 31);
    }
    assert_bad(format!("{full}\n"), 130, 31);
}

#[test]
fn within_a_record_31_comes_first() {
    let text = text_of(&LOG);
    for (record, number) in [
        ("2,0,0", 32),
        ("2,8,0", 31),
        ("2,0,65536", 31),
        ("0,0,0", 31),
        ("2,0", 31),
        ("2,0,\"0", 31),
    ] {
        assert_bad(format!("{text}{record}\r\n"), 4, number);
    }
    // A line end that is none belongs to the record as well.
    assert_bad(format!("{text}2,0,0\n"), 4, 31);
    assert_bad(format!("{text}2,0,0\n9,0,0\r\n"), 4, 31);
}

#[test]
fn the_first_bad_record_decides() {
    let text = text_of(&LOG);
    assert_bad(format!("{text}2,0,0\r\nx\r\n"), 4, 32);
    assert_bad(format!("{text}x\r\n2,0,0\r\n"), 4, 31);
    assert_bad(format!("x{text}2,0,0\r\n"), 1, 31);
    assert_bad(format!("{HEADER}x\r\n{}", text_of(&LOG)), 2, 31);
}

#[test]
fn every_record_can_be_the_first_bad_one() {
    let log = full_log();
    for orders in 0..=log.len() {
        let text = text_of(&log[..orders]);
        let record = orders as u32 + 2;
        assert_bad(format!("{text}x\r\n"), record, 31);
        if orders > 0 {
            assert_bad(format!("{text}1,0,0\r\n"), record, 32);
        }
    }
}
