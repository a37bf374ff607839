//! Logs written: the text, its place in the buffer, and refusals 6, 31 and 32.

use super::{full_log, read_file, text_of, written, written_log, HEADER, LOG, UNTOUCHED};
use drift_reference::csv::{write, BUFFER_LENGTH};

#[test]
fn a_log_is_written() {
    let expected = "stamp,lane,word\r\n1,0,417\r\n3,1,90\r\n";
    assert_eq!(written_log(&LOG), Ok(expected.into()));
    assert_eq!(written(&[]), Ok(HEADER.into()));
    let ends = [[1, 7, 0], [65_535, 0, 65_535], [65_535, 7, 9]];
    let expected = "stamp,lane,word\r\n1,7,0\r\n65535,0,65535\r\n65535,7,9\r\n";
    assert_eq!(written_log(&ends), Ok(expected.into()));
}

#[test]
fn logs_of_all_lengths_come_back() {
    let log = full_log();
    for orders in 0..=log.len() {
        let text = written_log(&log[..orders]).expect("a good log");
        assert_eq!(text, text_of(&log[..orders]));
        assert_eq!(read_file(text), Ok(log[..orders].to_vec()));
    }
}

#[test]
fn numbers_of_one_to_five_digits_come_back() {
    for number in [1, 9, 10, 99, 100, 999, 1_000, 9_999, 10_000, 65_535] {
        let log = [[number, 3, number]];
        let text = format!("{HEADER}{number},3,{number}\r\n");
        assert_eq!(written_log(&log), Ok(text.clone()));
        assert_eq!(read_file(text), Ok(log.to_vec()));
    }
}

#[test]
fn the_longest_text_has_1937_bytes() {
    let long = (0..128).map(|n| [10_000 + n, n % 8, 65_535]);
    let text = written_log(&long.collect::<Vec<_>>()).expect("a good log");
    assert_eq!(text.len(), 17 + 128 * 15);
}

#[test]
fn refusal_6_any_buffer_but_2048_bytes() {
    for length in [0, 1, 33, 1_937, 2_047, 2_049, 4_096, 65_536 + 2_048] {
        let mut buffer = vec![UNTOUCHED; length];
        // 6 comes before all that can be wrong with the log.
        for numbers in [
            &LOG.concat()[..],
            &[],
            &[0, 0, 0],
            &[1],
            &[2, 0, 0, 1, 0, 0],
        ] {
            assert_eq!(write(numbers, &mut buffer), Err(6), "{length} bytes");
        }
        assert!(buffer.iter().all(|&byte| byte == UNTOUCHED));
    }
    assert_eq!(BUFFER_LENGTH, 2_048);
}

#[test]
fn refusal_31_stamp_0_and_lane_over_7() {
    for bad in [[0, 0, 0], [0, 7, 1], [4, 8, 1]] {
        assert_eq!(written_log(&[bad]), Err(31));
        assert_eq!(written_log(&[LOG[0], LOG[1], bad]), Err(31));
    }
    for lane in [8, 9, 255, 256, 257, 263, 65_535] {
        assert_eq!(written_log(&[[1, lane, 1]]), Err(31), "lane {lane}");
    }
}

#[test]
fn refusal_31_a_last_record_of_one_or_two_numbers() {
    let log = full_log();
    for orders in [0, 1, 2, 127, 128] {
        for more in [1, 2] {
            let numbers = [&log[..orders].concat()[..], &[65_535, 0, 0][..more]].concat();
            assert_eq!(written(&numbers), Err(31), "{orders} orders and {more}");
        }
    }
}

#[test]
fn refusal_32_records_that_do_not_rise() {
    for bad in [[3, 1, 90], [3, 1, 91], [3, 0, 90], [2, 7, 90], [1, 0, 417]] {
        assert_eq!(written_log(&[LOG[0], LOG[1], bad]), Err(32), "{bad:?}");
    }
    // Of equal stamps the lanes rise.
    assert!(written_log(&[LOG[0], LOG[1], [3, 2, 0]]).is_ok());
    assert!(written_log(&[LOG[0], LOG[1], [4, 0, 0]]).is_ok());
}

#[test]
fn refusal_32_a_lane_s_17th_and_a_129th() {
    let of_one_lane: Vec<_> = (1..=17).map(|stamp| [stamp, 5, 0]).collect();
    assert!(written_log(&of_one_lane[..16]).is_ok());
    assert_eq!(written_log(&of_one_lane), Err(32));
    let mut log = full_log();
    log.push([17, 0, 0]);
    assert_eq!(written_log(&log), Err(32));
    // Within a record 31 comes first.
    log[128] = [17, 8, 0];
    assert_eq!(written_log(&log), Err(31));
    log[128] = [0, 0, 0];
    assert_eq!(written_log(&log), Err(31));
}

#[test]
fn the_first_bad_record_decides() {
    let good = LOG[1];
    let (falls, lane_8, stamp_0) = ([2, 0, 0], [9, 8, 0], [0, 0, 0]);
    assert_eq!(written_log(&[good, falls, lane_8]), Err(32));
    assert_eq!(written_log(&[good, lane_8, falls]), Err(31));
    assert_eq!(written_log(&[good, stamp_0, falls]), Err(31));
    let numbers = [good.to_vec(), falls.to_vec(), vec![9]].concat();
    assert_eq!(written(&numbers), Err(32));
    let huge = [9, 8, 0].repeat(70_000);
    assert_eq!(written(&huge), Err(31));
}
