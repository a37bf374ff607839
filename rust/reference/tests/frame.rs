//! Tests of the frame reader and writer against document 01.

use drift_reference::frame::{check, Entry, Frame, Serial, Stamp, BEACON, FRAME_LENGTH, ORDER};

type Bytes = [u8; FRAME_LENGTH];

/// P2: frame 4 of the printout in document 01.
const P2: Bytes = [
    0x01, 0x00, 0x01, 0x01, 0x00, 0x03, 0x00, 0x5A, 0x01, 0x00, 0x04, 0x01, 0x00, 0x03, 0, 0, 0, 0,
    0, 0, 0, 0, 0, 0, 0, 0, 0, 0, 0, 0, 0, 0,
];

/// What a buffer holds before a write.
const UNTOUCHED: u8 = 0xA5;

fn entry(serial: u8, stamp: u16) -> Entry {
    Entry {
        serial: Serial(serial),
        stamp: Stamp(stamp),
    }
}

fn p2_frame() -> Frame {
    let mut entries = [Entry::NONE; 8];
    entries[0] = entry(1, 4);
    entries[1] = entry(1, 3);
    Frame {
        kind: ORDER,
        sender: 0,
        lane: 1,
        serial: Serial(1),
        stamp: Stamp(3),
        word: 90,
        entries,
    }
}

/// A beacon of sender 5 that knows nothing.
fn beacon() -> Bytes {
    let mut bytes = [0; FRAME_LENGTH];
    bytes[0] = BEACON;
    bytes[1] = 5;
    bytes
}

/// The bytes with some positions changed.
fn with(mut bytes: Bytes, changes: &[(usize, u8)]) -> Bytes {
    for &(position, value) in changes {
        bytes[position] = value;
    }
    bytes
}

/// The fields of the bytes, taken without the reader and without judging them.
fn fields(bytes: &Bytes) -> Frame {
    let two = |at: usize| u16::from(bytes[at]) * 256 + u16::from(bytes[at + 1]);
    Frame {
        kind: bytes[0],
        sender: bytes[1],
        lane: bytes[2],
        serial: Serial(bytes[3]),
        stamp: Stamp(two(4)),
        word: two(6),
        entries: [8, 11, 14, 17, 20, 23, 26, 29].map(|at| entry(bytes[at], two(at + 1))),
    }
}

/// Reader, check and writer must all pass these bytes.
fn assert_good(bytes: Bytes) {
    let frame = fields(&bytes);
    assert_eq!(Frame::read(&bytes), Ok(frame), "reading {bytes:02X?}");
    assert_eq!(check(&bytes), 0, "checking {bytes:02X?}");
    let mut buffer = [UNTOUCHED; FRAME_LENGTH];
    assert_eq!(frame.write(&mut buffer), Ok(()), "writing {bytes:02X?}");
    assert_eq!(buffer, bytes, "written back");
}

/// Reader, check and writer must all refuse these bytes by `number`.
fn assert_refused(bytes: Bytes, number: u8) {
    assert_eq!(Frame::read(&bytes), Err(number), "reading {bytes:02X?}");
    assert_eq!(check(&bytes), number, "checking {bytes:02X?}");
    let mut buffer = [UNTOUCHED; FRAME_LENGTH];
    let written = fields(&bytes).write(&mut buffer);
    assert_eq!(written, Err(number), "writing {bytes:02X?}");
    assert_eq!(buffer, [UNTOUCHED; FRAME_LENGTH], "buffer of a refusal");
}

#[test]
fn p2_is_read_and_written() {
    assert_eq!(Frame::read(&P2), Ok(p2_frame()));
    let mut buffer = [UNTOUCHED; FRAME_LENGTH];
    assert_eq!(p2_frame().write(&mut buffer), Ok(()));
    assert_eq!(buffer, P2);
    assert_good(P2);
}

#[test]
fn p9_entry_with_serial_0_or_stamp_0() {
    assert_good(with(P2, &[(29, 0), (30, 0), (31, 1)]));
    assert_refused(with(P2, &[(29, 1), (30, 0), (31, 0)]), 11);
}

#[test]
fn refusal_6_any_length_but_32() {
    for length in (0..=64).filter(|&length| length != FRAME_LENGTH) {
        let bytes: Vec<u8> = P2.iter().copied().cycle().take(length).collect();
        assert_eq!(Frame::read(&bytes), Err(6), "reading {length} bytes");
        assert_eq!(check(&bytes), 6, "checking {length} bytes");
        let mut buffer = vec![UNTOUCHED; length];
        assert_eq!(p2_frame().write(&mut buffer), Err(6), "{length} bytes");
        assert!(buffer.iter().all(|&byte| byte == UNTOUCHED));
    }
}

#[test]
fn refusal_7_kind() {
    for kind in (0..=255).filter(|&kind| kind != ORDER && kind != BEACON) {
        assert_refused(with(P2, &[(0, kind)]), 7);
        assert_refused(with(beacon(), &[(0, kind)]), 7);
    }
}

#[test]
fn refusal_8_beacon_with_a_nonzero_byte() {
    assert_good(beacon());
    for position in 2..=7 {
        for value in [1, 16, 128, 255] {
            assert_refused(with(beacon(), &[(position, value)]), 8);
        }
    }
}

#[test]
fn refusal_9_lane_serial_and_stamp_of_an_order() {
    for lane in 0..=7 {
        assert_good(with(P2, &[(2, lane)]));
    }
    for lane in [8, 9, 128, 255] {
        assert_refused(with(P2, &[(2, lane)]), 9);
    }
    for serial in 1..=16 {
        assert_good(with(P2, &[(3, serial)]));
    }
    for serial in [0, 17, 128, 255] {
        assert_refused(with(P2, &[(3, serial)]), 9);
    }
    for stamp in [[0, 1], [0, 255], [1, 0], [255, 0], [255, 255]] {
        assert_good(with(P2, &[(4, stamp[0]), (5, stamp[1])]));
    }
    assert_refused(with(P2, &[(4, 0), (5, 0)]), 9);
}

#[test]
fn an_order_may_carry_any_word() {
    for word in [[0, 0], [0, 1], [1, 0], [255, 255]] {
        assert_good(with(P2, &[(6, word[0]), (7, word[1])]));
    }
}

#[test]
fn refusal_10_sender() {
    for start in [P2, beacon()] {
        for sender in 0..=7 {
            assert_good(with(start, &[(1, sender)]));
        }
        for sender in [8, 9, 128, 200, 255] {
            assert_refused(with(start, &[(1, sender)]), 10);
        }
    }
}

#[test]
fn refusal_11_entries_of_every_lane() {
    for start in [P2, beacon()] {
        for at in [8, 11, 14, 17, 20, 23, 26, 29] {
            let with_entry = |serial, high, low| {
                let changes = [(at, serial), (at + 1, high), (at + 2, low)];
                with(start, &changes)
            };
            assert_good(with_entry(0, 0, 0));
            for serial in [0, 1, 15, 16] {
                assert_good(with_entry(serial, 0, 1));
                assert_good(with_entry(serial, 1, 0));
                assert_good(with_entry(serial, 255, 255));
            }
            for serial in [1, 16, 17, 255] {
                assert_refused(with_entry(serial, 0, 0), 11);
            }
            for serial in [17, 18, 128, 255] {
                assert_refused(with_entry(serial, 0, 1), 11);
            }
        }
    }
}

#[test]
fn the_lowest_number_wins() {
    let bad_entry = (29, 17);
    let bad_sender = (1, 8);
    let bad_lane = (2, 8);
    let bad_kind = (0, 3);
    assert_refused(with(P2, &[bad_entry]), 11);
    assert_refused(with(P2, &[bad_entry, bad_sender]), 10);
    assert_refused(with(P2, &[bad_entry, bad_sender, bad_lane]), 9);
    assert_refused(with(P2, &[bad_entry, bad_sender, bad_lane, bad_kind]), 7);
    // Byte 2 makes a beacon bad by 8; for an order it would be the lane, 9.
    assert_refused(with(beacon(), &[bad_entry, bad_sender, bad_lane]), 8);
    assert_refused(with(beacon(), &[bad_entry, bad_sender]), 10);
    let all_bad = with(P2, &[bad_entry, bad_sender, bad_lane, bad_kind]);
    assert_eq!(Frame::read(&all_bad[..31]), Err(6));
    let mut short = [UNTOUCHED; 31];
    assert_eq!(fields(&all_bad).write(&mut short), Err(6));
    assert_eq!(short, [UNTOUCHED; 31]);
}
