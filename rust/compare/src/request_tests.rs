//! Tests of single requests and of what is told of a difference.

use crate::lent_record::{post_of, record_of, LentRecord, Record};
use crate::library::{Library, Proved};
use crate::posts::{Difference, Requests};
use crate::report::describe;
use crate::request::{Lent, Ran, Request, Step, AREA_LENGTH};
use crate::second::Second;
use crate::stretch::Stretch;

/// Stands in the buffer and beside all that is lent.
const MARGIN: u8 = 0xA5;

/// Frame 2 of the printout in document 01: post 1 sends the order with word 90.
const FRAME_2: [u8; 14] = [1, 1, 1, 1, 0, 3, 0, 90, 1, 0, 1, 1, 0, 3];
/// P2 of document 01: post 0 passes that order on.
const FRAME_4: [u8; 14] = [1, 0, 1, 1, 0, 3, 0, 0x5A, 1, 0, 4, 1, 0, 3];

/// An area that begins with these bytes; of a frame 32 are lent.
fn area(start: &[u8], rest: u8) -> Lent {
    let mut area = [rest; AREA_LENGTH];
    area[..start.len()].copy_from_slice(start);
    Lent { length: 32, area }
}

fn frame(start: &[u8]) -> Stretch<u8> {
    Stretch::new(area(start, 0).bytes(), MARGIN)
}

/// Post 0, which has sent (1 0 417).
fn record() -> Record {
    let mut record = Record {
        posts: 0b111,
        sources: 0b011,
        dests: 0b101,
        clock: 1,
        serial: 1,
        ..Record::EMPTY
    };
    record.last[0] = 1;
    record.table[1] = 1;
    (record.stamps[0], record.words[0]) = (1, 417);
    record
}

/// It hears frame 2.
fn hearing() -> Request {
    Request {
        step: Step::Hear,
        asked: [0; 4],
        word: 0xEEEE,
        frame: area(&FRAME_2, 0),
        buffer: area(&[], MARGIN),
        post: post_of(&record()),
        margin: MARGIN,
    }
}

/// What a step leaves that answers so and leaves all that is lent.
fn unchanged(request: &Request, answer: u64) -> Ran {
    let lent = |lent: &Lent| Stretch::new(lent.bytes(), MARGIN);
    Ran {
        answer,
        record: LentRecord::new(record_of(&request.post), MARGIN),
        frame: lent(&request.frame),
        buffer: lent(&request.buffer),
    }
}

/// Taken: clock 4, both orders logged, frame 4 in the buffer.
fn heard() -> Ran {
    let (count, code) = (2, 2);
    let mut ran = unchanged(&hearing(), count << 16 | code << 8);
    let record = &mut ran.record.record;
    record.clock = 4;
    record.last[1] = 1;
    (record.table[1], record.table[18]) = (4, 3);
    (record.stamps[16], record.words[16]) = (3, 90);
    (record.log[1], record.logged) = (16, 2);
    ran.buffer = frame(&FRAME_4);
    ran
}

/// Both the second implementation and the static library run it so.
fn assert_runs(request: &Request, expected: &Ran) {
    let libraries: [&dyn Library; 2] = [&Second, &Proved];
    for library in libraries {
        assert_eq!(request.run(library), *expected);
    }
}

#[test]
fn a_hearing_is_answered_number_for_number() {
    assert_runs(&hearing(), &heard());
}

#[test]
fn a_refusal_changes_nothing_that_is_lent() {
    let mut request = hearing();
    request.frame.area[1] = 0;
    assert_runs(&request, &unchanged(&request, 26));
    for length in [0, 31, 33, 64, 288, 65_568] {
        let mut request = hearing();
        request.frame.length = length;
        assert_runs(&request, &unchanged(&request, 6));
        let mut request = hearing();
        request.buffer.length = length;
        assert_runs(&request, &unchanged(&request, 6));
    }
}

#[test]
fn an_order_and_a_beacon_are_answered_number_for_number() {
    let mut request = hearing();
    (request.step, request.word) = (Step::Order, 0x1234);
    let (stamp, serial, code) = (2, 2, 1);
    let mut expected = unchanged(&request, stamp << 32 | serial << 24 | code << 8);
    let record = &mut expected.record.record;
    (record.clock, record.serial) = (2, 2);
    (record.last[0], record.table[2]) = (2, 2);
    (record.stamps[1], record.words[1]) = (2, 0x1234);
    expected.buffer = frame(&[1, 0, 0, 2, 0, 2, 0x12, 0x34, 2, 0, 2]);
    assert_runs(&request, &expected);

    request.step = Step::Beacon;
    let mut expected = unchanged(&request, 0);
    expected.buffer = frame(&[2, 0, 0, 0, 0, 0, 0, 0, 1, 0, 1]);
    assert_runs(&request, &expected);
}

#[test]
fn a_fresh_post_is_made_of_four_numbers_or_leaves_the_record() {
    let mut request = hearing();
    (request.step, request.asked) = (Step::Fresh, [6, 0x41, 0x40, 0x01]);
    let mut expected = unchanged(&request, 0);
    expected.record.record = Record {
        lane: 6,
        posts: 0x41,
        sources: 0x40,
        dests: 0x01,
        ..Record::EMPTY
    };
    assert_runs(&request, &expected);
    for (at, number, refusal) in [(0, 8, 12), (2, 0x80, 12), (0, 1, 21)] {
        let mut request = request.clone();
        request.asked[at] = number;
        assert_runs(&request, &unchanged(&request, refusal));
    }
}

type Change = fn(&mut Ran);

/// Changes of what a hearing left, and how the difference is told.
const CHANGES: [(Change, &str); 17] = [
    (
        |ran| ran.answer ^= 0x1100,
        "code: second implementation 2, static library 19",
    ),
    (
        |ran| ran.answer ^= 0x11 << 40,
        "high byte of the order's stamp",
    ),
    (
        |ran| ran.answer ^= 1 << 63,
        "byte 7 of the answer, which is always 0",
    ),
    (|ran| ran.frame.lent()[31] ^= 1, "byte 31 of the frame"),
    (
        |ran| *ran.frame.margins_mut().last().unwrap() = 0,
        "byte 81 beside the frame",
    ),
    (|ran| ran.buffer.lent()[0] ^= 1, "byte 0 of the buffer"),
    (
        |ran| *ran.buffer.margins_mut().next().unwrap() = 0,
        "byte 0 beside the buffer",
    ),
    (
        |ran| *ran.record.margins_mut().last().unwrap() ^= 1,
        " beside the record",
    ),
    (|ran| ran.record.record.dests ^= 1, "dests"),
    (
        |ran| ran.record.record.clock ^= 0x11,
        "clock: second implementation 4, static library 21",
    ),
    (|ran| ran.record.record.serial ^= 1, "own serial"),
    (|ran| ran.record.record.last[7] ^= 1, "last taken of lane 7"),
    (
        |ran| ran.record.record.table[135] ^= 1,
        "table at lane 7, serial 16",
    ),
    (
        |ran| ran.record.record.stamps[0] ^= 0x100,
        "stamp of lane 0, serial 1",
    ),
    (
        |ran| ran.record.record.words[127] ^= 1,
        "word of lane 7, serial 16",
    ),
    (
        |ran| ran.record.record.log[1] ^= 0x11,
        "log at 1: second implementation 16, static library 1",
    ),
    (
        |ran| ran.record.record.logged ^= 0x11,
        "length of the log: second implementation 2, static library 19",
    ),
];

fn told(change: Change) -> String {
    let mut library = heard();
    change(&mut library);
    describe(&Difference {
        number: 7,
        request: hearing(),
        reference: heard(),
        library,
    })
}

#[test]
fn a_difference_names_its_fields() {
    for (change, expected) in CHANGES {
        let text = told(change);
        let lines: Vec<&str> = text
            .lines()
            .filter(|line| line.starts_with("differs"))
            .collect();
        assert_eq!(lines.len(), 1, "{text}");
        assert!(lines[0].contains(expected), "{text}");
    }
    let text = told(|ran| ran.answer ^= 0x11_0000);
    for part in [
        "request 7 (counted from 0)",
        "function              drift_post_hear",
        "frame                 (32 bytes) 01 01 01 01 00 03",
        "orders                (0 1 1 417)",
        "static library        taken, refusal 0, count 19, serial 0, stamp 0",
    ] {
        assert!(text.contains(part), "{part}\n{text}");
    }
}

#[test]
fn a_difference_of_a_fresh_post_tells_what_was_asked_for() {
    let request = Request {
        step: Step::Fresh,
        asked: [1, 3, 2, 4],
        ..hearing()
    };
    let (reference, library) = (unchanged(&request, 12), unchanged(&request, 0));
    let text = describe(&Difference {
        number: 0,
        request,
        reference,
        library,
    });
    for part in [
        "asked for             lane 1, posts 00000011, sources 00000010, dests 00000100",
        "second implementation refusal 12\nstatic library        refusal 0\n",
        "differs               refusal: second implementation 12, static library 0",
    ] {
        assert!(text.contains(part), "{part}\n{text}");
    }
}

#[test]
fn a_record_comes_back_from_the_second_implementation() {
    for request in Requests::new(3).take(2000) {
        assert_eq!(post_of(&record_of(&request.post)), request.post);
    }
}

/// A host may lend a record at any even address.
#[test]
fn a_record_is_lent_at_an_address_that_is_only_even() {
    let lent = LentRecord::new(record(), MARGIN);
    let address = std::ptr::from_ref(&lent.record).addr();
    assert_eq!(address % 4, 2);
}
