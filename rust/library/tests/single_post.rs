//! Single posts on records lent to the static library, as a host would run them.

use drift_library::{Heard, Order, Post, Sent, FRAME_LENGTH};

type Frame = [u8; FRAME_LENGTH];

/// Bytes that no frame has, to see whether a buffer was written.
const UNTOUCHED: Frame = [0xA5; FRAME_LENGTH];

/// Posts 0, 1 and 2 of document 01: both, source, dest.
fn yard() -> [Post; 3] {
    [0, 1, 2].map(|lane| Post::fresh(lane, 0b111, 0b011, 0b101).expect("a post of the yard"))
}

/// A frame of these bytes, and zeros after them.
fn frame(start: &[u8]) -> Frame {
    let mut bytes = [0; FRAME_LENGTH];
    bytes[..start.len()].copy_from_slice(start);
    bytes
}

/// Sends an order that delivers nothing; gives its frame.
fn ordered(post: &mut Post, word: u16, serial: u8, stamp: u16) -> Frame {
    let mut buffer = UNTOUCHED;
    let sent = Sent {
        serial,
        stamp,
        delivered: 0,
    };
    assert_eq!(post.order(word, &mut buffer), Ok(sent));
    buffer
}

/// Hears a frame that is to be answered so; gives the buffer after that.
fn heard(post: &mut Post, frame: &Frame, expected: Heard) -> Frame {
    let mut buffer = UNTOUCHED;
    assert_eq!(post.hear(frame, &mut buffer), Ok(expected));
    buffer
}

/// The log as document 01 prints it: stamp, lane, word.
fn log(post: &Post) -> Vec<(u16, u8, u16)> {
    let orders = post.logged_orders();
    orders
        .map(|order| (order.stamp, order.lane, order.word))
        .collect()
}

#[test]
fn the_posts_of_document_01_run_singly() {
    let [mut both, mut source, mut dest] = yard();
    let frame_0 = ordered(&mut both, 417, 1, 1);
    assert_eq!(frame_0, frame(&[1, 0, 0, 1, 0, 1, 1, 161, 1, 0, 1]));
    let frame_1 = heard(&mut source, &frame_0, Heard::Taken(0));
    let frame_2 = ordered(&mut source, 90, 1, 3);
    let frame_3 = heard(&mut dest, &frame_1, Heard::Taken(1));
    assert_eq!(frame_3[..6], [1, 2, 0, 1, 0, 1]);
    let frame_4 = heard(&mut both, &frame_2, Heard::Taken(2));
    // P2 of the bench.
    let expected = [1, 0, 1, 1, 0, 3, 0, 0x5A, 1, 0, 4, 1, 0, 3];
    assert_eq!(frame_4, frame(&expected));
    assert_eq!([both.clock, source.clock, dest.clock], [4, 3, 0]);
    assert_eq!([both.serial, source.serial, dest.serial], [1, 1, 0]);
    assert_eq!(log(&both), [(1, 0, 417), (3, 1, 90)]);
    assert_eq!(log(&source), []);
    assert_eq!(log(&dest), [(1, 0, 417)]);
}

#[test]
fn hearings_without_a_broadcast_leave_the_buffer() {
    let [mut both, mut source, mut dest] = yard();
    let first = ordered(&mut both, 1, 1, 1);
    let second = ordered(&mut both, 2, 2, 2);
    // P8: serial 2 before serial 1; P7: a frame heard twice.
    assert_eq!(heard(&mut source, &second, Heard::Early(0)), UNTOUCHED);
    heard(&mut source, &first, Heard::Taken(0));
    let clock = source.clock;
    assert_eq!(heard(&mut source, &first, Heard::Again(0)), UNTOUCHED);
    assert_eq!(source.clock, clock);
    heard(&mut dest, &first, Heard::Taken(0));
    // The beacon tells that post 1, too, is past stamp 1, so that the order is ready.
    let mut beacon = UNTOUCHED;
    let before = source;
    assert_eq!(source.beacon(&mut beacon), Ok(()));
    assert_eq!(source, before);
    assert_eq!(beacon[..8], [2, 1, 0, 0, 0, 0, 0, 0]);
    assert_eq!(heard(&mut dest, &beacon, Heard::Beacon(1)), UNTOUCHED);
    assert_eq!(log(&dest), [(1, 0, 1)]);
}

#[test]
fn a_refused_frame_leaves_record_and_buffer() {
    let [mut both, mut source, _] = yard();
    let own = ordered(&mut both, 417, 1, 1);
    let other = ordered(&mut source, 90, 1, 1);
    let mut damaged = other;
    damaged[0] = 3;
    let refused: [(&[u8], usize, u8); 6] = [
        (&other[..31], 32, 6),
        (&[], 32, 6),
        (&other, 31, 6),
        (&other, 0, 6),
        (&damaged, 32, 7),
        (&own, 32, 26),
    ];
    for (frame, length, number) in refused {
        let (mut post, mut buffer) = (both, UNTOUCHED);
        assert_eq!(post.hear(frame, &mut buffer[..length]), Err(number));
        assert_eq!((post, buffer), (both, UNTOUCHED));
    }
}

#[test]
fn refused_orders_and_beacons_leave_record_and_buffer() {
    let [both, source, dest] = yard();
    let mut spent = both;
    spent.clock = 65_535;
    let mut stray = source;
    (stray.posts, stray.sources) = (0b101, 0b001);
    for (before, length, number) in [
        (both, 33, 6),
        (stray, 32, 21),
        (dest, 32, 22),
        (spent, 32, 24),
    ] {
        let (mut post, mut buffer) = (before, [0xA5; 33]);
        assert_eq!(post.order(5, &mut buffer[..length]), Err(number));
        assert_eq!((post, buffer), (before, [0xA5; 33]));
        if number < 22 {
            assert_eq!(post.beacon(&mut buffer[..length]), Err(number));
            assert_eq!(buffer, [0xA5; 33]);
        }
    }
}

#[test]
fn a_bad_record_is_refused_by_12() {
    let [good, mut source, _] = yard();
    let frame = ordered(&mut source, 90, 1, 1);
    let breaks: [fn(&mut Post); 6] = [
        |post| post.lane = 8,
        |post| post.last[3] = 17,
        |post| post.dests |= 0b1000,
        |post| post.serial = 1,
        |post| post.words[127] = 1,
        |post| post.logged = 1,
    ];
    for break_record in breaks {
        let mut bad = good;
        break_record(&mut bad);
        let (mut post, mut buffer) = (bad, UNTOUCHED);
        assert_eq!(post.order(5, &mut buffer), Err(12));
        assert_eq!(post.hear(&frame, &mut buffer), Err(12));
        assert_eq!(post.beacon(&mut buffer), Err(12));
        assert_eq!((post, buffer), (bad, UNTOUCHED));
    }
    assert_eq!(Post::EMPTY.beacon(&mut [0; FRAME_LENGTH]), Err(21));
}

#[test]
fn a_fresh_post_is_made_or_refused() {
    let expected = Post {
        lane: 6,
        posts: 0x41,
        sources: 0x40,
        dests: 0x01,
        ..Post::EMPTY
    };
    assert_eq!(Post::fresh(6, 0x41, 0x40, 0x01), Ok(expected));
    assert_eq!(Post::fresh(8, 0x41, 0x40, 0x01), Err(12));
    assert_eq!(Post::fresh(6, 0x41, 0x80, 0x01), Err(12));
    assert_eq!(Post::fresh(1, 0x41, 0x40, 0x01), Err(21));
}

#[test]
fn the_log_of_any_record_can_be_read() {
    let mut post = Post::EMPTY;
    (post.stamps[127], post.words[127]) = (9, 8);
    post.log[..3].copy_from_slice(&[127, 128, 255]);
    post.logged = 3;
    let last = Order {
        lane: 7,
        serial: 16,
        stamp: 9,
        word: 8,
    };
    assert_eq!(post.logged_orders().collect::<Vec<Order>>(), [last]);
    post.logged = 255;
    assert_eq!(post.logged_orders().count(), 126);
    post.log = [255; 128];
    assert_eq!(post.logged_orders().count(), 0);
}
