//! Tests of the post run singly against document 01.

mod deliver;
mod hear;
mod precedence;
mod record;
mod refusals;
mod story;

use drift_reference::frame::{Entry, Frame, Serial, Stamp, BEACON, FRAME_LENGTH, LANES, ORDER};
use drift_reference::post::{HearAnswer, OrderAnswer, Post};

type Bytes = [u8; FRAME_LENGTH];

/// What a buffer holds before a step.
const UNTOUCHED: Bytes = [0xA5; FRAME_LENGTH];

/// A post of the yard in document 01: 0 both, 1 source, 2 dest.
fn post_of_yard(lane: u8) -> Post {
    Post::fresh(lane, 0b111, 0b011, 0b101).expect("a lane of the yard")
}

/// Post 0 after the six lines of the script: clock 4, both orders taken and logged.
fn post_with_both_orders() -> Post {
    let mut post = post_of_yard(0);
    order(&mut post, 417);
    let entries = [(0, 1, 1), (1, 1, 3)];
    hear(&mut post, &order_frame(1, (1, 1, 3, 90), &entries));
    assert_eq!(logged(&post), [(1, 0, 417), (3, 1, 90)]);
    post
}

/// Sends an order that must not be refused; gives the answer and the broadcast.
fn order(post: &mut Post, word: u16) -> (OrderAnswer, Bytes) {
    let mut buffer = UNTOUCHED;
    let answer = post.order(word, &mut buffer).expect("the order is sent");
    (answer, buffer)
}

/// Hears a frame that must not be refused; gives the answer and the buffer.
fn hear(post: &mut Post, frame: &Bytes) -> (HearAnswer, Bytes) {
    let mut buffer = UNTOUCHED;
    let answer = post.hear(frame, &mut buffer).expect("the frame is heard");
    if !matches!(answer, HearAnswer::Taken(_)) {
        assert_eq!(buffer, UNTOUCHED, "the buffer without a broadcast");
    }
    (answer, buffer)
}

/// Sends a beacon that must not be refused; gives the broadcast.
fn beacon(post: &Post) -> Bytes {
    let mut buffer = UNTOUCHED;
    assert_eq!(post.beacon(&mut buffer), Ok(()));
    buffer
}

/// The log as it is printed: stamp, lane, word.
fn logged(post: &Post) -> Vec<(u16, u8, u16)> {
    let items = &post.log[..usize::from(post.logged)];
    let item = |&place: &u8| {
        let at = usize::from(place);
        (post.stamps[at], place / 16, post.words[at])
    };
    items.iter().map(item).collect()
}

/// An order frame: sender, then lane, serial, stamp and word, then some entries.
fn order_frame(sender: u8, order: (u8, u8, u16, u16), entries: &[(u8, u8, u16)]) -> Bytes {
    let (lane, serial, stamp, word) = order;
    bytes_of(Frame {
        kind: ORDER,
        sender,
        lane,
        serial: Serial(serial),
        stamp: Stamp(stamp),
        word,
        entries: entries_of(entries),
    })
}

fn beacon_frame(sender: u8, entries: &[(u8, u8, u16)]) -> Bytes {
    bytes_of(Frame {
        kind: BEACON,
        sender,
        lane: 0,
        serial: Serial(0),
        stamp: Stamp(0),
        word: 0,
        entries: entries_of(entries),
    })
}

/// Each item is lane, serial, stamp; the other lanes have none.
fn entries_of(items: &[(u8, u8, u16)]) -> [Entry; LANES] {
    let mut entries = [Entry::NONE; LANES];
    for &(lane, serial, stamp) in items {
        entries[usize::from(lane)] = Entry {
            serial: Serial(serial),
            stamp: Stamp(stamp),
        };
    }
    entries
}

fn bytes_of(frame: Frame) -> Bytes {
    let mut bytes = UNTOUCHED;
    frame.write(&mut bytes).expect("a good frame");
    bytes
}

/// The order must be refused, and post and buffer stay as they were.
fn assert_order_refused(post: &Post, length: usize, number: u8) {
    let mut after = post.clone();
    let mut buffer = vec![0xA5; length];
    assert_eq!(after.order(7, &mut buffer), Err(number), "order");
    assert_eq!(&after, post, "post of a refused order");
    assert_eq!(buffer, vec![0xA5; length], "buffer of a refused order");
}

/// The hearing must be refused, and post and buffer stay as they were.
fn assert_hear_refused(post: &Post, frame: &[u8], length: usize, number: u8) {
    let mut after = post.clone();
    let mut buffer = vec![0xA5; length];
    let answer = after.hear(frame, &mut buffer);
    assert_eq!(answer, Err(number), "hearing {frame:02X?}");
    assert_eq!(&after, post, "post of a refused hearing");
    assert_eq!(buffer, vec![0xA5; length], "buffer of a refused hearing");
}

/// The beacon must be refused, and the buffer stays as it was.
fn assert_beacon_refused(post: &Post, length: usize, number: u8) {
    let mut buffer = vec![0xA5; length];
    assert_eq!(post.beacon(&mut buffer), Err(number), "beacon");
    assert_eq!(buffer, vec![0xA5; length], "buffer of a refused beacon");
}
