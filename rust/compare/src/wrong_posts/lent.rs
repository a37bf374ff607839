//! Libraries that answer wrongly, or leave wrongly what was lent to them.

use super::{assert_library_noticed, assert_noticed};
use crate::answer::{Answer, Answered};
use crate::lent_record::Record;
use crate::library::Library;
use crate::patched::Patched;
use crate::request::{Ran, Request, Step};
use crate::second::Second;

/// Runs a request rightly, and then changes what came of it.
fn changed(change: impl Fn(&Request, Answered, &mut Ran)) -> impl Fn(&Request) -> Ran {
    move |request| {
        let mut ran = request.run(&Second);
        let outcome = request.outcome(&ran);
        change(request, outcome, &mut ran);
        ran
    }
}

#[test]
fn wrong_buffers_and_frames_are_noticed() {
    let refusal_writes = changed(|_, outcome, ran| {
        if let (Answer::Refused, Some(byte)) = (outcome.answer, ran.buffer.lent().first_mut()) {
            *byte ^= 1;
        }
    });
    assert_noticed("a refusal writes the buffer", refusal_writes);
    let no_broadcast_writes = changed(|_, outcome, ran| {
        if outcome.answer == Answer::Again {
            ran.buffer.lent()[31] ^= 1;
        }
    });
    assert_noticed("the buffer is written by again", no_broadcast_writes);
    let heard = changed(|_, outcome, ran| {
        if outcome.answer == Answer::BeaconHeard {
            ran.frame.lent().fill(0);
        }
    });
    assert_noticed("the frame heard is emptied", heard);
    let refused = changed(|_, outcome, ran| {
        if outcome.refusal == 11 {
            ran.frame.lent()[31] ^= 1;
        }
    });
    assert_noticed("a refused frame is changed", refused);
    let fixed = changed(|_, outcome, ran| {
        if outcome.answer == Answer::BeaconSent {
            ran.buffer.lent()[8..].fill(0);
        }
    });
    assert_noticed("every beacon is the same", fixed);
}

#[test]
fn writing_beside_what_is_lent_is_noticed() {
    let mut any = super::requests()[0].run(&Second);
    for at in 0..any.record.margins_mut().count() {
        let record = changed(|_, outcome, ran| {
            if outcome.answer == Answer::Taken {
                *ran.record.margins_mut().nth(at).expect("a number") ^= 0x100;
            }
        });
        assert_noticed(&format!("number {at} beside the record is written"), record);
    }
    for at in 0..any.frame.margins().count() {
        let frame = changed(|_, outcome, ran| {
            if outcome.answer == Answer::Early {
                *ran.frame.margins_mut().nth(at).expect("a byte") ^= 1;
            }
        });
        assert_noticed(&format!("byte {at} beside the frame is written"), frame);
        let buffer = changed(|_, outcome, ran| {
            if outcome.answer == Answer::OrderSent {
                *ran.buffer.margins_mut().nth(at).expect("a byte") ^= 1;
            }
        });
        assert_noticed(&format!("byte {at} beside the buffer is written"), buffer);
    }
}

/// The first bytes, by the lowest bits of their number.
fn lowest(bytes: &mut [u8], mask: usize) -> &mut [u8] {
    let length = bytes.len() & mask;
    &mut bytes[..length]
}

#[test]
fn lengths_that_are_cut_are_noticed() {
    for mask in [0xFF, 0xFFFF] {
        let frame = Patched {
            post_hear: Box::new(move |post, frame, buffer| {
                Second.post_hear(post, lowest(frame, mask), buffer)
            }),
            ..Patched::default()
        };
        assert_library_noticed(&format!("length of the frame & {mask}"), &frame);
        let order = Patched {
            post_order: Box::new(move |post, word, buffer| {
                Second.post_order(post, word, lowest(buffer, mask))
            }),
            ..Patched::default()
        };
        assert_library_noticed(&format!("buffer of an order & {mask}"), &order);
        let hear = Patched {
            post_hear: Box::new(move |post, frame, buffer| {
                Second.post_hear(post, frame, lowest(buffer, mask))
            }),
            ..Patched::default()
        };
        assert_library_noticed(&format!("buffer of a hearing & {mask}"), &hear);
        let beacon = Patched {
            post_beacon: Box::new(move |post, buffer| {
                Second.post_beacon(post, lowest(buffer, mask))
            }),
            ..Patched::default()
        };
        assert_library_noticed(&format!("buffer of a beacon & {mask}"), &beacon);
    }
}

#[test]
fn every_bit_of_an_answer_is_looked_at() {
    for bit in 0..64 {
        for (step, refusal) in [
            (Step::Order, 0),
            (Step::Order, 23),
            (Step::Hear, 0),
            (Step::Hear, 29),
        ] {
            let flipped = changed(|request, outcome, ran| {
                if request.step == step && outcome.refusal == refusal {
                    ran.answer ^= 1 << bit;
                }
            });
            assert_noticed(&format!("bit {bit} at {step:?} with {refusal}"), flipped);
        }
    }
    let short = changed(|_, _, ran| ran.answer &= 0xFFFF_FFFF);
    assert_noticed("the answer has 32 bits", short);
}

#[test]
fn wrong_answers_are_noticed() {
    let merely_again = Patched {
        post_hear: Box::new(|post, frame, buffer| {
            let (mut record, mut copy) = (*post, buffer.to_vec());
            match Second.post_hear(&mut record, frame, &mut copy) {
                refused @ 1..=255 => refused,
                _ => Answered::of(Answer::Again, 0).number(),
            }
        }),
        ..Patched::default()
    };
    assert_library_noticed("a hearing merely answers again", &merely_again);
    let no_count = changed(|_, _, ran| ran.answer &= !0xFF_0000);
    assert_noticed("the count is always 0", no_count);
    let whole_log = changed(|_, outcome, ran| {
        // Only an order or a hearing delivers.
        if outcome.count != 0 {
            let count = ran.record.record.logged;
            ran.answer = Answered { count, ..outcome }.number();
        }
    });
    assert_noticed("the count is the length of the log", whole_log);
}

#[test]
fn wrong_records_are_noticed() {
    let forgotten = changed(|_, outcome, ran| {
        if outcome.refusal == 29 {
            ran.record.record = Record::EMPTY;
        }
    });
    assert_noticed("a refusal empties the record", forgotten);
    let told = Patched {
        post_beacon: Box::new(|post, buffer| {
            let refusal = Second.post_beacon(post, buffer);
            if refusal == 0 {
                post.clock = post.clock.saturating_add(1);
            }
            refusal
        }),
        ..Patched::default()
    };
    assert_library_noticed("a beacon moves the clock", &told);
    let unstored = Patched {
        post_order: Box::new(|post, word, buffer| {
            Second.post_order(&mut post.clone(), word, buffer)
        }),
        ..Patched::default()
    };
    assert_library_noticed("the record after an order is not stored", &unstored);
}

type Fresh = fn(&mut Record, [u8; 4]) -> u8;

/// Wrong ways to make a fresh post.
const WRONG_FRESH: [(&str, Fresh); 6] = [
    ("a refused fresh post empties the record", |post, asked| {
        let refusal = Second.post_fresh(post, asked);
        if refusal != 0 {
            *post = Record::EMPTY;
        }
        refusal
    }),
    ("a refused fresh post has lane and sets", |post, asked| {
        let refusal = Second.post_fresh(post, asked);
        [post.lane, post.posts, post.sources, post.dests] = asked;
        refusal
    }),
    (
        "a fresh post keeps the log that stood there",
        |post, asked| {
            let log = post.log;
            let refusal = Second.post_fresh(post, asked);
            post.log = log;
            refusal
        },
    ),
    ("a fresh post keeps the clock", |post, asked| {
        let clock = post.clock;
        let refusal = Second.post_fresh(post, asked);
        post.clock = clock;
        refusal
    }),
    (
        "only a good record is made fresh",
        |post, asked| match beacon_is(post, 12) {
            true => 12,
            false => Second.post_fresh(post, asked),
        },
    ),
    (
        "a post of a yard is not made fresh",
        |post, asked| match beacon_is(post, 0) {
            true => 0,
            false => Second.post_fresh(post, asked),
        },
    ),
];

/// Whether a beacon of the post is answered by this number.
fn beacon_is(post: &Record, number: u8) -> bool {
    Second.post_beacon(&mut post.clone(), &mut [0; 32]) == number
}

#[test]
fn wrong_fresh_posts_are_noticed() {
    for (name, post_fresh) in WRONG_FRESH {
        let library = Patched {
            post_fresh: Box::new(post_fresh),
            ..Patched::default()
        };
        assert_library_noticed(name, &library);
    }
}
