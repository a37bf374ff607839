//! A post's record as it is lent to the static library, and the same record as
//! the second implementation has it: neither of the two knows the other.

#![forbid(unsafe_code)]

use drift_reference::frame::{Serial, Stamp};
use drift_reference::post::Post;

pub use drift_library::Post as Record;

/// The record that is lent for a post of the second implementation.
pub fn record_of(post: &Post) -> Record {
    Record {
        lane: post.lane,
        posts: post.posts,
        sources: post.sources,
        dests: post.dests,
        clock: post.clock.0,
        serial: post.serial.0,
        logged: post.logged,
        last: post.last,
        table: post.table,
        stamps: post.stamps,
        words: post.words,
        log: post.log,
    }
}

/// The post of the second implementation that has the numbers of a record.
pub fn post_of(record: &Record) -> Post {
    Post {
        lane: record.lane,
        posts: record.posts,
        sources: record.sources,
        dests: record.dests,
        clock: Stamp(record.clock),
        serial: Serial(record.serial),
        last: record.last,
        table: record.table,
        stamps: record.stamps,
        words: record.words,
        log: record.log,
        logged: record.logged,
    }
}
