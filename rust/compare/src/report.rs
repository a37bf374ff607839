//! A difference between two sides in readable words.

use crate::answer;
use crate::layout::{cells_of, row_field};
use crate::lent_record::post_of;
use crate::posts::Difference;
use crate::request::{Lent, Ran, Request, Step};
use crate::stretch::Stretch;
use drift_reference::post::Post;
use std::fmt::{Debug, Display, Write};

/// More fields than this that differ are only counted.
const PRINTED_FIELDS: usize = 24;

/// Of what is lent only this many bytes are printed.
const PRINTED_BYTES: usize = 64;

/// A field's name, and the second implementation's and the library's value of it.
pub type Differing = (String, u16, u16);

/// The request, both answers and the fields in which the two sides differ.
pub fn describe(difference: &Difference) -> String {
    let request = &difference.request;
    let mut text = format!("request {} (counted from 0)\n", difference.number);
    let mut line = |name: &str, value: &dyn Display| {
        text += &format!("{name:<22}{value}\n");
    };
    line("function", &request.step.function());
    describe_arguments(request, &mut line);
    describe_record(&request.post, &mut line);
    let step = request.step;
    line(
        "second implementation",
        &told(step, difference.reference.answer),
    );
    line("static library", &told(step, difference.library.answer));
    let fields = all_differing(&difference.reference, &difference.library);
    for told in differing_lines(&fields) {
        line("differs", &told);
    }
    text
}

/// The first fields that differ, each in a line, and how many more there are.
pub fn differing_lines(fields: &[Differing]) -> Vec<String> {
    let printed = fields.iter().take(PRINTED_FIELDS);
    let line = |(name, reference, library): &Differing| {
        format!("{name}: second implementation {reference}, static library {library}")
    };
    let mut lines: Vec<String> = printed.map(line).collect();
    if fields.len() > PRINTED_FIELDS {
        lines.push(format!("and {} fields more", fields.len() - PRINTED_FIELDS));
    }
    lines
}

/// What an answer tells.
fn told(step: Step, answer: u64) -> String {
    match step {
        Step::Fresh | Step::Beacon => format!("refusal {answer}"),
        Step::Order | Step::Hear => answer::told(answer),
    }
}

/// What is handed in beside the record.
fn describe_arguments(request: &Request, line: &mut impl FnMut(&str, &dyn Display)) {
    match request.step {
        Step::Fresh => {
            let [lane, posts, sources, dests] = request.asked;
            let sets = format!("posts {posts:08b}, sources {sources:08b}, dests {dests:08b}");
            line("asked for", &format!("lane {lane}, {sets}"));
            return;
        }
        Step::Order => line("word", &request.word),
        Step::Hear => line("frame", &lent(&request.frame)),
        Step::Beacon => {}
    }
    line("buffer", &lent(&request.buffer));
}

fn describe_record(post: &Post, line: &mut impl FnMut(&str, &dyn Display)) {
    line("lane", &post.lane);
    for (name, set) in [
        ("posts", post.posts),
        ("sources", post.sources),
        ("dests", post.dests),
    ] {
        line(name, &format!("{set:08b}"));
    }
    line("clock", &post.clock.0);
    line("own serial", &post.serial.0);
    line("last taken", &format!("{:?}", post.last));
    let known = |place: usize| match post.table[place] {
        0 => None,
        stamp => Some(format!("({} {} {stamp})", place / 17, place % 17)),
    };
    line("table (lane serial)", &joined((0..136).filter_map(known)));
    let order = |place: usize| match (post.stamps[place], post.words[place]) {
        (0, 0) => None,
        (stamp, word) => {
            let (lane, serial) = (place / 16, place % 16 + 1);
            Some(format!("({lane} {serial} {stamp} {word})"))
        }
    };
    line("orders", &joined((0..128).filter_map(order)));
    let used = post.log.iter().rposition(|&place| place != 0);
    let shown = used
        .map_or(0, |last| last + 1)
        .max(post.logged.min(128).into());
    let log = format!("{} of {:?}", post.logged, &post.log[..shown]);
    line("log", &log);
}

pub fn joined(items: impl Iterator<Item = String>) -> String {
    items.collect::<Vec<String>>().join(" ")
}

fn lent(lent: &Lent) -> String {
    let bytes: Vec<u8> = lent.bytes().take(PRINTED_BYTES).collect();
    format!("({} bytes) {}", lent.length, hex(&bytes))
}

pub fn hex(bytes: &[u8]) -> String {
    bytes.iter().fold(String::new(), |mut text, byte| {
        let space = if text.is_empty() { "" } else { " " };
        write!(text, "{space}{byte:02X}").expect("a string takes every text");
        text
    })
}

/// Names of the numbers that differ, with the second implementation's value first.
/// `name` gives that of the number at a place.
pub fn differing_fields<Number: Copy + Into<u16>>(
    reference: &[Number],
    library: &[Number],
    name: impl Fn(usize) -> String,
) -> Vec<Differing> {
    let values = reference.iter().zip(library).enumerate();
    let values = values.map(|(at, (&right, &wrong))| (at, right.into(), wrong.into()));
    let differing = values.filter(|(_, right, wrong)| right != wrong);
    differing
        .map(|(at, right, wrong)| (name(at), right, wrong))
        .collect()
}

/// All fields that differ: of the answer, of the record, of what stands beside it,
/// and of frame and buffer with what stands beside them.
fn all_differing(reference: &Ran, library: &Ran) -> Vec<Differing> {
    let [answer, other_answer] = [reference, library].map(|ran| ran.answer.to_le_bytes());
    let mut fields = differing_fields(&answer, &other_answer, answer_field);
    let [record, other_record] =
        [reference, library].map(|ran| cells_of(&post_of(&ran.record.record)));
    fields.extend(differing_fields(&record, &other_record, row_field));
    let [beside, other_beside] = [reference, library].map(|ran| ran.record.margins());
    let name = |at: usize| format!("byte {at} beside the record");
    fields.extend(differing_fields(&beside, &other_beside, name));
    let lent = [
        ("frame", &reference.frame, &library.frame),
        ("buffer", &reference.buffer, &library.buffer),
    ];
    for (what, reference, library) in lent {
        fields.extend(differing_lent("byte", what, reference, library));
    }
    fields
}

/// The numbers, or bytes, that differ in what was lent and beside it.
pub fn differing_lent<Number: Copy + Debug + Into<u16>>(
    number: &str,
    what: &str,
    reference: &Stretch<Number>,
    library: &Stretch<Number>,
) -> Vec<Differing> {
    let of = |at: usize| format!("{number} {at} of the {what}");
    let mut fields = differing_fields(reference.numbers(), library.numbers(), of);
    let [margins, others] =
        [reference, library].map(|lent| lent.margins().collect::<Vec<Number>>());
    let beside = |at: usize| format!("{number} {at} beside the {what}");
    fields.extend(differing_fields(&margins, &others, beside));
    fields
}

/// Name of a byte of an answer.
fn answer_field(at: usize) -> String {
    let name = match at {
        0 => "refusal",
        1 => "code",
        2 => "count",
        3 => "serial of the order",
        4 => "low byte of the order's stamp",
        5 => "high byte of the order's stamp",
        _ => return format!("byte {at} of the answer, which is always 0"),
    };
    name.into()
}

/// Lane and serial of a place, with so many serials in a lane.
pub fn lane_and_serial(place: usize, serials: usize, first: usize) -> String {
    let (lane, serial) = (place / serials, place % serials + first);
    format!("lane {lane}, serial {serial}")
}
