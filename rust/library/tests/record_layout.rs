//! A post's record stands in memory in C as it does in Rust: `c/record_layout.c`
//! is compiled and run, and what it prints is compared with `drift_library::Post`.

mod c_layout;

use c_layout::{parts_in_c, Part};
use drift_library::Post;
use std::mem::{align_of, offset_of, size_of};

/// What `c/drift.h` says, the whole record first.
const DOCUMENTED: [(&str, usize, usize); 13] = [
    ("post", 0, 928),
    ("lane", 0, 1),
    ("posts", 1, 1),
    ("sources", 2, 1),
    ("dests", 3, 1),
    ("clock", 4, 2),
    ("serial", 6, 1),
    ("logged", 7, 1),
    ("last", 8, 8),
    ("table", 16, 272),
    ("stamps", 288, 256),
    ("words", 544, 256),
    ("log", 800, 128),
];

/// The record and the named fields, as Rust has them. A field of `Post` that is
/// not named does not compile.
macro_rules! places_of_post {
    ($($field:ident),*) => {{
        let _all_are_named = |post: Post| {
            let Post { $($field: _),* } = post;
        };
        vec![
            ("post".to_string(), 0, size_of::<Post>()),
            $((
                stringify!($field).to_string(),
                offset_of!(Post, $field),
                size_of_field(|post| &post.$field),
            )),*
        ]
    }};
}

fn size_of_field<Field>(_: fn(&Post) -> &Field) -> usize {
    size_of::<Field>()
}

fn places_in_rust() -> Vec<Part> {
    places_of_post!(
        lane, posts, sources, dests, clock, serial, logged, last, table, stamps, words, log
    )
}

#[test]
fn every_field_stands_in_c_as_in_rust() {
    assert_eq!(parts_in_c("record_layout"), places_in_rust());
}

#[test]
fn every_field_stands_where_it_is_documented() {
    let documented = DOCUMENTED.map(|(name, offset, size)| (name.to_string(), offset, size));
    assert_eq!(places_in_rust(), documented);
    assert_eq!(align_of::<Post>(), 2);
}

/// So no field is missing: it would leave bytes that no field has.
#[test]
fn the_fields_fill_the_record_without_a_gap() {
    let places = places_in_rust();
    let mut end = 0;
    for (name, offset, size) in &places[1..] {
        assert_eq!(*offset, end, "{name}");
        end += size;
    }
    assert_eq!(end, places[0].2);
}
