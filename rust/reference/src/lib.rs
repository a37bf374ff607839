//! Second implementation of "DRIFT in an eight-lane yard" (document 01) and of two
//! requests of document 02: K1, delivery logs as comma-separated files, and K2,
//! beacons counted for each post.
//!
//! It is written from the documents and the way they are read (docs/DECISIONS.md),
//! not from the proved crates, so that comparing the two can find a misreading
//! in either.

#![forbid(unsafe_code)]

pub mod csv;
pub mod frame;
pub mod post;
pub mod script;
mod text;
pub mod yard;
