//! The printout, written to the beginning of lent bytes.

use super::{Bad, OUTPUT_LENGTH};
use crate::post::{holds, Post};
use crate::text::put_before;
use crate::yard::Yard;

pub(super) struct Printout<'a> {
    output: &'a mut [u8; OUTPUT_LENGTH],
    length: usize,
}

impl<'a> Printout<'a> {
    pub(super) fn new(output: &'a mut [u8; OUTPUT_LENGTH]) -> Printout<'a> {
        Printout { output, length: 0 }
    }

    /// How many bytes have been written.
    pub(super) fn length(&self) -> usize {
        self.length
    }

    /// The only line of a script refused by 1 to 5.
    pub(super) fn bad(&mut self, bad: Bad) {
        self.line_and_number("(bad ", bad.line, bad.number);
    }

    /// A refused step.
    pub(super) fn refused(&mut self, line: u32, number: u8) {
        self.line_and_number("(refused ", line, number);
    }

    /// A line for each post, lanes rising.
    pub(super) fn posts(&mut self, yard: &Yard) {
        for post in &yard.posts {
            if holds(yard.present, post.lane) {
                self.post(post);
            }
        }
    }

    fn post(&mut self, post: &Post) {
        self.text("(post ");
        self.number(post.lane.into());
        self.text(" (clock ");
        self.number(post.clock.0.into());
        self.text(") (sent ");
        self.number(post.serial.0.into());
        self.text(") (log");
        for (stamp, lane, word) in post.logged_orders() {
            self.text(" (");
            self.number(stamp.0.into());
            self.text(" ");
            self.number(lane.into());
            self.text(" ");
            self.number(word.into());
            self.text(")");
        }
        self.text("))\n");
    }

    fn line_and_number(&mut self, start: &str, line: u32, number: u8) {
        self.text(start);
        self.number(line);
        self.text(" ");
        self.number(number.into());
        self.text(")\n");
    }

    fn text(&mut self, text: &str) {
        self.bytes(text.as_bytes());
    }

    fn number(&mut self, number: u32) {
        // A number of 32 bits has at most ten digits.
        let mut digits = [0; 10];
        let start = put_before(&mut digits, 10, number);
        self.bytes(&digits[start..]);
    }

    fn bytes(&mut self, bytes: &[u8]) {
        let end = self.length + bytes.len();
        self.output[self.length..end].copy_from_slice(bytes);
        self.length = end;
    }
}
