//! One line of a script: its form and the numbers in it.

use crate::frame::LANES;
use crate::yard::{Yard, BAD_LANE, BAD_WORD, BAD_YARD};

/// The most digits of a number.
const MOST_DIGITS: usize = 5;

/// The names of the roles, and whether each is source and dest.
const ROLES: [(&[u8], bool, bool); 4] = [
    (b"source", true, false),
    (b"dest", false, true),
    (b"both", true, true),
    (b"relay", false, false),
];

/// A well-formed line. Its numbers may still be too large.
#[derive(Clone, Copy)]
pub(super) enum Form {
    Yard(YardForm),
    Step(Step),
}

/// A step with its arguments.
#[derive(Clone, Copy)]
pub(super) enum Step {
    Order { lane: usize, word: usize },
    Hear { lane: usize, frame: usize },
    Beacon { lane: usize },
    Roll,
}

/// The posts and roles of a yard line, unless its lanes are bad.
#[derive(Clone, Copy)]
pub(super) struct YardForm {
    present: u8,
    sources: u8,
    dests: u8,
    lanes_are_good: bool,
}

impl Form {
    /// Reads a line without its line feed; None if it has no form.
    pub(super) fn read(line: &[u8]) -> Option<Form> {
        let inside = line.strip_prefix(b"(")?.strip_suffix(b")")?;
        let name_end = inside.iter().position(|&byte| byte == b' ');
        let (name, items) = inside.split_at(name_end.unwrap_or(inside.len()));
        let mut items = Items(items);
        let step = match name {
            b"yard" => return items.yard().map(Form::Yard),
            b"order" => Step::Order {
                lane: items.number()?,
                word: items.number()?,
            },
            b"hear" => Step::Hear {
                lane: items.number()?,
                frame: items.number()?,
            },
            b"beacon" => Step::Beacon {
                lane: items.number()?,
            },
            b"roll" => Step::Roll,
            _ => return None,
        };
        items.0.is_empty().then_some(Form::Step(step))
    }
}

impl Step {
    /// Refusals 4 and 5.
    pub(super) fn judge(self) -> Result<(), u8> {
        let (lane, word) = match self {
            Step::Order { lane, word } => (lane, word),
            Step::Hear { lane, .. } | Step::Beacon { lane } => (lane, 0),
            Step::Roll => (0, 0),
        };
        if lane >= LANES {
            return Err(BAD_LANE);
        }
        if word > usize::from(u16::MAX) {
            return Err(BAD_WORD);
        }
        Ok(())
    }
}

impl YardForm {
    /// The fresh yard, or refusal 3.
    pub(super) fn yard(self) -> Result<Yard, u8> {
        if !self.lanes_are_good {
            return Err(BAD_YARD);
        }
        Yard::fresh(self.present, self.sources, self.dests)
    }

    /// A further post; its lane must be at most 7 and above those before.
    fn add(&mut self, lane: usize, source: bool, dest: bool) {
        if lane >= LANES || self.present >> lane != 0 {
            self.lanes_are_good = false;
            return;
        }
        self.present |= 1 << lane;
        self.sources |= u8::from(source) << lane;
        self.dests |= u8::from(dest) << lane;
    }
}

/// What is left of a form's items, each of them after one space.
struct Items<'a>(&'a [u8]);

impl Items<'_> {
    /// The posts of a yard, up to the end.
    fn yard(&mut self) -> Option<YardForm> {
        let mut yard = YardForm {
            present: 0,
            sources: 0,
            dests: 0,
            lanes_are_good: true,
        };
        while !self.0.is_empty() {
            self.text(b" (")?;
            let lane = self.digits()?;
            self.text(b" ")?;
            let (source, dest) = self.role()?;
            self.text(b")")?;
            yard.add(lane, source, dest);
        }
        Some(yard)
    }

    /// Whether the role that comes next is source and dest.
    fn role(&mut self) -> Option<(bool, bool)> {
        let mut roles = ROLES.iter();
        let &(_, source, dest) = roles.find(|(name, ..)| self.text(name).is_some())?;
        Some((source, dest))
    }

    /// The number that is the next item.
    fn number(&mut self) -> Option<usize> {
        self.text(b" ")?;
        self.digits()
    }

    /// A number: 0, or one to five digits of which the first is not 0.
    fn digits(&mut self) -> Option<usize> {
        let is_end = |byte: &u8| !byte.is_ascii_digit();
        let length = self.0.iter().position(is_end).unwrap_or(self.0.len());
        let (digits, rest) = self.0.split_at(length);
        let leading_zero = digits.first() == Some(&b'0') && length > 1;
        if length == 0 || length > MOST_DIGITS || leading_zero {
            return None;
        }
        self.0 = rest;
        let digit = |byte: &u8| usize::from(byte - b'0');
        Some(digits.iter().map(digit).fold(0, |n, d| 10 * n + d))
    }

    /// Passes over a text that comes next.
    fn text(&mut self, text: &[u8]) -> Option<()> {
        self.0 = self.0.strip_prefix(text)?;
        Some(())
    }
}
