//! The answer of 64 bits that a step of a single post and a script give.

use crate::{Heard, Sent};

/// What the last line of a script answered.
#[derive(Clone, Copy, Debug, PartialEq, Eq)]
pub enum LastAnswer {
    /// The script is its yard line alone.
    NoStep,
    OrderSent(Sent),
    Heard(Heard),
    BeaconSent,
    /// A roll call, with the number of its single steps.
    RollCallRan(u16),
    /// The step was refused by 13, 21 to 23 or 25 to 27.
    Refused(u8),
}

/// A script that is refused: what `(bad LINE NUMBER)` prints.
#[derive(Clone, Copy, Debug, PartialEq, Eq)]
pub struct BadScript {
    /// Its first bad line, from 1; 0 for refusal 1.
    pub line: u16,
    /// The refusal, 1 to 5.
    pub number: u8,
}

/// From bit 0 the refusal, from 8 the code, from 16 the count delivered, from 24
/// the serial, from 32 the stamp, from 48 the single steps or the line.
#[derive(Clone, Copy)]
pub(crate) struct Answer(pub(crate) u64);

impl Answer {
    fn byte(self, bit: u32) -> u8 {
        (self.0 >> bit) as u8
    }

    fn refusal(self) -> u8 {
        self.byte(0)
    }

    fn code(self) -> u8 {
        self.byte(8)
    }

    fn delivered(self) -> u8 {
        self.byte(16)
    }

    fn steps_or_line(self) -> u16 {
        (self.0 >> 48) as u16
    }

    fn order_sent(self) -> Sent {
        Sent {
            serial: self.byte(24),
            stamp: (self.0 >> 32) as u16,
            delivered: self.delivered(),
        }
    }

    /// What a hearing answers, by the codes 2 to 5.
    fn heard(self) -> Heard {
        let heard = match self.code() {
            2 => Heard::Taken,
            3 => Heard::Again,
            4 => Heard::Early,
            _ => Heard::Beacon,
        };
        heard(self.delivered())
    }

    /// The answer of a single post's order, or the refusal.
    pub(crate) fn of_order(self) -> Result<Sent, u8> {
        accepted(self.refusal()).map(|()| self.order_sent())
    }

    /// The answer of a single post's hearing, or the refusal.
    pub(crate) fn of_hearing(self) -> Result<Heard, u8> {
        accepted(self.refusal()).map(|()| self.heard())
    }

    /// The answer of a script's last line, or the script's refusal. Nothing if it
    /// has another code: that of a state with another number of cells, or none.
    pub(crate) fn of_script(self) -> Option<Result<LastAnswer, BadScript>> {
        let last = match self.code() {
            0 => LastAnswer::Refused(self.refusal()),
            1 => LastAnswer::OrderSent(self.order_sent()),
            2..=5 => LastAnswer::Heard(self.heard()),
            6 => LastAnswer::BeaconSent,
            7 => LastAnswer::NoStep,
            8 => LastAnswer::RollCallRan(self.steps_or_line()),
            9 => {
                return Some(Err(BadScript {
                    line: self.steps_or_line(),
                    number: self.refusal(),
                }))
            }
            _ => return None,
        };
        Some(Ok(last))
    }
}

/// Nothing, or the number of the refusal.
pub(crate) fn accepted(refusal: u8) -> Result<(), u8> {
    match refusal {
        0 => Ok(()),
        number => Err(number),
    }
}

#[cfg(test)]
mod tests {
    use super::{Answer, BadScript, LastAnswer};
    use crate::{Heard, Sent};

    fn of_script(answer: u64) -> Option<Result<LastAnswer, BadScript>> {
        Answer(answer).of_script()
    }

    #[test]
    fn each_code_of_a_script_is_read() {
        let sent = Sent {
            serial: 0x10,
            stamp: 0xFEDC,
            delivered: 3,
        };
        for (answer, expected) in [
            (25, LastAnswer::Refused(25)),
            (0xFEDC_1003_0100, LastAnswer::OrderSent(sent)),
            (0x80_0200, LastAnswer::Heard(Heard::Taken(128))),
            (0x0300, LastAnswer::Heard(Heard::Again(0))),
            (0x01_0400, LastAnswer::Heard(Heard::Early(1))),
            (0x02_0500, LastAnswer::Heard(Heard::Beacon(2))),
            (0x0600, LastAnswer::BeaconSent),
            (0x0700, LastAnswer::NoStep),
            (0x03C0_0000_0000_0800, LastAnswer::RollCallRan(960)),
        ] {
            assert_eq!(of_script(answer), Some(Ok(expected)), "{answer:#x}");
        }
    }

    #[test]
    fn a_refused_script_is_told_apart_from_a_refused_state() {
        for (answer, line, number) in [
            (0x0901, 0, 1),
            (0x0001_0000_0000_0903, 1, 3),
            (0x1AC9_0000_0000_0905, 6_857, 5),
        ] {
            let bad = BadScript { line, number };
            assert_eq!(of_script(answer), Some(Err(bad)), "{answer:#x}");
        }
        for answer in [0x0A0C, 0x0B00, 0xFF00] {
            assert_eq!(of_script(answer), None, "{answer:#x}");
        }
    }

    #[test]
    fn answers_of_single_posts_are_read() {
        let sent = Sent {
            serial: 2,
            stamp: 0x0304,
            delivered: 1,
        };
        assert_eq!(Answer(0x0304_0201_0100).of_order(), Ok(sent));
        assert_eq!(Answer(24).of_order(), Err(24));
        assert_eq!(Answer(0x05_0200).of_hearing(), Ok(Heard::Taken(5)));
        assert_eq!(Answer(0x0500).of_hearing(), Ok(Heard::Beacon(0)));
        assert_eq!(Answer(30).of_hearing(), Err(30));
    }
}
