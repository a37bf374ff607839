//! What a step of a single post or a script answers, and the number of 64 bits
//! that tells it.

use drift_reference::post::{HearAnswer, OrderAnswer, BAD_RECORD};
use drift_reference::script::{Bad, LastAnswer};

/// An answer. All but the last stand for the codes 0 to 10.
#[derive(Clone, Copy, Debug, PartialEq, Eq)]
pub enum Answer {
    Refused,
    OrderSent,
    Taken,
    Again,
    Early,
    BeaconHeard,
    BeaconSent,
    NoStep,
    RollCallRan,
    ScriptRefused,
    StateRefused,
    FreshMade,
}

/// The answers with their names, by number.
pub const ANSWERS: [(Answer, &str); 12] = [
    (Answer::Refused, "refused"),
    (Answer::OrderSent, "order sent"),
    (Answer::Taken, "taken"),
    (Answer::Again, "again"),
    (Answer::Early, "early"),
    (Answer::BeaconHeard, "beacon heard"),
    (Answer::BeaconSent, "beacon sent"),
    (Answer::NoStep, "no step"),
    (Answer::RollCallRan, "roll call ran"),
    (Answer::ScriptRefused, "script refused"),
    (Answer::StateRefused, "state refused"),
    (Answer::FreshMade, "fresh made"),
];

/// How many of the answers have a code.
pub const CODES: usize = 11;

/// An answer with its numbers; 0 where there is none.
#[derive(Clone, Copy, Debug, PartialEq, Eq)]
pub struct Answered {
    pub answer: Answer,
    pub refusal: u8,
    pub count: u8,
    pub serial: u8,
    pub stamp: u16,
    /// The single steps of a roll call, or the line of a script that is refused.
    pub steps_or_line: u16,
}

impl Answered {
    pub fn of(answer: Answer, count: u8) -> Answered {
        Answered {
            answer,
            refusal: 0,
            count,
            serial: 0,
            stamp: 0,
            steps_or_line: 0,
        }
    }

    pub fn refused(number: u8) -> Answered {
        Answered {
            refusal: number,
            ..Answered::of(Answer::Refused, 0)
        }
    }

    pub fn sent(order: OrderAnswer) -> Answered {
        Answered {
            serial: order.serial.0,
            stamp: order.stamp.0,
            ..Answered::of(Answer::OrderSent, order.count)
        }
    }

    pub fn heard(answer: HearAnswer) -> Answered {
        match answer {
            HearAnswer::Taken(count) => Answered::of(Answer::Taken, count),
            HearAnswer::Again(count) => Answered::of(Answer::Again, count),
            HearAnswer::Early(count) => Answered::of(Answer::Early, count),
            HearAnswer::Beacon(count) => Answered::of(Answer::BeaconHeard, count),
        }
    }

    /// What the last line of a script answered.
    pub fn last(answer: LastAnswer) -> Answered {
        match answer {
            LastAnswer::YardMade => Answered::of(Answer::NoStep, 0),
            LastAnswer::Order(order) => Answered::sent(order),
            LastAnswer::Hear(answer) => Answered::heard(answer),
            LastAnswer::Beacon => Answered::of(Answer::BeaconSent, 0),
            LastAnswer::Roll(steps) => Answered {
                steps_or_line: steps,
                ..Answered::of(Answer::RollCallRan, 0)
            },
            LastAnswer::Refused(number) => Answered::refused(number),
        }
    }

    /// Of a script that is refused. No script has more lines than 16 bits count.
    pub fn bad_script(bad: Bad) -> Answered {
        Answered {
            refusal: bad.number,
            steps_or_line: bad.line as u16,
            ..Answered::of(Answer::ScriptRefused, 0)
        }
    }

    /// Of a state that has another number of cells.
    pub fn bad_state() -> Answered {
        Answered {
            refusal: BAD_RECORD,
            ..Answered::of(Answer::StateRefused, 0)
        }
    }

    /// As the functions give it.
    pub fn number(self) -> u64 {
        let low = [self.refusal, self.answer as u8, self.count, self.serial];
        u64::from(u32::from_le_bytes(low))
            | u64::from(self.stamp) << 32
            | u64::from(self.steps_or_line) << 48
    }

    /// What a number tells, or nothing if there is no answer of its code.
    pub fn read(number: u64) -> Option<Answered> {
        let [refusal, code, count, serial, ..] = number.to_le_bytes();
        let (answer, _) = *ANSWERS[..CODES].get(usize::from(code))?;
        Some(Answered {
            answer,
            refusal,
            count,
            serial,
            stamp: (number >> 32) as u16,
            steps_or_line: (number >> 48) as u16,
        })
    }

    /// Whether a script ran, so that it left a state.
    pub fn has_run(self) -> bool {
        !matches!(self.answer, Answer::ScriptRefused | Answer::StateRefused)
    }
}

/// What a number tells, in words.
pub fn told(number: u64) -> String {
    let [refusal, code, count, serial, ..] = number.to_le_bytes();
    let (stamp, last) = ((number >> 32) as u16, (number >> 48) as u16);
    let name = ANSWERS[..CODES].get(usize::from(code));
    let name = name.map_or("no answer at all", |(_, name)| name);
    format!(
        "{name}, refusal {refusal}, count {count}, serial {serial}, stamp {stamp}, \
         steps or line {last}"
    )
}

#[cfg(test)]
mod tests {
    use super::{told, Answer, Answered, ANSWERS, CODES};

    #[test]
    fn every_code_is_read_back() {
        for (code, (answer, _)) in ANSWERS[..CODES].iter().enumerate() {
            assert_eq!(*answer as usize, code);
            let answered = Answered {
                answer: *answer,
                refusal: 0x12,
                count: 0x34,
                serial: 0x56,
                stamp: 0x789A,
                steps_or_line: 0xBCDE,
            };
            let number = 0xBCDE_789A_5634_0012 | (code as u64) << 8;
            assert_eq!(answered.number(), number);
            assert_eq!(Answered::read(number), Some(answered));
        }
        for number in [0x0B00, 0xFF00] {
            assert_eq!(Answered::read(number), None);
            assert!(told(number).starts_with("no answer at all, refusal 0"));
        }
    }

    #[test]
    fn answers_are_the_numbers_of_the_c_header() {
        let roll_call = Answered {
            steps_or_line: 960,
            ..Answered::of(Answer::RollCallRan, 0)
        };
        assert_eq!(roll_call.number(), 0x03C0_0000_0000_0800);
        assert_eq!(Answered::bad_state().number(), 0x0A0C);
        assert_eq!(Answered::refused(25).number(), 25);
        assert_eq!(
            told(0x0003_0000_0000_0905),
            "script refused, refusal 5, count 0, serial 0, stamp 0, steps or line 3"
        );
    }
}
