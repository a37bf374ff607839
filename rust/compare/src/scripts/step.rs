//! The lines of a script: the yard line and the steps.

use std::fmt::{self, Display};

/// The sets of lanes that a yard line tells; bit i is lane i.
#[derive(Clone, Copy, Debug, PartialEq, Eq)]
pub struct YardLine {
    pub posts: u8,
    pub sources: u8,
    pub dests: u8,
}

/// A step, with numbers that may be too large.
#[derive(Clone, Copy, Debug, PartialEq, Eq)]
pub enum Step {
    Order { lane: u32, word: u32 },
    Hear { lane: u32, frame: u32 },
    Beacon { lane: u32 },
    Roll,
}

/// The names of the steps, by `Step::kind`.
pub const STEPS: [&str; 4] = ["order", "hear", "beacon", "roll"];

impl Step {
    /// Which of the four steps it is, from 0.
    pub fn kind(self) -> usize {
        match self {
            Step::Order { .. } => 0,
            Step::Hear { .. } => 1,
            Step::Beacon { .. } => 2,
            Step::Roll => 3,
        }
    }

    pub fn is_beacon(self) -> bool {
        matches!(self, Step::Beacon { .. })
    }

    /// The step of a line without its line feed, if it is written as one.
    pub fn read(line: &[u8]) -> Option<Step> {
        let text = std::str::from_utf8(line).ok()?;
        let inside = text.strip_prefix('(')?.strip_suffix(')')?;
        let items: Vec<&str> = inside.split(' ').collect();
        let number = |item: &str| item.parse().ok();
        let step = match items[..] {
            ["order", lane, word] => Step::Order {
                lane: number(lane)?,
                word: number(word)?,
            },
            ["hear", lane, frame] => Step::Hear {
                lane: number(lane)?,
                frame: number(frame)?,
            },
            ["beacon", lane] => Step::Beacon {
                lane: number(lane)?,
            },
            ["roll"] => Step::Roll,
            _ => return None,
        };
        // A sign or leading zeros are not written so.
        (step.to_string() == text).then_some(step)
    }
}

impl Display for Step {
    fn fmt(&self, output: &mut fmt::Formatter) -> fmt::Result {
        let name = STEPS[self.kind()];
        match self {
            Step::Order { lane, word } => write!(output, "({name} {lane} {word})"),
            Step::Hear { lane, frame } => write!(output, "({name} {lane} {frame})"),
            Step::Beacon { lane } => write!(output, "({name} {lane})"),
            Step::Roll => write!(output, "({name})"),
        }
    }
}

impl YardLine {
    /// The sets of a yard line, if it is written as this one would write it.
    pub fn read(line: &[u8]) -> Option<YardLine> {
        let text = std::str::from_utf8(line).ok()?;
        let mut yard = YardLine {
            posts: 0,
            sources: 0,
            dests: 0,
        };
        for item in text.strip_prefix("(yard (")?.split(" (") {
            let (lane, role) = item.split_once(' ')?;
            let lane: u8 = lane.parse().ok()?;
            let set = 1u8.checked_shl(lane.into())?;
            let role = role.trim_end_matches(')');
            yard.posts |= set;
            yard.sources |= set * u8::from(matches!(role, "source" | "both"));
            yard.dests |= set * u8::from(matches!(role, "dest" | "both"));
        }
        (yard.to_string() == text).then_some(yard)
    }

    /// The yard with the posts of a set alone.
    pub fn only(self, set: u8) -> YardLine {
        YardLine {
            posts: self.posts & set,
            sources: self.sources & set,
            dests: self.dests & set,
        }
    }

    pub fn role(self, lane: u32) -> &'static str {
        let has = |set: u8| set >> lane & 1 == 1;
        match (has(self.sources), has(self.dests)) {
            (true, true) => "both",
            (true, false) => "source",
            (false, true) => "dest",
            (false, false) => "relay",
        }
    }
}

impl Display for YardLine {
    fn fmt(&self, output: &mut fmt::Formatter) -> fmt::Result {
        write!(output, "(yard")?;
        for lane in (0..8).filter(|lane| self.posts >> lane & 1 == 1) {
            write!(output, " ({lane} {})", self.role(lane))?;
        }
        write!(output, ")")
    }
}

/// The yard and the steps of a script, if it is a yard line with steps.
pub fn read_script(script: &[u8]) -> Option<(YardLine, Vec<Step>)> {
    let mut lines = script.strip_suffix(b"\n")?.split(|&byte| byte == b'\n');
    let yard = YardLine::read(lines.next()?)?;
    let steps: Option<Vec<Step>> = lines.map(Step::read).collect();
    Some((yard, steps?))
}

/// The script of a yard and steps.
pub fn write_script(yard: YardLine, steps: &[Step]) -> Vec<u8> {
    let lines = steps.iter().map(|step| format!("{step}\n"));
    format!("{yard}\n{}", lines.collect::<String>()).into_bytes()
}

#[cfg(test)]
mod tests {
    use super::{read_script, write_script, Step, YardLine};

    #[test]
    fn scripts_are_read_and_written() {
        let script = b"(yard (1 relay))\n(beacon 1)\n(roll)\n";
        let (yard, steps) = read_script(script).expect("a script");
        assert_eq!(steps, [Step::Beacon { lane: 1 }, Step::Roll]);
        assert_eq!(write_script(yard, &steps), script);
        let alone = b"(yard (1 relay))\n";
        assert_eq!(read_script(alone), Some((yard, Vec::new())));
        let bad: [&[u8]; 3] = [b"", b"(roll)\n", b"(yard (1 relay))\n(roll)"];
        for bad in bad {
            assert_eq!(read_script(bad), None);
        }
    }

    #[test]
    fn steps_are_written_and_read() {
        let steps = [
            Step::Order {
                lane: 7,
                word: 65536,
            },
            Step::Hear {
                lane: 0,
                frame: 99999,
            },
            Step::Beacon { lane: 8 },
            Step::Roll,
        ];
        let lines = ["(order 7 65536)", "(hear 0 99999)", "(beacon 8)", "(roll)"];
        for (step, line) in steps.into_iter().zip(lines) {
            assert_eq!(step.to_string(), line);
            assert_eq!(Step::read(line.as_bytes()), Some(step));
        }
        for bad in [
            "",
            "(roll )",
            "(beacon 07)",
            "(hear +1 0)",
            "(order 1)",
            "roll",
        ] {
            assert_eq!(Step::read(bad.as_bytes()), None, "{bad}");
        }
    }

    #[test]
    fn yard_lines_are_written_and_read() {
        let yard = YardLine {
            posts: 0b1000_1111,
            sources: 0b1000_0001,
            dests: 0b1000_0010,
        };
        let line = "(yard (0 source) (1 dest) (2 relay) (3 relay) (7 both))";
        assert_eq!(yard.to_string(), line);
        assert_eq!(YardLine::read(line.as_bytes()), Some(yard));
        for bad in [
            "(yard)",
            "(yard (8 both))",
            "(yard (1 x))",
            "(yard (1 both) (0 both))",
        ] {
            assert_eq!(YardLine::read(bad.as_bytes()), None, "{bad}");
        }
    }
}
