//! The table: its lines, ratios and marks.

/// What was measured of a row, at the proved crates and at the second
/// implementation.
pub struct Measured {
    /// None where valgrind is missing or was not asked for.
    pub instructions: Option<[f64; 2]>,
    pub nanoseconds: [f64; 2],
}

const HEADINGS: [&str; 8] = [
    "Row",
    "Rattle, instructions",
    "Rust, instructions",
    "Ratio",
    "Rattle, ns",
    "Rust, ns",
    "Ratio",
    "Above 1.00",
];

/// The headings, and the line below them: the first and the last column to the left.
pub fn heading() -> String {
    let rule = "|---|---:|---:|---:|---:|---:|---:|---|";
    format!("{}\n{rule}", line(HEADINGS.map(String::from)))
}

/// The line of a row.
pub fn row(name: &str, measured: &Measured) -> String {
    let time = measured.nanoseconds;
    let [proved, second, ratio] = match measured.instructions {
        Some(counts) => cells(counts),
        None => ["–"; 3].map(String::from),
    };
    let [proved_time, second_time, time_ratio] = cells(time);
    line([
        name.into(),
        proved,
        second,
        ratio,
        proved_time,
        second_time,
        time_ratio,
        above(measured).into(),
    ])
}

fn line(cells: [String; 8]) -> String {
    format!("| {} |", cells.join(" | "))
}

/// Both costs and their ratio.
fn cells(costs: [f64; 2]) -> [String; 3] {
    let hundredths = ratio_in_hundredths(costs);
    let ratio = format!("{}.{:02}", hundredths / 100, hundredths % 100);
    [number(costs[0]), number(costs[1]), ratio]
}

/// The first cost as a multiple of the second, rounded; a cost below 0 is noise.
fn ratio_in_hundredths([proved, second]: [f64; 2]) -> u64 {
    (100.0 * proved / second).round() as u64
}

/// In what the row is above 1.00, as the ratios are printed.
fn above(measured: &Measured) -> &'static str {
    let exceeds = |costs: [f64; 2]| ratio_in_hundredths(costs) > 100;
    let instructions = measured.instructions.is_some_and(exceeds);
    match (instructions, exceeds(measured.nanoseconds)) {
        (true, true) => "both",
        (true, false) => "instructions",
        (false, true) => "time",
        (false, false) => "",
    }
}

/// A cost with commas; small ones with a decimal.
fn number(cost: f64) -> String {
    if cost < 99.95 {
        return format!("{cost:.1}");
    }
    let digits = format!("{cost:.0}");
    let mut text = String::new();
    for (place, digit) in digits.chars().enumerate() {
        if place > 0 && (digits.len() - place) % 3 == 0 {
            text.push(',');
        }
        text.push(digit);
    }
    text
}

#[cfg(test)]
mod tests {
    use super::{above, cells, heading, number, row, Measured};

    fn measured(instructions: Option<[f64; 2]>, nanoseconds: [f64; 2]) -> Measured {
        Measured {
            instructions,
            nanoseconds,
        }
    }

    #[test]
    fn numbers_have_commas() {
        let numbers = [0.04, 7.25, 99.94, 99.96, 999.4, 1_000.0, 12_345_678.9];
        let texts = ["0.0", "7.2", "99.9", "100", "999", "1,000", "12,345,679"];
        assert_eq!(numbers.map(number), texts);
    }

    #[test]
    fn ratios_have_two_decimals() {
        assert_eq!(cells([150.0, 100.0])[2], "1.50");
        assert_eq!(cells([1.0, 3.0])[2], "0.33");
        assert_eq!(cells([2_005.0, 100.0])[2], "20.05");
        assert_eq!(cells([-1.0, 100.0])[2], "0.00");
    }

    #[test]
    fn rows_above_1_00_are_marked() {
        let (less, same, more) = ([1.0, 2.0], [1_004.0, 1_000.0], [1_006.0, 1_000.0]);
        assert_eq!(above(&measured(Some(more), more)), "both");
        assert_eq!(above(&measured(Some(more), same)), "instructions");
        assert_eq!(above(&measured(Some(less), more)), "time");
        assert_eq!(above(&measured(Some(same), less)), "");
        assert_eq!(above(&measured(None, more)), "time");
    }

    #[test]
    fn lines_have_as_many_cells() {
        let lines = [
            row("a", &measured(None, [1.0, 2.0])),
            row("b", &measured(Some([3.0, 2.0]), [1.0, 2.0])),
        ];
        assert_eq!(lines[0], "| a | – | – | – | 1.0 | 2.0 | 0.50 |  |");
        assert_eq!(
            lines[1],
            "| b | 3.0 | 2.0 | 1.50 | 1.0 | 2.0 | 0.50 | instructions |"
        );
        for line in heading().lines() {
            assert_eq!(line.matches('|').count(), 9);
        }
    }
}
