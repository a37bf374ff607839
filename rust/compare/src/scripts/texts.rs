//! Parts of scripts: numbers at limits, yard lines and other lines, most of them
//! bad; each of them also makes fixed scripts.

/// Numbers at the limits of document 01, and ones that are written badly.
pub const NUMBERS: [&str; 27] = [
    "0",
    "1",
    "7",
    "8",
    "9",
    "10",
    "16",
    "17",
    "99",
    "255",
    "256",
    "2047",
    "2048",
    "65535",
    "65536",
    "65537",
    "99999",
    "100000",
    "00",
    "01",
    "007",
    "00000",
    "000001",
    "4294967296",
    "18446744073709551616",
    "-1",
    "+1",
];

/// Yard lines that are bad by 2 or 3, and some that are good.
pub const YARD_LINES: [&str; 41] = [
    "(yard)",
    "(yard )",
    "(yard ())",
    "(yard (0))",
    "(yard (0 ))",
    "(yard (both))",
    "(yard ( 0 both))",
    "(yard (0 both ))",
    "(yard (0  both))",
    "(yard  (0 both))",
    "(yard (0 both)(1 both))",
    "(yard (0 both)  (1 both))",
    "(yard (0 both) )",
    "(yard (0 both)",
    "yard (0 both))",
    "(yard (0 both)))",
    "((yard (0 both))",
    "(Yard (0 both))",
    "(yard (0 Both))",
    "(yard (0 none))",
    "(yard (0 bot))",
    "(yard (0 bothh))",
    "(yard (0 sourcedest))",
    "(yard (0 relay both))",
    "(yard (8 both))",
    "(yard (9 relay))",
    "(yard (10 both))",
    "(yard (99999 both))",
    "(yard (100000 both))",
    "(yard (01 both))",
    "(yard (00 both))",
    "(yard (0 both) (0 both))",
    "(yard (1 both) (0 both))",
    "(yard (0 both) (8 both))",
    "(yard (7 dest) (8 x))",
    "(yard (256 both))",
    "(yard (0 both) (1 source) (2 dest) (3 relay) (4 both) (5 both) (6 both) (7 both) (8 both))",
    "(yard (0 both) (1 source) (2 dest) (3 relay) (4 both) (5 both) (6 both) (7 both))",
    "(yard (7 relay))",
    "(order 0 1)",
    "(roll)",
];

/// Lines that are put into a script; most are bad wherever they stand.
pub const LINES: [&str; 28] = [
    "",
    " ",
    "(roll )",
    " (roll)",
    "(roll) ",
    "(rol)",
    "(rolls)",
    "(roll 0)",
    "()",
    "(",
    "roll",
    "(order 0)",
    "(order 0 1 2)",
    "(order 8 1)",
    "(order 0 65536)",
    "(order 8 65536)",
    "(order 0 100000)",
    "(order 100000 65536)",
    "(hear 8 0)",
    "(hear 0 99999)",
    "(hear 0 100000)",
    "(hear 0)",
    "(beacon)",
    "(beacon 8)",
    "(beacon 0 0)",
    "(beacon  0)",
    "(yard (0 both))",
    "(bad 1 2)",
];

/// Steps with a place for a number, and the yard line with one.
const PLACES: [(&str, &str); 6] = [
    ("(yard (", " both))\n(roll)\n"),
    ("(yard (0 both))\n(order ", " 1)\n(roll)\n"),
    ("(yard (0 both))\n(order 0 ", ")\n(roll)\n"),
    ("(yard (0 both))\n(hear ", " 0)\n(roll)\n"),
    ("(yard (0 both))\n(hear 0 ", ")\n(roll)\n"),
    ("(yard (0 both))\n(beacon ", ")\n(roll)\n"),
];

/// A small script for each yard line, each other line, and each number at each
/// place of one.
pub fn scripts() -> impl Iterator<Item = Vec<u8>> {
    let yards = YARD_LINES
        .into_iter()
        .map(|line| format!("{line}\n(roll)\n"));
    let lines = LINES
        .into_iter()
        .map(|line| format!("(yard (0 both))\n{line}\n(roll)\n"));
    let numbers = PLACES.into_iter().flat_map(|(before, after)| {
        let numbers = NUMBERS.into_iter();
        numbers.map(move |number| format!("{before}{number}{after}"))
    });
    yards.chain(lines).chain(numbers).map(String::into_bytes)
}
