//! Refusal 2: the form of a line, its spaces and its line feed.

use super::{assert_bad, assert_good, SCRIPT};

/// The line after a yard line must be refused by 2.
fn assert_malformed(line: impl AsRef<[u8]>) {
    let mut script = b"(yard (0 both) (1 both))\n".to_vec();
    script.extend(line.as_ref());
    script.extend(b"\n(roll)\n");
    assert_bad(&script, 2, 2);
}

#[test]
fn the_five_forms_pass() {
    assert_good(SCRIPT);
    assert_good("(yard (0 relay))\n(order 0 0)\n(hear 0 0)\n(beacon 0)\n(roll)\n");
    assert_good("(yard (0 source) (1 dest) (2 both) (3 relay))\n");
}

#[test]
fn what_is_no_form() {
    for line in [
        "",
        "(",
        ")",
        "()",
        "(())",
        "order 0 1",
        "(order 0 1",
        "order 0 1)",
        "((order 0 1))",
        "(order 0 1))",
        "[order 0 1]",
        "(0 1)",
        "(rolls)",
        "(rol)",
        "(orders 0 1)",
        "(orde 0 1)",
        "(post 0 (clock 1) (sent 1) (log))",
        "(refused 1 2)",
        "; roll",
        "roll",
        "(roll)(roll)",
        "(roll) (roll)",
    ] {
        assert_malformed(line);
    }
}

#[test]
fn too_few_and_too_many_items() {
    for line in [
        "(order)",
        "(order 0)",
        "(order 0 1 2)",
        "(hear)",
        "(hear 0)",
        "(hear 0 1 2)",
        "(beacon)",
        "(beacon 0 1)",
        "(roll 0)",
        "(order (0 1))",
        "(order 0 (1))",
        "(beacon (0))",
    ] {
        assert_malformed(line);
    }
}

#[test]
fn one_space_between_items_and_none_elsewhere() {
    for line in [
        " (order 0 1)",
        "(order 0 1) ",
        "( order 0 1)",
        "(order 0 1 )",
        "(order  0 1)",
        "(order 0  1)",
        "(order 01)",
        "(order0 1)",
        "(order 0\t1)",
        "\t(roll)",
        "(roll )",
        "( roll)",
        "(roll) ",
        "(beacon  0)",
        "(beacon 0 )",
        "(beacon0)",
    ] {
        assert_malformed(line);
    }
}

#[test]
fn other_bytes() {
    for line in [
        "(ROLL)",
        "(Roll)",
        "(roll)\r",
        "\r",
        "(roll)\0",
        "\0",
        "(roll\u{0})",
    ] {
        assert_malformed(line);
    }
    assert_malformed(b"(roll\xFF)");
    assert_malformed(b"\x80");
    assert_malformed("(order 0 \u{661})");
    assert_malformed(b"(beacon 0\xA0)");
    // No byte but the right one may stand at any place of a line.
    let good = b"(order 0 5)";
    for at in 0..good.len() {
        for byte in (0..=255).filter(|&byte| byte != good[at] && byte != b'\n') {
            if !((at == 7 || at == 9) && byte.is_ascii_digit()) {
                let mut line = *good;
                line[at] = byte;
                assert_malformed(line);
            }
        }
    }
}

#[test]
fn numbers_are_plain_decimal_numerals() {
    for number in [
        "",
        "00",
        "01",
        "000",
        "007",
        "00000",
        "000000",
        "+1",
        "-1",
        "-0",
        "1.0",
        "0x1",
        "1e1",
        "1_0",
        "1,0",
        "a",
        "1a",
        "a1",
        "100000",
        "065535",
        "999999",
        "4294967296",
        "18446744073709551617",
    ] {
        assert_malformed(format!("(order 0 {number})"));
        assert_malformed(format!("(order {number} 0)"));
        assert_malformed(format!("(hear 0 {number})"));
        assert_malformed(format!("(hear {number} 0)"));
        assert_malformed(format!("(beacon {number})"));
        assert_malformed(format!("(yard ({number} both))"));
        assert_bad(format!("(yard ({number} both))\n"), 1, 2);
    }
    assert_malformed(format!("(order 0 {})", "1".repeat(40_000)));
}

#[test]
fn the_line_feed_at_the_end() {
    let one_line = "(yard (0 both))\n";
    assert_good(one_line);
    assert_bad(&one_line[..one_line.len() - 1], 1, 2);
    assert_bad(&SCRIPT[..SCRIPT.len() - 1], 7, 2);
    assert_bad("(yard (0 both))\n(roll)", 2, 2);
    // A further line feed makes a blank line.
    assert_bad("(yard (0 both))\n\n", 2, 2);
    assert_bad("(yard (0 both))\n\n(roll)\n", 2, 2);
    assert_bad("\n(yard (0 both))\n", 1, 2);
    assert_bad("\n", 1, 2);
    assert_bad("(yard (0 both))\r\n(roll)\r\n", 1, 2);
    // It is the last line that lacks it; an earlier bad line comes first.
    assert_bad("(yard (0 both))\n(roll)\n(order 8 1)\n(roll)", 3, 4);
    assert_bad("(yard (0 both))\n(order 0 65536)\n(roll)", 2, 5);
    // Without it, 2 comes before 3 to 5.
    assert_bad("(yard)", 1, 2);
    assert_bad("(roll)", 1, 2);
    assert_bad("(yard (0 both))\n(order 8 1)", 2, 2);
    assert_bad("(yard (0 both))\n(yard (0 both))", 2, 2);
}
