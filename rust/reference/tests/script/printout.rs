//! The printout: its lines, its order, the output it needs, and airs of other lengths.

use super::{fresh_air, printed, printed_over, SCRIPT, UNTOUCHED};
use drift_reference::script::{run, OUTPUT_LENGTH};

#[test]
fn posts_print_in_rising_lane_order_whatever_their_role() {
    let script = "(yard (1 dest) (3 relay) (4 source) (7 both))\n";
    let expected = "\
(post 1 (clock 0) (sent 0) (log))
(post 3 (clock 0) (sent 0) (log))
(post 4 (clock 0) (sent 0) (log))
(post 7 (clock 0) (sent 0) (log))
";
    assert_eq!(printed(script), expected);
}

#[test]
fn refused_lines_come_first_in_the_order_of_the_script() {
    let script = "\
(yard (0 both) (5 relay))
(order 1 7)
(order 5 7)
(order 0 7)
(hear 0 0)
(hear 5 0)
(hear 5 1)
(hear 5 2)
(beacon 5)
(hear 0 2)
(hear 3 0)
(beacon 3)
(roll)
";
    let expected = "\
(refused 2 21)
(refused 3 22)
(refused 5 26)
(refused 7 26)
(refused 8 25)
(refused 11 21)
(refused 12 21)
(post 0 (clock 1) (sent 1) (log (1 0 7)))
(post 5 (clock 0) (sent 0) (log))
";
    assert_eq!(printed(script), expected);
}

#[test]
fn a_refused_roll_call_is_printed_too() {
    let script = String::from("(yard (0 both) (1 both))\n")
        + &"(beacon 0)\n".repeat(128)
        + "(roll)\n(beacon 1)\n(beacon 0)\n(roll)\n";
    // Lines 2 to 129 spend the beacons of post 0; post 1 still has its own.
    let expected = "\
(refused 130 27)
(refused 132 27)
(refused 133 27)
(post 0 (clock 0) (sent 0) (log))
(post 1 (clock 0) (sent 0) (log))
";
    assert_eq!(printed(&script), expected);
}

#[test]
fn equal_stamps_print_by_lower_lane() {
    let script = "\
(yard (2 both) (4 source) (6 source))
(order 6 60)
(order 4 40)
(order 2 20)
(roll)
";
    // Each takes the two orders of the others, one after another.
    let expected = "\
(post 2 (clock 3) (sent 1) (log (1 2 20) (1 4 40) (1 6 60)))
(post 4 (clock 3) (sent 1) (log))
(post 6 (clock 3) (sent 1) (log))
";
    assert_eq!(printed(script), expected);
}

#[test]
fn no_output_of_another_length() {
    for length in [0, 1, 1_000, OUTPUT_LENGTH - 1, OUTPUT_LENGTH + 1] {
        for script in [SCRIPT, "", "(bad"] {
            let mut air = fresh_air();
            let mut output = vec![UNTOUCHED; length];
            assert_eq!(run(script.as_bytes(), &mut air, &mut output), None);
            assert!(air == fresh_air());
            assert!(output.iter().all(|&byte| byte == UNTOUCHED));
        }
    }
}

#[test]
fn airs_of_0_and_65_535_and_65_537_bytes() {
    for length in [0, 65_535, 65_537] {
        let mut air = vec![UNTOUCHED; length];
        let script = "\
(yard (0 both) (1 source))
(order 0 1)
(hear 1 0)
(beacon 0)
(roll)
(order 2 1)
";
        let expected = "\
(refused 2 13)
(refused 3 13)
(refused 4 13)
(refused 5 13)
(refused 6 13)
(post 0 (clock 0) (sent 0) (log))
(post 1 (clock 0) (sent 0) (log))
";
        assert_eq!(printed_over(script.as_bytes(), &mut air), expected);
        assert!(air == vec![UNTOUCHED; length]);
        // Refusals 1 to 5 and a yard alone have nothing to do with the air.
        let bad = b"(yard (0 both))\n(order 8 1)\n";
        assert_eq!(printed_over(bad, &mut air), "(bad 2 4)\n");
        let alone = b"(yard (0 both))\n";
        let expected = "(post 0 (clock 0) (sent 0) (log))\n";
        assert_eq!(printed_over(alone, &mut air), expected);
    }
}

#[test]
fn the_bytes_that_an_air_holds_before_do_not_matter() {
    let mut air = fresh_air();
    let first = printed_over(SCRIPT.as_bytes(), &mut air);
    let frames = air[..160].to_vec();
    // The air still holds the frames of the first run.
    assert_eq!(printed_over(SCRIPT.as_bytes(), &mut air), first);
    assert_eq!(air[..160], frames);
    let lone = b"(yard (0 both) (1 both))\n(hear 1 0)\n(beacon 0)\n(hear 1 0)\n(hear 1 1)\n";
    let expected = "\
(refused 2 25)
(refused 5 25)
(post 0 (clock 0) (sent 0) (log))
(post 1 (clock 0) (sent 0) (log))
";
    assert_eq!(printed_over(lone, &mut air), expected);
}
