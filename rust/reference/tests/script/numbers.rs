//! Refusals 3 to 5, which line is named, and which number.

use super::{assert_bad, assert_good, fresh_air, printed, printed_over, ran};
use drift_reference::script::LastAnswer;

#[test]
fn empty_text() {
    assert_bad("", 1, 3);
}

#[test]
fn line_1_is_no_form_or_a_step() {
    for line in [
        "x",
        " ",
        "(yard",
        "(yard (0 both)",
        "yard",
        "(order 0)",
        "(roll )",
    ] {
        assert_bad(format!("{line}\n"), 1, 2);
    }
    // A well-formed step is 3, whatever its numbers.
    for line in [
        "(roll)",
        "(order 0 1)",
        "(order 8 1)",
        "(order 0 65536)",
        "(order 99999 99999)",
        "(hear 0 0)",
        "(hear 8 0)",
        "(beacon 0)",
        "(beacon 99999)",
    ] {
        assert_bad(format!("{line}\n"), 1, 3);
        assert_bad(format!("{line}\n(yard (0 both))\n"), 1, 3);
    }
}

#[test]
fn no_posts_and_flaws_of_shape_in_the_yard_line() {
    assert_bad("(yard)\n", 1, 3);
    for line in [
        "(yard )",
        "(yard  (0 both))",
        "(yard(0 both))",
        "(yard (0 both) )",
        "(yard (0 both)(1 both))",
        "(yard (0 both)  (1 both))",
        "( yard (0 both))",
        "(yard ( 0 both))",
        "(yard (0 both ))",
        "(yard (0  both))",
        "(yard (0both))",
        "(yard (0))",
        "(yard ())",
        "(yard (both))",
        "(yard (both 0))",
        "(yard 0 both)",
        "(yard (0 both)))",
        "(yard (0 both)",
        "(yards (0 both))",
        "(yard (0 Both))",
        "(yard (0 bot))",
        "(yard (0 boths))",
        "(yard (0 none))",
        "(yard (0 sink))",
        "(yard (0 sources))",
        "(yard (0 dest source))",
        "(yard (0 both) 1)",
        "(Yard (0 both))",
        "(yard (0 both)) ",
        "(yard (0 both)) (roll)",
        "(yard (0 relay)\t(1 relay))",
    ] {
        assert_bad(format!("{line}\n"), 1, 2);
        // Later it is malformed too, and not just a second yard.
        assert_bad(format!("(yard (0 both))\n{line}\n"), 2, 2);
    }
}

#[test]
fn lanes_of_the_yard_line() {
    for lanes in [
        "8", "9", "10", "99999", "0 8", "7 8", "8 0", "0 0", "7 7", "1 0", "0 2 1", "0 1 1",
    ] {
        let posts: String = lanes
            .split(' ')
            .map(|lane| format!(" ({lane} both)"))
            .collect();
        assert_bad(format!("(yard{posts})\n"), 1, 3);
        assert_bad(format!("(yard{posts})\n(order 8 1)\n(bad\n"), 1, 3);
        // A flaw of shape comes first, wherever it stands in the line.
        assert_bad(format!("(yard{posts} (01 both))\n"), 1, 2);
        assert_bad(format!("(yard{posts} (1 sink))\n"), 1, 2);
    }
    for lanes in ["0", "7", "0 7", "6 7", "0 1 2 3 4 5 6 7"] {
        let posts: String = lanes
            .split(' ')
            .map(|lane| format!(" ({lane} both)"))
            .collect();
        assert_good(&format!("(yard{posts})\n"));
    }
    // A yard line may be long and still be judged as a whole.
    let many = " (0 both)".repeat(5_000);
    assert_bad(format!("(yard{many})\n"), 1, 3);
    assert_bad(format!("(yard{many} )\n"), 1, 2);
}

#[test]
fn a_yard_form_on_a_later_line() {
    for line in [
        "(yard (0 both))",
        "(yard (1 dest) (2 source))",
        "(yard)",
        "(yard (8 both))",
    ] {
        assert_bad(format!("(yard (0 both))\n{line}\n"), 2, 3);
        assert_bad(format!("(yard (0 both))\n(roll)\n{line}\n(roll)\n"), 3, 3);
    }
}

#[test]
fn refusal_4_a_step_s_lane() {
    for lane in [8, 9, 10, 255, 256, 65_536, 99_999] {
        for step in ["(order LANE 5)", "(hear LANE 0)", "(beacon LANE)"] {
            let line = step.replace("LANE", &lane.to_string());
            assert_bad(format!("(yard (0 both))\n(roll)\n{line}\n"), 3, 4);
        }
        // A lane over 7 comes before a word over 65,535.
        assert_bad(format!("(yard (0 both))\n(order {lane} 65536)\n"), 2, 4);
    }
    // Lane 7 without a post is a matter of state.
    let printout = printed("(yard (0 both))\n(order 7 5)\n(hear 7 0)\n(beacon 7)\n");
    let expected = "\
(refused 2 21)
(refused 3 21)
(refused 4 21)
(post 0 (clock 0) (sent 0) (log))
";
    assert_eq!(printout, expected);
}

#[test]
fn refusal_5_a_word() {
    for word in [65_536, 65_537, 70_000, 99_999] {
        assert_bad(format!("(yard (0 both))\n(order 0 {word})\n"), 2, 5);
        // At any post, there or not, source or not.
        assert_bad(format!("(yard (0 relay))\n(order 0 {word})\n"), 2, 5);
        assert_bad(format!("(yard (0 both))\n(order 7 {word})\n"), 2, 5);
    }
    let printout = printed("(yard (0 both))\n(order 0 65535)\n(order 0 0)\n");
    assert_eq!(
        printout,
        "(post 0 (clock 2) (sent 2) (log (1 0 65535) (2 0 0)))\n"
    );
}

#[test]
fn the_first_bad_line_is_named() {
    let good = "(yard (0 both))\n(order 0 5)\n";
    assert_bad(format!("{good}(order 8 5)\nx\n(order 0 65536)\n"), 3, 4);
    assert_bad(format!("{good}(order 0 65536)\n(order 8 5)\nx\n"), 3, 5);
    assert_bad(format!("{good}x\n(order 8 5)\n"), 3, 2);
    assert_bad(format!("{good}{}x\n", "(roll)\n".repeat(6_000)), 6_003, 2);
}

#[test]
fn a_frame_up_to_99_999_is_read() {
    for frame in [0, 2_047, 2_048, 65_535, 65_536, 99_999] {
        let printout = printed(&format!("(yard (0 both))\n(hear 0 {frame})\n"));
        let expected = "(refused 2 25)\n(post 0 (clock 0) (sent 0) (log))\n";
        assert_eq!(printout, expected);
    }
    assert_bad("(yard (0 both))\n(hear 0 100000)\n", 2, 2);
}

#[test]
fn the_whole_script_is_judged_before_a_step_runs() {
    let mut air = fresh_air();
    let script = b"(yard (0 both))\n(order 0 5)\n(beacon 0)\n(order 0 65536)\n";
    assert_eq!(printed_over(script, &mut air), "(bad 4 5)\n");
    assert!(air == fresh_air());
}

#[test]
fn a_script_of_the_yard_line_alone() {
    let (yard, answer) = ran("(yard (1 source) (3 relay) (6 dest) (7 both))\n");
    assert_eq!(answer, LastAnswer::YardMade);
    let sets = (yard.present, yard.sources, yard.dests);
    assert_eq!(sets, (0b1100_1010, 0b1000_0010, 0b1100_0000));
    assert_eq!((yard.frames, yard.beacons), (0, [0; 8]));
}
