//! The yard bench of document 01, K2's case of beacons in it: scripts with their
//! whole printouts, and frames.

use super::{first_lines, fresh_air, printed, printed_over, ran, SCRIPT};
use drift_reference::frame::{check, Frame, Serial};
use drift_reference::post::HearAnswer::{Again, Early, Taken};
use drift_reference::post::Post;
use drift_reference::script::LastAnswer::{Beacon, Hear, Order, Refused, Roll};

const P2: [u8; 32] = [
    0x01, 0x00, 0x01, 0x01, 0x00, 0x03, 0x00, 0x5A, 0x01, 0x00, 0x04, 0x01, 0x00, 0x03, 0, 0, 0, 0,
    0, 0, 0, 0, 0, 0, 0, 0, 0, 0, 0, 0, 0, 0,
];

#[test]
fn p1_the_printout_of_document_01() {
    let expected = "\
(refused 7 25)
(post 0 (clock 4) (sent 1) (log (1 0 417) (3 1 90)))
(post 1 (clock 3) (sent 1) (log))
(post 2 (clock 0) (sent 0) (log (1 0 417)))
";
    assert_eq!(printed(SCRIPT), expected);
    assert_eq!(ran(SCRIPT).1, Refused(25));
}

#[test]
fn p2_frame_4_on_the_air() {
    let mut air = fresh_air();
    printed_over(SCRIPT.as_bytes(), &mut air);
    assert_eq!(air[128..160], P2);
    assert_eq!(ran(SCRIPT).0.frame_on_air(&air, 4), P2);
    // It is the last frame: what follows is as it was.
    assert_eq!(air[160..], fresh_air()[160..]);
}

#[test]
fn p3_a_stamp_of_a_serial_not_yet_taken() {
    let script = first_lines(4) + "(hear 2 2)\n";
    let expected = "\
(post 0 (clock 1) (sent 1) (log))
(post 1 (clock 3) (sent 1) (log))
(post 2 (clock 0) (sent 0) (log))
";
    assert_eq!(printed(&script), expected);
    let script = script + "(hear 2 0)\n";
    let expected = "\
(post 0 (clock 1) (sent 1) (log))
(post 1 (clock 3) (sent 1) (log))
(post 2 (clock 0) (sent 0) (log (1 0 417)))
";
    assert_eq!(printed(&script), expected);
    assert_eq!(ran(&script).1, Hear(Taken(1)));
}

#[test]
fn p4_a_roll_call_of_ten_steps() {
    let script = first_lines(6) + "(roll)\n";
    let expected = "\
(post 0 (clock 4) (sent 1) (log (1 0 417) (3 1 90)))
(post 1 (clock 3) (sent 1) (log))
(post 2 (clock 0) (sent 0) (log (1 0 417) (3 1 90)))
";
    assert_eq!(printed(&script), expected);
    assert_eq!(ran(&script).1, Roll(10));
}

#[test]
fn p5_one_post() {
    let script = "(yard (0 both))\n(order 0 5)\n";
    let expected = "(post 0 (clock 1) (sent 1) (log (1 0 5)))\n";
    assert_eq!(printed(script), expected);
    let script = script.to_owned() + "(roll)\n";
    assert_eq!(printed(&script), expected);
    assert_eq!(ran(&script).1, Roll(1));
}

#[test]
fn p6_two_posts_and_equal_stamps() {
    let script = "(yard (0 both) (1 both))\n(order 0 7)\n(order 1 8)\n(roll)\n";
    let expected = "\
(post 0 (clock 2) (sent 1) (log (1 0 7) (1 1 8)))
(post 1 (clock 2) (sent 1) (log (1 0 7) (1 1 8)))
";
    assert_eq!(printed(script), expected);
    assert_eq!(ran(script).1, Roll(6));
}

#[test]
fn p7_a_frame_heard_twice() {
    let once = first_lines(3);
    let twice = once.clone() + "(hear 1 0)\n";
    let expected = "\
(post 0 (clock 1) (sent 1) (log))
(post 1 (clock 2) (sent 0) (log))
(post 2 (clock 0) (sent 0) (log))
";
    assert_eq!(printed(&once), expected);
    assert_eq!(printed(&twice), expected);
    assert_eq!(ran(&once).1, Hear(Taken(0)));
    assert_eq!(ran(&twice).1, Hear(Again(0)));
    assert_eq!(ran(&once).0, ran(&twice).0);
}

#[test]
fn p8_serial_2_heard_before_serial_1() {
    let mut script = String::from("(yard (0 source) (2 dest))\n(order 0 11)\n(order 0 12)\n");
    for (line, answer, log) in [
        ("(hear 2 1)\n", Early(0), ""),
        ("(hear 2 0)\n", Taken(1), " (1 0 11)"),
        ("(hear 2 1)\n", Taken(1), " (1 0 11) (2 0 12)"),
    ] {
        script += line;
        let source = "(post 0 (clock 2) (sent 2) (log))\n";
        let expected = format!("{source}(post 2 (clock 0) (sent 0) (log{log}))\n");
        assert_eq!(printed(&script), expected);
        assert_eq!(ran(&script).1, Hear(answer));
    }
}

#[test]
fn p9_entries_with_serial_0_and_with_stamp_0() {
    let mut frame = P2;
    frame[14..17].copy_from_slice(&[0, 0, 1]);
    assert_eq!(check(&frame), 0);
    let entry = Frame::read(&frame).expect("a good frame").entries[2];
    assert_eq!((entry.serial.0, entry.stamp.0), (0, 1));
    frame[14..17].copy_from_slice(&[1, 0, 0]);
    assert_eq!(check(&frame), 11);
    assert_eq!(Frame::read(&frame), Err(11));
}

#[test]
fn frames_and_buffers_of_31_and_33_bytes() {
    let mut post = Post::fresh(1, 0b11, 0b11, 0b11).expect("lane 1 is in the yard");
    let mut long = [0; 33];
    long[..32].copy_from_slice(&P2);
    for length in [31, 33] {
        let frame = &long[..length];
        assert_eq!(check(frame), 6);
        assert_eq!(post.hear(frame, &mut [0; 32]), Err(6));
        let buffer = &mut vec![0; length];
        assert_eq!(post.hear(&P2, buffer), Err(6));
        assert_eq!(post.order(5, buffer), Err(6));
        assert_eq!(post.beacon(buffer), Err(6));
    }
}

#[test]
fn the_sixteenth_order_and_the_seventeenth() {
    let mut script = String::from("(yard (0 both))\n");
    let mut log = String::new();
    for number in 1..=16 {
        script += &format!("(order 0 {})\n", 100 + number);
        log += &format!(" ({number} 0 {})", 100 + number);
    }
    let post = format!("(post 0 (clock 16) (sent 16) (log{log}))\n");
    assert_eq!(printed(&script), post);
    let Order(answer) = ran(&script).1 else {
        panic!("the sixteenth order is sent");
    };
    assert_eq!((answer.serial, answer.count), (Serial(16), 1));
    script += "(order 0 117)\n";
    assert_eq!(printed(&script), format!("(refused 18 23)\n{post}"));
    assert_eq!(ran(&script).1, Refused(23));
}

#[test]
fn beacon_128_and_beacon_129() {
    let mut script = String::from("(yard (0 relay) (1 relay))\n") + &"(beacon 0)\n".repeat(128);
    let posts = "(post 0 (clock 0) (sent 0) (log))\n(post 1 (clock 0) (sent 0) (log))\n";
    assert_eq!(printed(&script), posts);
    assert_eq!(ran(&script).1, Beacon);
    script += "(beacon 0)\n";
    assert_eq!(printed(&script), format!("(refused 130 27)\n{posts}"));
    assert_eq!(ran(&script).1, Refused(27));
    // The other post is still granted its own.
    script += "(beacon 1)\n";
    assert_eq!(printed(&script), format!("(refused 130 27)\n{posts}"));
    assert_eq!(ran(&script).1, Beacon);
}
