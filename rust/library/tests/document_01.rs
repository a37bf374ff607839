//! The static libraries on the examples of document 01 and of request K2, as a host
//! would call them.

use drift_library::{
    frame_check, frame_read, frame_write, run_script, script_state, BadScript, Heard, LastAnswer,
    Sent, State, AIR_LENGTH, FRAME_FIELDS, OUTPUT_LENGTH,
};

const SCRIPT: &[u8] = b"(yard (0 both) (1 source) (2 dest))
(order 0 417)
(hear 1 0)
(order 1 90)
(hear 2 1)
(hear 0 2)
(hear 2 9)
";

const PRINTOUT: &str = "(refused 7 25)
(post 0 (clock 4) (sent 1) (log (1 0 417) (3 1 90)))
(post 1 (clock 3) (sent 1) (log))
(post 2 (clock 0) (sent 0) (log (1 0 417)))
";

/// Frame 4 of the script.
const FRAME: [u8; 32] = {
    let mut bytes = [0; 32];
    let start = [1, 0, 1, 1, 0, 3, 0, 0x5A, 1, 0, 4, 1, 0, 3];
    let mut at = 0;
    while at < start.len() {
        bytes[at] = start[at];
        at += 1;
    }
    bytes
};

#[test]
fn the_script_prints_and_leaves_its_frames() {
    let mut air = vec![0xA5; AIR_LENGTH];
    let mut output = vec![0; OUTPUT_LENGTH];
    let printed = run_script(SCRIPT, &mut air, &mut output);
    assert_eq!(&output[..printed], PRINTOUT.as_bytes());
    assert_eq!(air[4 * 32..5 * 32], FRAME);
    assert_eq!(air[5 * 32..], vec![0xA5; AIR_LENGTH - 5 * 32]);
    assert_eq!(run_script(SCRIPT, &mut air, &mut output[1..]), 0);
}

/// The state and the last answer of a script that is not refused.
fn after(script: &[u8]) -> (State, LastAnswer) {
    script_state(script, &mut vec![0xA5; AIR_LENGTH]).expect("a good script")
}

#[test]
fn the_state_has_the_posts_and_the_last_answer() {
    let (state, answer) = after(SCRIPT);
    assert_eq!(answer, LastAnswer::Refused(25));
    assert_eq!((state.posts, state.sources), (0b111, 0b011));
    assert_eq!((state.frames, state.beacons), (5, [0; 8]));
    // The orders of lanes 0 and 1 are frames 0 and 2.
    assert_eq!((state.first[0], state.first[16]), (0, 2));
    let clocks = state.yard_posts().map(|post| post.clock);
    assert_eq!(clocks.collect::<Vec<u16>>(), [4, 3, 0]);
    let log = state.rows[0].post.logged_orders();
    let log: Vec<_> = log
        .map(|order| (order.stamp, order.lane, order.word))
        .collect();
    assert_eq!(log, [(1, 0, 417), (3, 1, 90)]);
    assert_eq!(state.rows[0].known, [1, 1, 0, 0, 0, 0, 0, 0]);
    assert_eq!(state.rows[1].known, [0; 8]);
    assert_eq!(state.rows[2].known, [1, 0, 0, 0, 0, 0, 0, 0]);
    // A lane without a post has a fresh row with the yard's sets.
    let absent = state.rows[7].post;
    assert_eq!((absent.lane, absent.posts, absent.dests), (7, 0b111, 0b101));
    assert_eq!((absent.clock, absent.logged), (0, 0));
}

#[test]
fn each_answer_of_a_last_line_comes() {
    let with = |lines: &str| {
        let steps = &SCRIPT[..SCRIPT.len() - "(hear 2 9)\n".len()];
        after(&[steps, lines.as_bytes()].concat()).1
    };
    let sent = Sent {
        serial: 2,
        stamp: 5,
        delivered: 0,
    };
    assert_eq!(after(b"(yard (7 relay))\n").1, LastAnswer::NoStep);
    assert_eq!(with(""), LastAnswer::Heard(Heard::Taken(2)));
    assert_eq!(with("(order 0 9)\n"), LastAnswer::OrderSent(sent));
    assert_eq!(with("(hear 0 2)\n"), LastAnswer::Heard(Heard::Again(0)));
    assert_eq!(with("(beacon 1)\n"), LastAnswer::BeaconSent);
    assert_eq!(
        with("(beacon 1)\n(hear 2 5)\n"),
        LastAnswer::Heard(Heard::Beacon(0))
    );
    assert_eq!(with("(roll)\n"), LastAnswer::RollCallRan(10));
}

/// A noisy post spends its own 128 beacons and none of another's.
#[test]
fn each_post_has_beacons_of_its_own() {
    let mut script = b"(yard (0 both) (1 source) (2 dest))\n".to_vec();
    script.extend(b"(beacon 0)\n".repeat(127));
    for (line, expected, beacons) in [
        ("(beacon 0)\n", LastAnswer::BeaconSent, [128, 0, 0]),
        ("(beacon 0)\n", LastAnswer::Refused(27), [128, 0, 0]),
        ("(beacon 1)\n", LastAnswer::BeaconSent, [128, 1, 0]),
        ("(roll)\n", LastAnswer::Refused(27), [128, 1, 0]),
        ("(beacon 2)\n", LastAnswer::BeaconSent, [128, 1, 1]),
    ] {
        script.extend(line.as_bytes());
        let (state, answer) = after(&script);
        assert_eq!(answer, expected, "{line}");
        assert_eq!(
            (&state.beacons[..3], &state.beacons[3..]),
            (&beacons[..], &[0; 5][..])
        );
    }
}

#[test]
fn a_refused_script_leaves_the_air() {
    let mut air = vec![0xA5; AIR_LENGTH];
    for (script, line, number) in [
        (vec![b'('; 48_001], 0, 1),
        (b"".to_vec(), 1, 3),
        (b"(roll)\n".to_vec(), 1, 3),
        (b"(yard (0 both))\n(order 0 65536)\n".to_vec(), 2, 5),
        (b"(yard (0 both))\n(roll)\n(roll)".to_vec(), 3, 2),
    ] {
        let bad = BadScript { line, number };
        assert_eq!(script_state(&script, &mut air), Err(bad));
    }
    assert_eq!(air, vec![0xA5; AIR_LENGTH]);
}

#[test]
fn an_air_of_another_length_leaves_a_fresh_yard() {
    let (state, answer) = script_state(SCRIPT, &mut [0; 32]).expect("a good script");
    assert_eq!(answer, LastAnswer::Refused(13));
    let (fresh, _) = after(b"(yard (0 both) (1 source) (2 dest))\n");
    assert_eq!(state, fresh);
}

#[test]
fn a_frame_is_checked_read_and_written() {
    let mut fields = [0; FRAME_FIELDS];
    assert_eq!(frame_check(&FRAME), 0);
    assert_eq!(frame_read(&FRAME, &mut fields), 0);
    assert_eq!(fields[..10], [1, 0, 1, 1, 3, 90, 1, 4, 1, 3]);
    let mut buffer = [0; 32];
    assert_eq!(frame_write(&fields, &mut buffer), 0);
    assert_eq!(buffer, FRAME);
    fields[1] = 256;
    assert_eq!(frame_write(&fields, &mut buffer), 10);
    assert_eq!(buffer, FRAME);
    assert_eq!(frame_check(&[]), 6);
}
