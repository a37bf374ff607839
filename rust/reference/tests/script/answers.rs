//! What the last line answers, and that both ways to run a script agree.

use super::{fresh_air, printed_over, ran, SCRIPT};
use drift_reference::frame::{Serial, Stamp};
use drift_reference::post::HearAnswer::{Again, Beacon as Heard, Early, Taken};
use drift_reference::post::OrderAnswer;
use drift_reference::script::run_to_yard;
use drift_reference::script::LastAnswer::{self, Beacon, Hear, Order, Refused, Roll, YardMade};

fn order(serial: u8, stamp: u16, count: u8) -> LastAnswer {
    Order(OrderAnswer {
        serial: Serial(serial),
        stamp: Stamp(stamp),
        count,
    })
}

#[test]
fn the_answer_of_each_line() {
    let mut script = String::new();
    for (line, answer) in [
        ("(yard (0 both) (1 source) (2 dest))", YardMade),
        ("(order 0 417)", order(1, 1, 0)),
        ("(hear 1 0)", Hear(Taken(0))),
        ("(order 1 90)", order(1, 3, 0)),
        ("(hear 2 1)", Hear(Taken(1))),
        ("(hear 0 2)", Hear(Taken(2))),
        ("(hear 2 9)", Refused(25)),
        ("(hear 2 3)", Refused(26)),
        ("(hear 0 1)", Hear(Again(0))),
        ("(order 2 1)", Refused(22)),
        ("(beacon 3)", Refused(21)),
        ("(beacon 1)", Beacon),
        ("(hear 0 5)", Hear(Heard(0))),
        ("(order 1 91)", order(2, 4, 0)),
        ("(order 1 92)", order(3, 5, 0)),
        ("(hear 0 7)", Hear(Early(0))),
        ("(hear 0 6)", Hear(Taken(1))),
        // Four orders, three posts, two sources.
        ("(roll)", Roll(2 * 4 + 3 * 2)),
    ] {
        script += line;
        script.push('\n');
        assert_eq!(ran(&script).1, answer, "{line}");
    }
    let (yard, _) = ran(&script);
    assert_eq!([0, 1, 2].map(|lane| yard.posts[lane].logged), [4, 0, 4]);
}

#[test]
fn both_ways_to_run_leave_the_same_air_and_posts() {
    let scripts = [
        SCRIPT.to_owned(),
        SCRIPT.to_owned() + "(roll)\n(order 1 5)\n(beacon 2)\n(hear 0 7)\n(roll)\n",
    ];
    for script in scripts {
        let (mut air, mut other_air) = (fresh_air(), fresh_air());
        let printout = printed_over(script.as_bytes(), &mut air);
        let ran = run_to_yard(script.as_bytes(), &mut other_air);
        let (yard, _) = ran.expect("a good script");
        assert!(air == other_air);
        for post in yard.posts.iter().take(3) {
            let (lane, clock, sent) = (post.lane, post.clock.0, post.serial.0);
            let start = format!("(post {lane} (clock {clock}) (sent {sent}) (log");
            let line = printout.lines().find(|line| line.starts_with(&start));
            let items = line.expect("the post's line").matches(" (").count() - 3;
            assert_eq!(items, usize::from(post.logged));
        }
    }
}
