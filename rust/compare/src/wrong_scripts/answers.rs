//! Libraries that answer wrongly, or use wrongly a state that is refused.

use super::assert_noticed;
use crate::answer::{Answer, Answered};
use crate::library::Library;
use crate::patched::Patched;
use crate::second::Second;
use crate::state::STATE_CELLS;

/// A library that answers rightly and then changes its answer.
fn misanswers(change: impl Fn(&mut Answered) + 'static) -> Patched {
    Patched {
        script_state: Box::new(move |script, air, state| {
            let answer = Second.script_state(script, air, state);
            let mut answered = Answered::read(answer).expect("a right answer");
            change(&mut answered);
            answered.number()
        }),
        ..Patched::default()
    }
}

/// A change of the answers of one kind.
type WrongAnswer = (&'static str, Answer, fn(&mut Answered));

const WRONG_ANSWERS: [WrongAnswer; 14] = [
    (
        "a refused step has another number",
        Answer::Refused,
        |answered| answered.refusal ^= 1,
    ),
    (
        "an order has another serial",
        Answer::OrderSent,
        |answered| answered.serial += 1,
    ),
    (
        "an order has another stamp",
        Answer::OrderSent,
        |answered| answered.stamp ^= 0x100,
    ),
    (
        "an order delivers one more",
        Answer::OrderSent,
        |answered| answered.count += 1,
    ),
    ("taken delivers one more", Answer::Taken, |answered| {
        answered.count += 1
    }),
    ("again is taken", Answer::Again, |answered| {
        answered.answer = Answer::Taken
    }),
    ("early is again", Answer::Early, |answered| {
        answered.answer = Answer::Again
    }),
    ("a beacon heard was sent", Answer::BeaconHeard, |answered| {
        answered.answer = Answer::BeaconSent
    }),
    ("no step is a refusal", Answer::NoStep, |answered| {
        answered.answer = Answer::Refused
    }),
    (
        "a roll call has a step more",
        Answer::RollCallRan,
        |answered| answered.steps_or_line += 1,
    ),
    (
        "a refused script has another line",
        Answer::ScriptRefused,
        |answered| answered.steps_or_line += 1,
    ),
    (
        "a refused script has another number",
        Answer::ScriptRefused,
        |answered| answered.refusal ^= 1,
    ),
    (
        "a refused script is a refused step",
        Answer::ScriptRefused,
        |answered| answered.answer = Answer::Refused,
    ),
    (
        "a refused state has no number",
        Answer::StateRefused,
        |answered| answered.refusal = 0,
    ),
];

#[test]
fn wrong_answers_are_noticed() {
    for (name, answer, change) in WRONG_ANSWERS {
        let wrong = misanswers(move |answered| {
            if answered.answer == answer {
                change(answered);
            }
        });
        assert_noticed(name, "answer", wrong);
    }
    let short = misanswers(|answered| answered.steps_or_line &= 0xFF);
    assert_noticed("a line has one byte", "answer", short);
    let from_0 = misanswers(|answered| {
        let line = answered.steps_or_line;
        if answered.answer == Answer::ScriptRefused && line > 1 {
            answered.steps_or_line -= 1;
        }
    });
    assert_noticed("lines are counted from the first step", "answer", from_0);
}

#[test]
fn wrong_uses_of_a_lent_state_are_noticed() {
    let state_of_bad = Patched {
        script_state: Box::new(|script, air, state| {
            let answer = Second.script_state(script, air, state);
            let answered = Answered::read(answer).expect("a right answer");
            if answered.answer == Answer::ScriptRefused {
                state.fill(0);
            }
            answer
        }),
        ..Patched::default()
    };
    assert_noticed("a bad script empties the state", "state", state_of_bad);
    let any_length = Patched {
        script_state: Box::new(|script, air, state| {
            let cells = state.len().min(STATE_CELLS);
            Second.script_state(script, air, &mut state[..cells])
        }),
        ..Patched::default()
    };
    assert_noticed("a longer state is written", "state", any_length);
    let air_of_state = Patched {
        script_state: Box::new(|script, air, state| {
            Second.script_state(script, &mut air.to_vec(), state)
        }),
        ..Patched::default()
    };
    assert_noticed("the state leaves the air as it was", "air", air_of_state);
}

#[test]
fn states_judged_too_late_are_noticed() {
    let script_first = Patched {
        script_state: Box::new(|script, air, state| {
            let mut whole = vec![0; STATE_CELLS];
            let judged = Second.script_state(script, &mut air.to_vec(), &mut whole);
            match Answered::read(judged).is_some_and(Answered::has_run) {
                true => Second.script_state(script, air, state),
                false => judged,
            }
        }),
        ..Patched::default()
    };
    assert_noticed(
        "the script is judged before the state",
        "answer",
        script_first,
    );
    let air_of_refused = Patched {
        script_state: Box::new(|script, air, state| match state.len() {
            STATE_CELLS => Second.script_state(script, air, state),
            _ => {
                Second.script_state(script, air, &mut vec![0; STATE_CELLS]);
                Answered::bad_state().number()
            }
        }),
        ..Patched::default()
    };
    assert_noticed("a refused state changes the air", "air", air_of_refused);
}
