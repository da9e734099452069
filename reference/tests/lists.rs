//! Random lists: what they reach.

use reference::answer::{Answer, Question};
use reference::census::{Census, Event};
use reference::frame::parse;
use reference::generator::{list, Generator};
use reference::state::State;

/// Counts what a random list reaches.
fn count(mut generator: Generator, census: &mut Census) {
    let mut state = State::new();
    let mut line = Vec::new();
    while generator.next(&state, &mut line) {
        let digits = &line[..line.len() - 1];
        let before = parse(digits).map(|frame| (frame, Census::before(&state, &frame)));
        let answer = state.line(digits);
        match before {
            Some((frame, before)) => census.after(&before, &frame, answer, &state),
            None => census.garbled(answer),
        }
        generator.heard(answer);
        line.clear();
    }
}

/// Random lists take injections back, or try to, in every way that there is.
#[test]
fn withdrawals() {
    let mut census = Census::new();
    for seed in 0..100 {
        count(Generator::new(seed, 1000), &mut census);
        count(Generator::crashing(seed, 1000), &mut census);
    }
    for (event, least) in [
        (Event::Withdrawn, 2000),
        (Event::WithdrawnWhileDown, 120),
        (Event::WithdrawnWhileCatchingUp, 600),
        (Event::WithdrawDown, 200),
        (Event::WithdrawNothing, 120),
        (Event::WithdrawDropped, 200),
        (Event::WithdrawWorked, 500),
        (Event::WithdrawTicketed, 1000),
        (Event::WithdrawAsked, 300),
        (Event::WithdrawTicketAlone, 200),
        (Event::NumberReused, 2000),
        (Event::ReusedWorked, 1500),
    ] {
        let count = census.count(event);
        assert!(count >= least, "{event:?}: {count}");
    }
    assert_eq!(census.count(Event::WithdrawStray), 0);
}

/// Garbled lines name kind 17 with a wrong length, and kind 18, which is none.
#[test]
fn unknown_kinds() {
    let (mut wrong_length, mut unknown) = (0, 0);
    for seed in 0..100 {
        let mut state = State::new();
        for line in list(seed, 1000).split(|&b| b == b'\n') {
            let form = state.line(line) == Answer::Refused(Question::Form);
            wrong_length += usize::from(form && line.starts_with(b"17"));
            unknown += usize::from(form && line.starts_with(b"18"));
        }
    }
    assert!(
        wrong_length >= 25 && unknown >= 25,
        "{wrong_length} {unknown}"
    );
}
