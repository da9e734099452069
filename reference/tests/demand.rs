//! The check of demand 3: it passes on random lists, and it fails when something is wrong.

use reference::answer::{Answer, Question};
use reference::census::{Census, Event};
use reference::check::{check_from_nothing, Checked, Checker, Violation};
use reference::frame::{parse, Frame};
use reference::generator::{list, Generator};
use reference::job::ix;
use reference::long::{limit_list, Limit};
use reference::state::State;

#[test]
fn random_lists() {
    let mut census = Census::new();
    let (mut quiet_moments, mut after_withdrawals) = (0, 0);
    let plain = (0..150).map(|seed| (seed, Generator::new(seed, 2000)));
    let crashing = (0..50).map(|seed| (seed, Generator::crashing(seed, 2000)));
    // Long enough to use the upper half of a window and crash then.
    let long = (150..200).map(|seed| (seed, Generator::new(seed, 8000)));
    for (seed, mut generator) in plain.chain(crashing).chain(long) {
        let mut list = Checked::new();
        let mut line = Vec::new();
        while generator.next(&list.state, &mut line) {
            let digits = &line[..line.len() - 1];
            let answer = match parse(digits) {
                Some(frame) => {
                    let before = Census::before(&list.state, &frame);
                    let answer = list
                        .step(&frame)
                        .unwrap_or_else(|v| panic!("seed {seed}: {v}"));
                    census.after(&before, &frame, answer, &list.state);
                    answer
                }
                None => {
                    let answer = list.line(digits).unwrap();
                    census.garbled(answer);
                    answer
                }
            };
            generator.heard(answer);
            line.clear();
        }
        quiet_moments += list.checker.quiet_moments;
        after_withdrawals += list.checker.after_withdrawals;
    }
    assert!(quiet_moments > 100_000, "{quiet_moments}");
    assert!(after_withdrawals > 1000, "{after_withdrawals}");
    assert!(census.has_all_but_07(), "{census}");
    assert!(census.unseen_letters().is_empty(), "{census}");
    for event in [
        Event::RestartWithHoles,
        Event::HoleTaken,
        Event::RestartStillCatchingUp,
        Event::LostWhileCatchingUp,
        Event::LocalFilled,
        Event::GrantOld,
        Event::GrantReceived,
        Event::GrantDropped,
        Event::WorkedInUpperHalf,
        Event::HalfWindow,
        Event::OverHalfWindow,
        Event::WholeWindow,
        Event::UpperHalfCameDown,
    ] {
        assert!(census.count(event) > 0, "{event:?} never happened");
    }
}

#[test]
fn lists_are_the_same_every_time() {
    assert_eq!(list(5, 800), list(5, 800));
    assert_ne!(list(5, 800), list(6, 800));
}

/// Plain play; the checked one is for the program, which has more time.
#[test]
fn long_lists_end_in_07() {
    for limit in Limit::ALL {
        let input = limit_list(limit);
        let mut state = State::new();
        let lines: Vec<&[u8]> = input.trim_ascii_end().split(|&b| b == b'\n').collect();
        for (at, line) in lines.iter().enumerate() {
            let answer = state.line(line);
            if at + 2 == lines.len() {
                assert_eq!(answer, Answer::Refused(Question::Number), "{limit:?}");
            } else {
                assert!(answer.is_accepted(), "{limit:?}, line {at}: {answer:?}");
            }
        }
    }
}

/// A list with a restart behind it, at a quiet moment: chare 1 has worked three messages, two of
/// them again; it has written to chare 2, which has worked one of three.
fn example() -> Checked {
    let mut list = Checked::new();
    let frames = [
        "0102020000010200020000",
        "1001000301",
        "1001000401",
        "1001000501",
        "110100010001",
        "110100010002",
        "110100010003",
        "110200010001",
        "110200010002",
        "110200010003",
        "110300010001",
        "110300010002",
        "110300010003",
        "1201",
        "1301",
        "1201",
        "1201",
        "110101020001",
        "110201020001",
        "110301020001",
        "1202",
        "1401",
        "1501",
        "110300010002",
        "110300010003",
        "1201",
        "1201",
        "110101020001",
        "110201020001",
        "110101020002",
        "110201020002",
        "110101020003",
        "110201020003",
    ];
    for frame in frames {
        let answer = list.line(frame.as_bytes()).unwrap();
        assert!(answer.is_accepted(), "{frame}: {answer:?}");
    }
    assert!(list.state.is_quiet());
    assert_eq!(list.history.sequences[0].len(), 3);
    assert_eq!(list.history.sequences[1].len(), 1);
    list
}

fn verdict(list: &Checked) -> Result<(), Violation> {
    let job = list.state.job.as_ref().unwrap();
    check_from_nothing(job, &list.state, &list.history).map(|_| ())
}

#[test]
fn the_example_passes() {
    assert_eq!(verdict(&example()), Ok(()));
}

#[test]
fn a_changed_state_is_seen() {
    let mut list = example();
    list.state.world.chare_mut(2).state ^= 1 << 31;
    assert_eq!(verdict(&list), Err(Violation::State { chare: 2 }));
}

#[test]
fn a_raised_height_is_seen() {
    let mut list = example();
    list.state.world.chare_mut(1).height += 1;
    assert_eq!(verdict(&list), Err(Violation::Height { chare: 1 }));
}

#[test]
fn another_value_or_hops_in_a_sequence_is_seen() {
    let mut list = example();
    list.history.sequences[0][1].body.value ^= 1;
    assert_eq!(verdict(&list), Err(Violation::Sequence { chare: 1 }));
    let mut list = example();
    list.history.sequences[0][1].body.hops ^= 1;
    assert_eq!(verdict(&list), Err(Violation::Sequence { chare: 1 }));
}

#[test]
fn another_order_is_seen() {
    let mut list = example();
    list.history.sequences[0].swap(0, 1);
    assert!(verdict(&list).is_err());
}

#[test]
fn a_message_worked_twice_is_seen() {
    let mut list = example();
    let again = list.history.sequences[1][0];
    list.history.sequences[1].push(again);
    assert_eq!(verdict(&list), Err(Violation::Stuck { chare: 2 }));
}

#[test]
fn a_message_that_nobody_sent_is_seen() {
    let mut list = example();
    list.history.sequences[1][0].sn = 9;
    assert_eq!(verdict(&list), Err(Violation::Stuck { chare: 2 }));
    let mut list = example();
    list.history.injections.pop();
    assert_eq!(verdict(&list), Err(Violation::Stuck { chare: 1 }));
}

#[test]
fn an_injection_too_many_is_seen() {
    let mut list = example();
    let more = list.history.injections[0];
    list.history.injections.push(more);
    assert!(matches!(verdict(&list), Err(Violation::NotLogged(m)) if m.sender == 0 && m.sn == 4));
}

#[test]
fn a_message_missing_in_a_log_is_seen() {
    let mut list = example();
    let log = &mut list.state.world.chare_mut(1).log.0;
    let at = log.iter().position(|m| m.sn == 3).unwrap();
    log.remove(at);
    assert!(matches!(verdict(&list), Err(Violation::NotLogged(m)) if m.sender == 1 && m.sn == 3));
    // A logged message with another value does not count either.
    let mut list = example();
    let log = &mut list.state.world.chare_mut(1).log.0;
    let at = log.iter().position(|m| m.sn == 3).unwrap();
    log[at].body.value ^= 1;
    assert!(matches!(verdict(&list), Err(Violation::NotLogged(m)) if m.sender == 1 && m.sn == 3));
}

/// The extending check sees the same as the one from nothing, at the next quiet moment.
#[test]
fn the_extending_check_fails_too() {
    let mut list = example();
    list.state.world.chare_mut(2).state ^= 1;
    assert_eq!(list.line(b"1601"), Err(Violation::State { chare: 2 }));
    let mut list = example();
    let again = list.history.sequences[1][0];
    list.history.sequences[1].push(again);
    assert_eq!(list.line(b"1601"), Err(Violation::Stuck { chare: 2 }));
    let mut list = example();
    list.state.world.chare_mut(1).log.0.clear();
    assert!(matches!(
        list.line(b"1601"),
        Err(Violation::NotLogged(m)) if m.sender == 1
    ));
}

/// What was worked at a quiet moment stays worked.
#[test]
fn a_lost_beginning_is_seen() {
    let list = example();
    let mut checker = Checker::new();
    assert_eq!(checker.check(&list.state, &list.history), Ok(()));
    let (mut state, mut history) = (list.state.clone(), list.history.clone());
    // As if chare 2 were put back to its start, in state, height and sequence.
    history.sequences[1].clear();
    history.restarts += 1;
    state.world.chare_mut(2).state = 2;
    state.world.chare_mut(2).height = 0;
    let job = state.job.as_ref().unwrap();
    assert!(check_from_nothing(job, &state, &history).is_ok());
    assert_eq!(
        checker.check(&state, &history),
        Err(Violation::Prefix { chare: 2 })
    );
}

#[test]
fn wrong_holes_are_seen() {
    let mut list = example();
    list.history.holes[0].insert(9);
    assert_eq!(list.line(b"1601"), Err(Violation::Holes { chare: 1 }));
}

/// A rival that works the first message after a restart and then only raises the height.
#[test]
fn a_rival_that_only_raises_the_height_is_seen() {
    let mut caught = 0;
    for seed in 0..40 {
        let input = list(seed, 1500);
        let mut list = Checked::new();
        let mut worked_since_restart = 0;
        for line in input.split(|&b| b == b'\n') {
            let frame = parse(line);
            let before = list.state.world.chares.clone();
            match list.line(line) {
                Err(_) => {
                    caught += 1;
                    break;
                }
                Ok(Answer::Accepted(_)) => {}
                Ok(_) => continue,
            }
            match frame {
                Some(Frame::Restart { .. }) => worked_since_restart = 1,
                Some(Frame::Work { .. }) if worked_since_restart == 1 => worked_since_restart = 2,
                Some(Frame::Work { chare }) if worked_since_restart == 2 => {
                    list.state.world.chare_mut(chare).state = before[ix(chare)].state;
                }
                _ => {}
            }
        }
    }
    assert!(caught > 20, "{caught}");
}
