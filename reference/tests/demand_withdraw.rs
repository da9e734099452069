//! Demand 3 with frame 17: the crash-free run has the injections that were not withdrawn, and a run
//! with others is seen.

use reference::answer::{Answer, Question};
use reference::check::{check_from_nothing, Checked, Checker, Violation};
use reference::frame::{parse, Frame};
use reference::generator::list;
use reference::job::ix;
use reference::message::{Body, Lookup, Message};
use reference::run::Injection;
use reference::world::Desk;

/// One chare on each of two machines. Chare 1 works the value 3; 4 is sent to it and, when 5 is sent
/// to chare 2, withdrawn.
const WITHDRAWN: [&str; 9] = [
    "0102020000010000020000",
    "1001000300",
    "110100010001",
    "110200010001",
    "110300010001",
    "1201",
    "1001000400",
    "1002000500",
    "1701",
];

/// Chare 1 gets and works 6 in its place.
const IN_ITS_PLACE: [&str; 5] = [
    "1001000600",
    "110100010002",
    "110200010002",
    "110300010002",
    "1201",
];

fn play(frames: &[&str]) -> Checked {
    let mut list = Checked::new();
    go_on(&mut list, frames);
    list
}

fn go_on(list: &mut Checked, frames: &[&str]) {
    for frame in frames {
        let answer = list.line(frame.as_bytes()).unwrap();
        assert!(matches!(answer, Answer::Accepted(_)), "{frame}: {answer:?}");
    }
    assert!(list.state.is_quiet());
}

fn injection(chare: u8, value: u16) -> Injection {
    Injection {
        chare,
        body: Body { value, hops: 0 },
    }
}

fn desk_message(receiver: u8, sn: u16, value: u16) -> Message {
    Message {
        sender: 0,
        receiver,
        sn,
        body: Body { value, hops: 0 },
    }
}

fn verdict(list: &Checked, injections: &[Injection]) -> Result<(), Violation> {
    let mut history = list.history.clone();
    history.injections = injections.to_vec();
    let job = list.state.job.as_ref().unwrap();
    check_from_nothing(job, &list.state, &history).map(|_| ())
}

#[test]
fn the_last_to_that_chare_is_taken_out() {
    let mut list = play(&WITHDRAWN);
    assert_eq!(list.history.injections, [injection(1, 3), injection(2, 5)]);
    assert_eq!(verdict(&list, &list.history.injections), Ok(()));
    go_on(&mut list, &IN_ITS_PLACE);
    let three = [injection(1, 3), injection(2, 5), injection(1, 6)];
    assert_eq!(list.history.injections, three);
    assert_eq!(verdict(&list, &three), Ok(()));
    assert_eq!(list.history.sequences[0].len(), 2);
}

/// Among equal injections the place matters too.
#[test]
fn of_equal_injections_the_last_is_taken_out() {
    let list = play(&[
        WITHDRAWN[0],
        "1001000300",
        "1002000500",
        "1001000300",
        "1701",
    ]);
    assert_eq!(list.history.injections, [injection(1, 3), injection(2, 5)]);
}

/// A refused withdrawal takes nothing out.
#[test]
fn a_refused_withdrawal_takes_nothing_out() {
    let mut list = play(&WITHDRAWN);
    let before = list.history.injections.clone();
    for (frame, line) in [("1701", "12\n"), ("1703", "03\n"), ("17", "01\n")] {
        let mut out = Vec::new();
        list.line(frame.as_bytes()).unwrap().print(&mut out);
        assert_eq!(out, line.as_bytes());
    }
    assert_eq!(list.history.injections, before);
}

#[test]
fn the_first_instead_is_seen() {
    let mut list = play(&WITHDRAWN);
    let wrong = [injection(1, 4), injection(2, 5)];
    assert_eq!(
        verdict(&list, &wrong),
        Err(Violation::Sequence { chare: 1 })
    );
    go_on(&mut list, &IN_ITS_PLACE);
    let wrong = [injection(1, 4), injection(2, 5), injection(1, 6)];
    assert_eq!(
        verdict(&list, &wrong),
        Err(Violation::Sequence { chare: 1 })
    );
}

#[test]
fn the_last_of_all_instead_is_seen() {
    let list = play(&WITHDRAWN);
    let wrong = [injection(1, 3), injection(1, 4)];
    let missing = Violation::NotLogged(desk_message(1, 2, 4));
    assert_eq!(verdict(&list, &wrong), Err(missing));
}

#[test]
fn nothing_taken_out_is_seen() {
    let mut list = play(&WITHDRAWN);
    let wrong = [injection(1, 3), injection(1, 4), injection(2, 5)];
    let missing = Violation::NotLogged(desk_message(1, 2, 4));
    assert_eq!(verdict(&list, &wrong), Err(missing));
    go_on(&mut list, &IN_ITS_PLACE);
    let wrong = [&wrong[..], &[injection(1, 6)]].concat();
    assert_eq!(
        verdict(&list, &wrong),
        Err(Violation::Sequence { chare: 1 })
    );
}

/// The extending check sees the same at the next quiet moment.
#[test]
fn the_extending_check_fails_too() {
    let before = play(&WITHDRAWN[..8]);
    let after = play(&WITHDRAWN);
    let check = |injections: &[Injection], withdrawals: usize| {
        let mut checker = Checker::new();
        assert_eq!(checker.check(&before.state, &before.history), Ok(()));
        let mut history = after.history.clone();
        history.injections = injections.to_vec();
        history.withdrawals = withdrawals;
        checker.check(&after.state, &history)
    };
    let missing = Violation::NotLogged(desk_message(1, 2, 4));
    let all = &before.history.injections;
    assert_eq!(check(&after.history.injections, 1), Ok(()));
    assert_eq!(check(all, 0), Err(missing.clone()));
    assert_eq!(check(all, 1), Err(missing));
    assert_eq!(
        check(&[injection(1, 4), injection(2, 5)], 1),
        Err(Violation::Sequence { chare: 1 })
    );
}

/// What was worked at a quiet moment stays worked, over a withdrawal too.
#[test]
fn a_lost_beginning_is_seen() {
    let before = play(&WITHDRAWN[..8]);
    let mut checker = Checker::new();
    assert_eq!(checker.check(&before.state, &before.history), Ok(()));
    // As if chare 1 were put back to its start.
    let mut after = play(&WITHDRAWN);
    after.history.sequences[0].clear();
    after.state.world.chare_mut(1).state = 1;
    after.state.world.chare_mut(1).height = 0;
    assert_eq!(verdict(&after, &after.history.injections), Ok(()));
    assert_eq!(
        checker.check(&after.state, &after.history),
        Err(Violation::Prefix { chare: 1 })
    );
}

/// What a rival sees of a withdrawal besides the list, which it may change.
struct Seen {
    chare: u8,
    accepted: bool,
    /// Both as they were before.
    injections: Vec<Injection>,
    desk: Desk,
}

type Rival = fn(&mut Checked, &Seen);

/// In how many of 40 random lists the check sees a rival.
fn caught(rival: Rival) -> usize {
    let is_seen = |input: &[u8]| {
        let mut list = Checked::new();
        for line in input.split(|&b| b == b'\n') {
            let injections = list.history.injections.clone();
            let desk = list.state.world.desk.clone();
            let Ok(answer) = list.line(line) else {
                return true;
            };
            let refused = answer == Answer::Refused(Question::Withdrawable);
            let (Some(Frame::Withdraw { chare }), true) =
                (parse(line), refused || answer.is_accepted())
            else {
                continue;
            };
            let seen = Seen {
                chare,
                accepted: answer.is_accepted(),
                injections,
                desk,
            };
            rival(&mut list, &seen);
        }
        false
    };
    (0..40).filter(|&seed| is_seen(&list(seed, 1500))).count()
}

#[test]
fn no_rival() {
    assert_eq!(caught(|_, _| {}), 0);
}

#[test]
fn a_rival_that_takes_no_injection_out() {
    let lists = caught(|list, seen| list.history.injections = seen.injections.clone());
    assert!(lists > 20, "{lists}");
}

#[test]
fn a_rival_that_takes_the_first_out() {
    let lists = caught(|list, seen| {
        if seen.accepted {
            let mut injections = seen.injections.clone();
            let first = injections.iter().position(|i| i.chare == seen.chare);
            injections.remove(first.unwrap());
            list.history.injections = injections;
        }
    });
    assert!(lists > 20, "{lists}");
}

#[test]
fn a_rival_that_takes_the_last_of_all_out() {
    let lists = caught(|list, seen| {
        if seen.accepted {
            list.history.injections = seen.injections.clone();
            list.history.injections.pop();
        }
    });
    assert!(lists > 20, "{lists}");
}

#[test]
fn a_rival_that_keeps_the_number() {
    let lists = caught(|list, seen| list.state.world.desk.sent = seen.desk.sent);
    assert!(lists > 20, "{lists}");
}

#[test]
fn a_rival_that_keeps_the_message() {
    let lists = caught(|list, seen| {
        if seen.accepted {
            let sn = seen.desk.sent[ix(seen.chare)];
            let mut log = seen.desk.log.0.iter();
            let last = log.find(|m| m.receiver == seen.chare && m.sn == sn);
            list.state.world.desk.log.0.push(*last.unwrap());
        }
    });
    assert!(lists > 20, "{lists}");
}

/// It withdraws a message that has its TN, perhaps a worked one.
#[test]
fn a_rival_that_does_not_ask_for_the_tn() {
    let lists = caught(|list, seen| {
        let world = &mut list.state.world;
        let last = world.last_injected(seen.chare);
        if let (false, Lookup::Ticketed(at)) = (seen.accepted, last.logged) {
            world.desk.log.0.remove(at);
            world.desk.sent[ix(seen.chare)] -= 1;
            let injections = &mut list.history.injections;
            let last = injections.iter().rposition(|i| i.chare == seen.chare);
            injections.remove(last.unwrap());
            list.history.withdrawals += 1;
        }
    });
    assert!(lists > 20, "{lists}");
}
