//! The rows of many lists, and what is said where a processing that is done again is not the same.

mod common;

use common::told::{told, Told};
use common::{list, names, row};
use explained::before::order::Order;
use explained::before::row::Row;
use explained::before::Wrong;
use explained::engine;
use explained::play::Step;
use reference::answer::{Answer, Rule};
use reference::frame::Frame;
use reference::generator;
use reference::state::State;

/// Records and frames are those that the words tell, and none was other when it was done again. Says how many were done again.
fn check(what: &str, list: &[u8]) -> usize {
    let row = row(list);
    assert_eq!(row.changed, None, "{what}");
    let found: Vec<Told> = row
        .works
        .iter()
        .map(|work| (work.record, work.frames.clone()))
        .collect();
    assert_eq!(found, told(list), "{what}");
    let order = Order::new(&row.works, Some(engine::precedes));
    let long = (row.works.len() > 512).then_some(513);
    assert_eq!(order.bad(), Ok(long), "{what}");
    row.works.iter().map(|work| work.frames.len() - 1).sum()
}

#[test]
fn rows_of_stored_lists() {
    for name in names() {
        check(&name, &list(&name));
    }
}

/// Many a processing is done again, and always the same one.
#[test]
fn rows_of_random_lists() {
    let again: usize = (0..700)
        .map(|seed| check(&format!("seed {seed}"), &generator::list(seed, 300)))
        .sum();
    assert!(again > 1000, "{again}");
}

#[test]
fn rows_of_long_random_lists() {
    let lists = (0..12).map(|seed| generator::list(seed, 6000));
    let long = lists
        .enumerate()
        .filter(|(seed, list)| {
            check(&format!("seed {seed}"), list);
            row(list).works.len() > 512
        })
        .count();
    assert!(long > 0);
}

/// A chare of the rule book's sitting before its first work, with its message there.
fn ready() -> State {
    let mut state = State::new();
    for line in list("00-the-rule-books-sitting")
        .split(|&b| b == b'\n')
        .take(5)
    {
        assert!(state.line(line).is_accepted());
    }
    state
}

/// A work of chare 1 from one state to another, as if it had been accepted.
fn see(row: &mut Row, number: usize, before: &State, after: &State) {
    row.see(&Step {
        number,
        given: b"1201",
        frame: Some(Frame::Work { chare: 1 }),
        answer: Answer::Accepted(Rule::Other),
        line: "00J",
        before,
        after,
        lost_at: None,
    });
}

/// The same work twice, the second time after a change of the state before it and of the one after it.
fn again(change: impl Fn(&mut State, &mut State)) -> Option<String> {
    let mut row = Row::default();
    let (mut before, mut after) = (ready(), ready());
    assert!(after.line(b"1201").is_accepted());
    see(&mut row, 6, &before, &after);
    assert_eq!(row.works.len(), 1);
    change(&mut before, &mut after);
    see(&mut row, 11, &before, &after);
    let changed = row.order(None).err();
    changed.map(|changed| Wrong::from(changed).to_string())
}

/// No list does this: demand 3 is proved. Here the states are made by hand.
#[test]
fn one_that_changes_is_told_loudly() {
    assert_eq!(again(|_, _| {}), None);
    let entry = |state: &mut State| state.world.chares[0].table.0[0];
    let set = |state: &mut State, sender: u8, sn: u16, value: u16| {
        let mut new = entry(state);
        (new.sender, new.sn) = (sender, sn);
        let mut body = new.received.expect("a message");
        body.value = value;
        new.received = Some(body);
        state.world.chares[0].table.0[0] = new;
    };
    let loud = again(|before, _| set(before, 0, 2, 3)).expect("a change");
    for want in [
        "!!! A PROCESSING DONE AGAIN IS NOT THE SAME\n",
        "!!! processing:            1:1\n",
        "!!! first:                 frame 6: 0→1 #1 (value 3 (hex 0003), hops 1), sent by the desk\n",
        "!!! again:                 frame 11: 0→1 #2 (value 3 (hex 0003), hops 1), sent by the desk\n",
        "!!! By demand 3 this cannot be. Nothing is said of what came before what.\n",
    ] {
        assert!(loud.contains(want), "{loud}");
    }
    // Another sender, another value.
    let loud = again(|before, _| set(before, 2, 1, 3)).expect("a change");
    assert!(
        loud.contains("again:                 frame 11: 2→1 #1 "),
        "{loud}"
    );
    let loud = again(|before, _| set(before, 0, 1, 4)).expect("a change");
    assert!(loud.contains("#1 (value 4 (hex 0004), hops 1), "), "{loud}");
    // A message that was sent at TN 1 goes out again at TN 2.
    let loud = again(|before, after| {
        let mut second = entry(before);
        second.tn = 2;
        before.world.chares[0].table.0.push(second);
        before.world.chares[0].height = 1;
        after.world.chares[0].height = 2;
    });
    let loud = loud.expect("a change");
    for want in [
        "first:                 1→2 #1 is sent by 1:1\n",
        "again:                 1→2 #1 is sent by 1:2\n",
    ] {
        assert!(loud.contains(want), "{loud}");
    }
}
