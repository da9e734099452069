//! What can be promised of a list, on lists written by hand.

use reference::promise::{play, Promise};
use reference::state::State;
use reference::values::{values, with_values};

/// Three machines, each with the next as its buddy; chare 1 on 1 writes to chare 2 on 2, chare 3 on 3.
const JOB: &str = "010303020301010200020000030000";

fn seen(frames: &[&str]) -> Vec<Promise> {
    let mut state = State::new();
    let mut seen = Vec::new();
    for frame in [JOB].iter().chain(frames) {
        play(&mut state, frame.as_bytes(), &mut seen);
    }
    seen
}

/// The desk asks chare 1, which gives a ticket: its GRANT is on the wire.
const GRANTED: [&str; 2] = ["1001000301", "110100010001"];

#[test]
fn a_grant_is_lost_with_its_giver_alone() {
    let after = |more: &[&str]| seen(&[&GRANTED[..], more].concat());
    assert_eq!(after(&["1401"]), [Promise::Crash, Promise::GrantLost]);
    // Another machine gave nothing; a GRANT that has arrived is not lost; a refused crash loses nothing.
    assert_eq!(after(&["1402"]), [Promise::Crash]);
    assert_eq!(after(&["110200010001", "1401"]), [Promise::Crash]);
    assert_eq!(
        after(&["1401", "1401"]),
        [Promise::Crash, Promise::GrantLost]
    );
}

#[test]
fn a_crash_while_another_catches_up() {
    // Chare 1's ticket is in the desk's log, so machine 1 has to work it again.
    let before = [&GRANTED[..], &["110200010001", "1401"]].concat();
    let after = |more: &[&str]| seen(&[&before[..], more].concat());
    assert_eq!(
        after(&["1501", "1403"]),
        [
            Promise::Crash,
            Promise::Restart,
            Promise::Lost,
            Promise::LostCatchingUp
        ]
    );
    // Its own catching up is not another's, and neither is a machine that is down.
    assert_eq!(
        after(&["1501", "1401"]),
        [Promise::Crash, Promise::Restart, Promise::Lost]
    );
    assert_eq!(after(&["1403"]), [Promise::Crash, Promise::Lost]);
}

/// Two tickets of chare 1, of which the desk knows the second: the first is a hole.
#[test]
fn a_hole() {
    let two = [
        "1001000301",
        "1001000401",
        "110100010001",
        "110100010002",
        "110200010002",
    ];
    let after = |more: &[&str]| seen(&[&two[..], more].concat());
    assert_eq!(
        after(&["1401", "1501"]),
        [
            Promise::Crash,
            Promise::GrantLost,
            Promise::Restart,
            Promise::Hole
        ]
    );
    assert_eq!(
        after(&["110200010001", "1401", "1501"]),
        [Promise::Crash, Promise::Restart]
    );
}

/// Chare 2 has worked chare 1's message and made a checkpoint when chare 1, after its crash, asks for it again.
#[test]
fn an_old_ticket() {
    let worked = [
        "1001000301",
        "110100010001",
        "110200010001",
        "110300010001",
        "1201",
        "110101020001",
        "110201020001",
        "110301020001",
        "1202",
        "1302",
        "1401",
        "1501",
        "110300010001",
        "1201",
        "110101020001",
    ];
    let until = seen(&worked);
    assert_eq!(until, [Promise::Crash, Promise::Restart]);
    let arrived = seen(&[&worked[..], &["110201020001"]].concat());
    assert_eq!(arrived, [&until[..], &[Promise::Old]].concat());
}

#[test]
fn a_withdrawal() {
    assert_eq!(seen(&["1001000301", "1701"]), [Promise::Withdraw]);
    assert_eq!(seen(&["1701"]), []);
}

#[test]
fn values_of_injections_alone() {
    // A refused injection has a value too; what is no injection keeps every byte.
    let list = b"100100FF01\n1201\n10G1000301\n 1001000301\n1063abCD07\r\n1063abCD07\n1001000";
    assert_eq!(values(list), [255, 0xABCD]);
    let other = with_values(list, [7, 0xBEEF]);
    let want = b"1001000701\n1201\n10G1000301\n 1001000301\n1063abCD07\r\n1063BEEF07\n1001000";
    assert_eq!(other, want);
}
