//! What `state` marks is what a frame changed: all of it, and nothing else.

use explained::lines::cut;
use explained::state::{compared, Mark};
use reference::generator;
use reference::state::State;
use reference::world::World;

fn marked(before: &State, after: &State) -> usize {
    let sections = compared(before, after);
    let entries = sections.iter().flat_map(|section| &section.entries);
    entries.filter(|entry| entry.mark != Mark::Same).count()
}

/// A state with no more of a chare's highest TN at its restart than the rules read: the holes below it. A checkpoint may change the
/// rest, and nobody sees it.
fn read(mut state: State) -> State {
    let World { chares, copies, .. } = &mut state.world;
    for chare in chares.iter_mut().chain(copies) {
        chare.restart_high = chare.holes().last().map_or(0, |hole| hole + 1);
    }
    state
}

#[test]
fn a_change_is_marked_and_nothing_else() {
    for seed in 0..25 {
        let mut state = State::new();
        for (at, line) in cut(&generator::list(seed, 300)).into_iter().enumerate() {
            let before = state.clone();
            state.line(line);
            let changed = read(before.clone()) != read(state.clone());
            let marked = marked(&before, &state) > 0;
            assert_eq!(marked, changed, "seed {seed}, frame {}", at + 1);
        }
    }
}

/// Every number that a state holds is shown: one that is made other shows.
#[test]
fn every_part_is_shown() {
    let lists = (0..60).map(|seed| generator::list(seed, 400));
    let played = lists.map(|list| {
        let mut state = State::new();
        for line in cut(&list) {
            state.line(line);
        }
        state
    });
    let mut tried = [0; 16];
    for state in played.filter(|state| state.job.is_some()) {
        let changes: [fn(&mut State) -> bool; 16] = [
            |s| {
                change(s.world.chares.iter_mut().find(|c| c.height > 0), |c| {
                    c.state ^= 1
                })
            },
            |s| {
                change(s.world.chares.iter_mut().find(|c| c.height > 0), |c| {
                    c.height += 1
                })
            },
            |s| {
                change(
                    s.world.chares.iter_mut().find(|c| c.seen[0].mark > 0),
                    |c| c.seen[0].mark += 1,
                )
            },
            |s| {
                change(
                    s.world.chares.iter_mut().find(|c| c.seen[0].mark > 0),
                    |c| c.seen[0].window ^= 1 << 63,
                )
            },
            |s| {
                change(
                    s.world.chares.iter_mut().find(|c| c.seen[0].mark > 0),
                    |c| c.seen[0].window ^= 1 << 127,
                )
            },
            |s| {
                change(s.world.chares.iter_mut().find(|c| c.sent[0] > 0), |c| {
                    c.sent[0] += 1
                })
            },
            |s| {
                change(s.world.desk.sent.iter_mut().find(|sn| **sn > 0), |sn| {
                    *sn -= 1
                })
            },
            |s| change(entry(s), |e| e.tn += 100),
            |s| change(entry(s), |e| e.noted = !e.noted),
            |s| {
                change(entry(s), |e| {
                    e.received = e.received.xor(Some(Default::default()))
                })
            },
            |s| {
                change(s.world.desk.log.0.first_mut(), |m| {
                    m.tn = m.tn.xor(Some(77))
                })
            },
            |s| change(s.world.desk.log.0.first_mut(), |m| m.body.value ^= 1),
            |s| {
                change(s.world.backups.iter_mut().find(|b| b.has_copy), |b| {
                    b.has_copy = false
                })
            },
            |s| {
                change(s.world.copies.iter_mut().find(|c| c.height > 0), |c| {
                    c.state ^= 1
                })
            },
            |s| {
                change(
                    s.world.backups.iter_mut().find(|b| !b.notes.is_empty()),
                    |b| b.notes.clear(),
                )
            },
            |s| {
                change(
                    (!s.world.wire.is_empty()).then_some(&mut s.world.wire),
                    |w| w.remove(0),
                )
            },
        ];
        for (at, make) in changes.iter().enumerate() {
            let mut other = state.clone();
            if make(&mut other) {
                tried[at] += 1;
                assert!(marked(&state, &other) > 0, "change {at}");
            }
        }
    }
    assert!(tried.iter().all(|&n| n > 0), "{tried:?}");
}

/// A window is told in stretches: 128 numbers can still be read.
#[test]
fn a_window_can_be_read() {
    let mut state = State::new();
    assert!(state.line(b"0102020201010200020000").is_accepted());
    for (window, want) in [
        (0b10, "window: SN 302 worked too"),
        (0b110, "window: SN 302 and 303 worked too"),
        (0b1110, "window: SN 302 to 304 worked too"),
        (
            u128::MAX - 0b1001,
            "window: SN 302, 303 and 305 to 428 worked too",
        ),
        (
            1 << 127 | 0b111 << 63 | 1 << 1,
            "window: SN 302, 364 to 366 and 428 worked too",
        ),
    ] {
        state.world.chares[0].seen[0].mark = 300;
        state.world.chares[0].seen[0].window = window;
        let sections = compared(&state, &state);
        let mut entries = sections.iter().flat_map(|section| &section.entries);
        let want = format!("worked of the desk: mark 300, {want}");
        assert!(entries.any(|entry| entry.text == want), "{want}");
    }
}

fn entry(state: &mut State) -> Option<&mut reference::table::Entry> {
    let mut chares = state.world.chares.iter_mut();
    chares.find_map(|chare| chare.table.0.first_mut())
}

/// Changes a part, if there is one.
fn change<T>(part: Option<&mut T>, make: impl FnOnce(&mut T)) -> bool {
    part.map(make).is_some()
}
