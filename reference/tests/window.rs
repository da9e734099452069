//! Point 5: what the lookup of an SN replies, and how the marking of a worked SN changes it.

use reference::seen::{Reply, Seen};

fn seen(mark: u16, worked: impl IntoIterator<Item = u16>) -> Seen {
    let mut seen = Seen { mark, window: 0 };
    for sn in worked {
        seen.add(sn);
    }
    seen
}

#[test]
fn three_replies() {
    for mark in [0, 1, 63, 64, 65, 127, 128, 129, 59_872] {
        let seen = seen(mark, []);
        for (sn, reply) in [
            (mark, Reply::Worked),
            (mark + 1, Reply::Open),
            (mark + 64, Reply::Open),
            (mark + 65, Reply::Open),
            (mark + 128, Reply::Open),
            (mark + 129, Reply::Beyond(1)),
            (mark + 130, Reply::Beyond(2)),
            (mark + 300, Reply::Beyond(172)),
        ] {
            assert_eq!(seen.look(sn), reply, "mark {mark}, SN {sn}");
        }
    }
    assert_eq!(seen(9, []).look(1), Reply::Worked);
    assert_eq!(seen(0, []).look(65_535), Reply::Beyond(65_407));
}

/// Above the mark a worked SN is one whose bit is set, from the window's second number to its last.
#[test]
fn worked_above_the_mark() {
    for above in 2..=128 {
        let seen = seen(100, [100 + above]);
        assert_eq!((seen.mark, seen.window), (100, 1 << (above - 1)));
        for other in 1..=128 {
            let reply = match other == above {
                true => Reply::Worked,
                false => Reply::Open,
            };
            assert_eq!(seen.look(100 + other), reply, "bit of {above}, {other}");
        }
        assert_eq!(seen.look(229), Reply::Beyond(1));
    }
}

/// For every length of the run: SN mark + 1 closes it, and what is worked behind the gap comes down
/// with the window.
#[test]
fn the_run_of_ones() {
    for run in 1..=128 {
        // Behind the run stays a gap; of the rest every third is worked, and the last.
        let behind = |sn: &u16| *sn > run + 1 && (sn.is_multiple_of(3) || *sn == 128);
        let worked: Vec<u16> = (2..=128).filter(|sn| *sn <= run || behind(sn)).collect();
        let mut seen = seen(40, worked.iter().map(|sn| 40 + sn));
        assert_eq!(seen.mark, 40);
        seen.add(41);
        assert_eq!(seen.mark, 40 + run, "run of {run}");
        for sn in 1..=128 + run {
            let reply = match sn <= run || worked.contains(&sn) {
                true => Reply::Worked,
                false => Reply::Open,
            };
            assert_eq!(seen.look(40 + sn), reply, "run of {run}, {sn}");
        }
        assert_eq!(seen.look(40 + 129 + run), Reply::Beyond(1));
    }
}

#[test]
fn only_an_open_number_is_marked() {
    let before = seen(50, [52, 120, 178]);
    for sn in [1, 50, 52, 120, 178, 179, 180, 60_000, 65_535] {
        let mut after = before;
        after.add(sn);
        assert_eq!(after, before, "SN {sn}");
    }
    let full = seen(0, 2..=128);
    let mut after = full;
    after.add(129);
    assert_eq!(after, full);
    after.add(1);
    assert_eq!(after, seen(128, []));
}
