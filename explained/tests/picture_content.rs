//! What a picture shows, and where.

mod common;

use common::svg::{attribute, number, place, places, said, shapes};
use common::{drawn, explained, list};
use explained::picture::{Drawing, MOST_ROWS};
use reference::generator;

fn example(name: &str) -> String {
    drawn(name, &explained(&list(name)).story)
}

/// One shape a line, every tag closed, nothing fetched from elsewhere.
#[test]
fn self_contained() {
    for seed in 0..80 {
        let picture = drawn("<a> & \"b\"", &explained(&generator::list(seed, 200)).story);
        assert_eq!(picture.matches("<svg").count(), 1);
        for (open, close) in [("<text", "</text>"), ("<g", "</g>"), ("<title", "</title>")] {
            assert_eq!(
                picture.matches(open).count(),
                picture.matches(close).count()
            );
        }
        assert!(!picture.contains("href") && !picture.contains("<image"));
        assert!(picture.contains("&lt;a&gt; &amp; &quot;b&quot;"));
    }
}

/// The words at the margin of the row with this line.
fn margin(picture: &str, line: &str) -> String {
    let (_, top) = place(picture, line);
    let left = place(picture, "what happened").0;
    let lines = shapes(picture, "<text").filter(|text| number(text, "x") == left);
    // A row is at least 43 high, a line of its words 15.
    let mut next = top - 1.0;
    let mut words = Vec::new();
    for text in lines {
        if (next..next + 16.0).contains(&number(text, "y")) {
            next = number(text, "y") + 1.0;
            words.push(said(text));
        }
    }
    words.join(" ")
}

#[test]
fn a_lost_run_says_why() {
    for (name, words) in [
        (
            "06-crash-without-cover",
            "crash of machine 1, no cover: machine 2, the buddy, does not hold its copy",
        ),
        (
            "00-the-rule-books-sitting",
            "crash of machine 2, no cover: machine 1 is catching up; machine 1, the buddy, does not hold its copy",
        ),
    ] {
        assert_eq!(margin(&example(name), "FF"), words);
    }
}

/// Does the text stand on a machine's lane, or right beside it?
fn stands_on(picture: &str, text: &str, machine: u8) {
    let lane = place(picture, &format!("machine {machine}")).0;
    let x = place(picture, text).0;
    assert!((x - lane).abs() < 10.0, "{text} at {x}, the lane at {lane}");
}

/// Machine 2 is machine 1's buddy in both, machine 3 machine 2's in the second.
#[test]
fn copies_and_notes_stand_on_the_buddys_lane() {
    let picture = example("04-checkpoint");
    for text in [
        "copy of 1",
        "notes for 1: 1",
        "new copy of 1, 1 note out",
        "new copy of 1",
    ] {
        stands_on(&picture, text, 2);
    }
    let picture = example("06-crash-without-cover");
    for (text, machine) in [
        ("copy of 1", 2),
        ("copy of 2", 3),
        ("copy of 3", 1),
        ("copy of 1 lost", 2),
        ("copy of 2 taken back", 3),
    ] {
        stands_on(&picture, text, machine);
    }
}

/// A machine that holds notes but no copy, having crashed before, loses the notes: on its own lane.
#[test]
fn notes_without_a_copy_are_seen_to_go() {
    let list = "010302020301010200010000\n1402\n1502\n1001000301\n110100010001\n110200010001\n\
                110300010001\n1201\n110401020001\n1402\n";
    let picture = drawn("a list", &explained(list.as_bytes()).story);
    stands_on(&picture, "copy of 1 lost", 2);
    stands_on(&picture, "1 note for 1 lost", 2);
}

/// On the lane of its machine, under the work that sends it.
#[test]
fn a_local_message_is_seen() {
    let picture = example("03-local-message");
    stands_on(&picture, "1→2 #1 here: TN 1", 1);
    let [work, message] =
        ["chare 1 works TN 1", "1→2 #1 here: TN 1"].map(|text| place(&picture, text).1);
    assert_eq!(message - work, 20.0);
}

/// The rings with a cross, from the top: of the legend, then of packets that were taken back.
fn rings(picture: &str) -> Vec<(f64, f64)> {
    let ring = |circle: &&str| number(circle, "r") == 6.0;
    let place = |circle| (number(circle, "cx"), number(circle, "cy"));
    let mut rings: Vec<_> = shapes(picture, "<circle").filter(ring).map(place).collect();
    // Both lines of each cross have its ring's middle.
    for &(x, y) in &rings {
        let middle = |line: &&str| {
            number(line, "x1") + number(line, "x2") == 2.0 * x
                && number(line, "y1") + number(line, "y2") == 2.0 * y
        };
        assert_eq!(shapes(picture, "<line").filter(middle).count(), 2);
    }
    rings.sort_by(|a, b| a.1.total_cmp(&b.1));
    rings
}

/// The ASK of a message that is withdrawn comes back to the desk, and ends in a ring beside the mark on its lane.
#[test]
fn a_withdrawal_is_seen() {
    let picture = example("17-mistyped-value");
    let desk = place(&picture, "desk").0;
    let (x, y) = place(&picture, "0→1 #2 withdrawn");
    assert_eq!(x, desk);
    let [sample, ring] = rings(&picture)[..] else {
        panic!("{} rings", rings(&picture).len());
    };
    assert_eq!(ring.1, y - 4.5);
    let pill = shapes(&picture, "<rect").find(|rect| number(rect, "y") == ring.1 - 8.5);
    let pill = pill.expect("a mark");
    assert_eq!(number(pill, "x") + number(pill, "width") + 9.0, ring.0);
    // From the desk's lane out and back again.
    let title = "sent at frame 3, withdrawn at frame 5</title>";
    let (_, group) = picture.split_once(title).expect("an arrow");
    let (group, _) = group.split_once("</g>").expect("an end");
    let way = attribute(shapes(group, "<path").next().expect("a way"), "d");
    assert!(way.starts_with(&format!("M{desk} ")), "{way}");
    assert!(
        way.ends_with(&format!("L{} {}", ring.0 + 6.0, ring.1)),
        "{way}"
    );
    // The legend has both, and the margin says what left.
    let (x, y) = place(&picture, "taken back by the desk");
    assert!(x - sample.0 < 14.0 && y - 4.0 == sample.1, "{x}, {y}");
    place(&picture, "withdrawn");
    let words = column(&picture);
    let want = "withdraw 0→1 #2, value 40 (hex 0028): SN 2 is free again inject 0→1 #2, value 4";
    assert!(words.contains(want), "{words}");
}

/// All words at the margin.
fn column(picture: &str) -> String {
    let left = place(picture, "what happened").0;
    let texts = shapes(picture, "<text").filter(|text| number(text, "x") == left);
    texts.map(said).collect::<Vec<_>>().join(" ")
}

#[test]
fn a_withdrawal_that_is_refused_says_why() {
    let picture = example("18-too-late-to-withdraw");
    let words = column(&picture);
    for reason in [
        "the desk has sent no message to chare 1, or has withdrawn each",
        "ASK 0→1 #1 is no longer on the wire; it was delivered, and the table of chare 1 has its ticket, TN 1",
        "the table of chare 1 has a ticket for 0→1 #1, TN 1 from the copy, though its ASK is on the wire again",
        "0→1 #1, the last to chare 1, has its ticket, TN 1, in the desk's log",
        "0→1 #1, the last to chare 1, is no longer in the desk's log; it is worked, and a checkpoint dropped it",
    ] {
        assert!(words.contains(reason), "{reason}");
    }
    // Nothing was taken back.
    assert_eq!(rings(&picture).len(), 1);
}

/// Arrow and label of each packet say what it is and what became of it.
#[test]
fn a_packet_is_explained() {
    for (name, title) in [
        (
            "00-the-rule-books-sitting",
            "ASK 0→1 #1: the desk asks chare 1 for a ticket for 0→1 #1, from the desk to machine 1; \
             sent at frame 2, delivered at frame 3",
        ),
        (
            "00-the-rule-books-sitting",
            "ASK 1→2 #1: chare 1 asks chare 2 for a ticket for 1→2 #1, from machine 1 to machine 2; \
             sent at frame 6, not delivered by the end",
        ),
        (
            "07-ticket-on-its-way",
            "GRANT 0→1 #1: TN 1: chare 1 gives 0→1 #1 TN 1, and waits for the message, \
             from machine 1 to the desk; sent at frame 4, taken off the wire at frame 5",
        ),
        (
            "17-mistyped-value",
            "ASK 0→1 #2: the desk asks chare 1 for a ticket for 0→1 #2, from the desk to machine 1; \
             sent at frame 3, withdrawn at frame 5",
        ),
    ] {
        let picture = example(name);
        let group = |title| format!("<g class=\"packet\"><title>{title}");
        assert_eq!(picture.matches(&group(title)).count(), 2, "{title}");
        // The eight packets of the legend need no words.
        let packets = shapes(&picture, "<path").count() - 8;
        assert_eq!(picture.matches(&group("")).count(), 2 * packets);
    }
}

/// The frames that a picture has, with how many of them are folded.
fn frames(picture: &str) -> (Vec<usize>, usize) {
    let frame = |text: &str| text.parse::<usize>().ok();
    let (mut frames, mut folded) = (Vec::new(), 0);
    for text in shapes(picture, "<text").filter(|text| number(text, "x") < 100.0) {
        let words = said(text);
        match (attribute(text, "class"), words.split_once('-')) {
            ("quiet", None) => frames.extend(frame(&words)),
            ("code", Some((from, to))) => {
                let stretch = frame(from).expect("a frame")..=frame(to).expect("a frame");
                folded += stretch.clone().count();
                frames.extend(stretch);
            }
            _ => {}
        }
    }
    (frames, folded)
}

/// What repeats is folded, and no frame is missing: 686 frames were 31,932 pixels high.
#[test]
fn repeated_stretches_are_folded() {
    for (name, all, words) in [
        (
            "11-full-window",
            686,
            "folded: 40 more rounds of 16 frames like",
        ),
        (
            "14-full-wire",
            82,
            "folded: 14 more frames like the one above;",
        ),
    ] {
        let picture = example(name);
        assert!(number(&picture, "height") < 3000.0);
        assert!(!places(&picture, words).is_empty(), "{name}: {words}");
        let (frames, folded) = frames(&picture);
        assert_eq!(frames, (1..=all).collect::<Vec<_>>());
        assert!(2 * folded > all, "{name}: {folded} folded");
    }
    assert_eq!(place(&example("11-full-window"), "19-658").0, 48.0);
    // What does not repeat stays.
    assert_eq!(frames(&example("05-crash-with-cover")).1, 0);
}

#[test]
fn a_list_too_long_to_draw_is_named_so() {
    let story = explained(&generator::list(107, 5000)).story;
    let error = Drawing::new("a list", "", &story).err().expect("too long");
    assert!(
        error.starts_with("too long to draw: 5000 frames, "),
        "{error}"
    );
    assert!(
        error.ends_with(&format!("a picture has at most {MOST_ROWS}")),
        "{error}"
    );
}
