//! What a page has of processings: the row, the order, the words, the marks.

mod common;

use common::told::{told, Told};
use common::{list, made, names, svg, widest_lists};
use explained::engine;
use reference::generator;
use reference::precedes::{Answer, Chains, Processing};
use std::str::FromStr;

/// A processing as the page has it: chare and TN, its words, frames, marks, the places that arrows come from, its clock.
struct Shown {
    name: (u8, u16),
    text: Vec<String>,
    frames: Vec<usize>,
    marks: Vec<[f64; 3]>,
    from: Vec<usize>,
    clock: Vec<u16>,
}

/// The numbers that stand in a text.
fn numbers<T: FromStr>(text: &str) -> Vec<T> {
    let parts = text.split(|letter: char| !letter.is_ascii_digit() && letter != '.');
    parts.filter_map(|part| part.parse().ok()).collect()
}

/// What the page says of processings.
fn said_of_works(html: &str) -> &str {
    let (_, rest) = html.split_once(",\"works\":").expect("processings");
    &rest[..rest.find("}</script>").expect("an end")]
}

fn shown(html: &str) -> Vec<Shown> {
    let work = |text: &str| {
        // The words end where the frames begin.
        let (head, rest) = text.split_once(",\"text\":[\"").expect("words");
        let (words, rest) = rest.split_once("\"],\"frames\":").expect("frames");
        let (frames, rest) = rest.split_once(",\"marks\":").expect("marks");
        let (marks, rest) = rest.split_once(",\"from\":").expect("arrows");
        let (from, clock) = rest.split_once(",\"clock\":").expect("a clock");
        let [chare, tn] = numbers(head)[..] else {
            panic!("{head}");
        };
        let marks: Vec<f64> = numbers(marks);
        Shown {
            name: (chare as u8, tn),
            text: words.split("\",\"").map(str::to_string).collect(),
            frames: numbers(frames),
            marks: marks.chunks_exact(3).map(|m| [m[0], m[1], m[2]]).collect(),
            from: numbers(from),
            clock: numbers(clock),
        }
    };
    let works = said_of_works(html).split("{\"chare\":").skip(1);
    works.map(work).collect()
}

/// Every processing of a page once, its frames and arrows, and for each pair what the closure says.
fn check_row(name: &str, works: &[Shown], told: &[Told], chains: &Chains) {
    assert_eq!(works.len(), told.len(), "{name}");
    for (work, (record, frames)) in works.iter().zip(told) {
        assert_eq!(work.name, record.name(), "{name}");
        let counted: Vec<usize> = work.frames.iter().map(|frame| frame + 1).collect();
        assert_eq!(&counted, frames, "{name}");
        let mut from: Vec<_> = work.from.iter().map(|&at| works[at].name).collect();
        let mut want = vec![
            (record.sender, record.sender_tn),
            (record.chare, record.tn - 1),
        ];
        want.retain(|&(chare, tn)| chare > 0 && tn > 0);
        from.sort();
        want.sort();
        want.dedup();
        assert_eq!(from, want, "{name}");
        for other in works {
            let (chare, tn) = other.name;
            let yes = chains.answer(other.name, work.name) == Answer::Yes;
            assert_eq!(tn <= work.clock[usize::from(chare) - 1], yes, "{name}");
        }
    }
}

/// Each name of a list of names, the ends of a span and what stands between.
fn spelt(list: &str) -> Vec<(u8, u16)> {
    let name = |text: &str| {
        let (chare, tn) = text.split_once(':').expect("a name");
        (chare.parse().expect("a chare"), tn.parse().expect("a TN"))
    };
    let parts = list.split(", ").filter(|part| *part != "nothing");
    let names = parts.flat_map(|part| match part.split_once(" to ") {
        None => vec![name(part)],
        Some((low, high)) => {
            let ((chare, low), (same, high)) = (name(low), name(high));
            assert_eq!(chare, same);
            (low..=high).map(|tn| (chare, tn)).collect()
        }
    });
    names.collect()
}

/// The words of a processing have every other one once, and where it belongs.
fn check_words(name: &str, works: &[Shown], chains: &Chains) {
    let yes = |first, later| chains.answer(first, later) == Answer::Yes;
    for work in works {
        let own = work.name;
        let [_, before, after, neither] = &work.text[..] else {
            panic!("{:?}", work.text);
        };
        let listed = |line: &str, start: &str| {
            let line = line.strip_prefix(start);
            spelt(line.and_then(|line| line.strip_suffix('.')).expect("names"))
        };
        let all = |is: &dyn Fn((u8, u16)) -> bool| {
            let mut names: Vec<(u8, u16)> = works.iter().map(|other| other.name).collect();
            names.retain(|&other| other != own && is(other));
            names.sort();
            names
        };
        let (before, after) = (
            listed(before, "Came before it: "),
            listed(after, "Came after it: "),
        );
        assert_eq!(before, all(&|other| yes(other, own)), "{name}");
        assert_eq!(after, all(&|other| yes(own, other)), "{name}");
        let rest = all(&|other| !yes(own, other) && !yes(other, own));
        let neither = listed(neither, "Neither before nor after it: ");
        assert_eq!(neither, rest, "{name}");
    }
}

/// A mark stands where the picture has the work, once for each time it was done; one that is folded away has no width. Says how many.
fn check_marks(name: &str, works: &[Shown], html: &str) -> usize {
    let mut folded = 0;
    for work in works {
        let text = format!("chare {} works TN {}", work.name.0, work.name.1);
        assert_eq!(work.marks.len(), work.frames.len(), "{name}: {text}");
        let seen = work.marks.iter().filter(|[_, _, width]| *width > 0.0);
        let seen: Vec<(f64, f64)> = seen.map(|[x, y, _]| (*x, y + 4.5)).collect();
        let (screen, _) = html.split_once("<div id=\"print\"").expect("two parts");
        assert_eq!(seen, svg::places(screen, &text), "{name}: {text}");
        folded += work.marks.len() - seen.len();
    }
    folded
}

/// The row, its order, its words and its marks, for stored lists and random ones. The row is told by the words of the frames, the order
/// by the second implementation's closure.
#[test]
fn what_came_before_is_there() {
    let stored = names().into_iter().map(|name| (name.clone(), list(&name)));
    let random = (0..25).map(|seed| (format!("seed {seed}"), generator::list(seed, 250)));
    let mut folded = 0;
    for (name, list) in stored.chain(random) {
        let html = made(&name, &list);
        let (works, told) = (shown(&html), told(&list));
        let row: Vec<Processing> = told.iter().map(|(record, _)| *record).collect();
        let chains = Chains::of(&row);
        check_row(&name, &works, &told, &chains);
        check_words(&name, &works, &chains);
        folded += check_marks(&name, &works, &html);
    }
    assert!(folded > 100, "{folded}");
}

#[test]
fn the_words_of_a_processing() {
    let works = shown(&made("09", &list("09-catching-up")));
    assert_eq!(
        works[1].text,
        [
            "Processing 1:2, place 2 of 4 in the row: 0→1 #2, sent by the desk. Frame 11, again 25.",
            "Came before it: 1:1.",
            "Came after it: 2:2.",
            "Neither before nor after it: 2:1.",
        ]
    );
}

/// More works than a row may have, in fewer frames than a page may have. Twelve chares write to themselves; a checkpoint notes all their
/// tickets at once, and a crash right after one takes the NOTEs off the wire and costs nothing.
fn many_works() -> String {
    let mut list = format!(
        "01020C0201{}\n",
        (1..=12)
            .map(|chare| format!("01{chare:02X}00"))
            .collect::<String>()
    );
    for round in 1..=6 {
        for chare in 1..=12 {
            list.push_str(&format!("10{chare:02X}000107\n"));
            for kind in 1..=3 {
                list.push_str(&format!("11{kind:02X}00{chare:02X}{round:04X}\n"));
            }
        }
        for _ in 0..8 {
            (1..=12).for_each(|chare| list.push_str(&format!("12{chare:02X}\n")));
            list.push_str("1301\n");
        }
        list.push_str("1401\n1501\n");
    }
    list
}

#[test]
fn a_row_that_is_too_long() {
    let list = many_works();
    let html = made("many", list.as_bytes());
    assert_eq!(list.lines().count(), 925);
    let lines = engine::lines(list.as_bytes());
    assert!(lines
        .split_inclusive(|&b| b == b'\n')
        .all(|line| line.starts_with(b"00")));
    let words = said_of_works(&html);
    assert!(words.starts_with("\"The row is bad at place 513: the list does 576 processings, and a row has at most 512."), "{words}");
    // With one round less it is told.
    let frames: Vec<&str> = list.lines().take(771).collect();
    let works = shown(&made("many", frames.join("\n").as_bytes()));
    assert_eq!(works.len(), 480);
}

/// Words, marks and clocks are a small part of a page, also where chares are many.
#[test]
fn the_size_of_a_page() {
    let widest = widest_lists().take(8).map(|(_, list)| list);
    let frames = many_works();
    let frames: Vec<&str> = frames.lines().take(771).collect();
    let longest = [list("11-full-window"), frames.join("\n").into_bytes()];
    for list in widest.chain(longest) {
        let html = made("a list", &list);
        let works = said_of_works(&html).len();
        assert!(20 * works < html.len(), "{works} of {}", html.len());
    }
}
