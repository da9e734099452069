//! Everything that can happen is explained in some list.

mod common;

use common::{explained, list, names};
use reference::generator;

const FRAMES: [&str; 9] = [
    "Job: ",
    "Inject: ",
    " arrives at ",
    "Work: ",
    "Checkpoint: ",
    "Crash of ",
    "Restart: ",
    "Show: ",
    "Withdraw: ",
];

const ANSWERS: [&str; 12] = [
    "01", "02", "03", "04", "05", "06", "08", "09", "10", "11", "12", "FF",
];

fn of_examples() -> String {
    names()
        .iter()
        .map(|name| explained(&list(name)).text)
        .collect()
}

fn of_random_lists() -> String {
    // Two of the longer ones fill the wire.
    let lists = (0..80)
        .map(|seed| (seed, 1500))
        .chain([(137, 3000), (314, 3000)]);
    let lists = lists.map(|(seed, frames)| generator::list(seed, frames));
    lists.map(|input| explained(&input).text).collect()
}

fn check(text: &str, wanted: &[&str]) {
    // Line breaks stand between words only.
    let text = text.replace("\n      ", " ");
    let missing: Vec<&&str> = wanted
        .iter()
        .filter(|want| !text.contains(**want))
        .collect();
    assert!(missing.is_empty(), "nowhere explained: {missing:?}");
}

#[test]
fn frames_packets_and_answers_of_the_examples() {
    let text = of_examples();
    check(&text, &FRAMES);
    for kind in ["ASK", "GRANT", "DATA", "NOTE", "ACK"] {
        assert!(text.contains(&format!("{kind} 1→2 #1")), "{kind}");
        assert!(text
            .lines()
            .any(|line| line.trim().starts_with(kind) && line.contains("goes out")));
        assert!(text
            .lines()
            .any(|line| line.trim().starts_with(kind) && line.contains("arrives")));
    }
    for answer in ANSWERS {
        let ends = |line: &str| line.ends_with(&format!("  ->  {answer}"));
        assert!(text.lines().any(ends), "{answer}");
        if let Ok(number) = answer.parse::<u8>() {
            check(&text, &[&format!("Refused by question {number},")]);
        }
    }
}

/// All but what is rarer still, which the tests of single words have.
#[test]
fn outcomes_of_examples_and_random_lists() {
    let random = of_random_lists();
    check(
        &random,
        &[
            "Refused by question 8,",
            "Refused by question 11,",
            "Refused by question 12,",
            "Withdraw: ",
        ],
    );
    let text = of_examples() + &random;
    check(&text, &FRAMES);
    check(
        &text,
        &[
            "and keeps it; the message is there.",
            "and keeps it; the message is not there yet.",
            ", so it is old.",
            "gives it TN",
            "(the hole)",
            "(the lowest hole of TN",
            "Rule D, dropped: the log of",
            "Rule D, dropped: in the log of",
            "removes it from the log.",
            "so no DATA goes out.",
            "and sends the message itself.",
            "has its message (value",
            "notes held for machine",
            "is now noted.",
            "noted already: nothing changes.",
            "any more: nothing to mark.",
            "knows its ticket: TN",
            "at once, received but not noted.",
            "goes into the window",
            "The chare has no ports",
            "Hops 0: it sends nothing.",
            "it cannot be delivered now.",
            "Off the wire, on their way to it:",
            "Off the wire, tickets it gave:",
            "from the copy",
            "from the buddy's notes",
            "filled from the log of chare",
            "holes at TN",
            "Sent again: ",
            "has caught up",
            "fully back at once",
            "must work on to TN",
            "in its logs have no TN",
            "without cover: it is catching up itself.",
            "is catching up.",
            "is down.",
            "does not hold its copy.",
            "kept and now noted",
            "so dropped: ",
            "so kept: ",
            "out of its log.",
            "leaves the wire.",
            "is free again: the next injection to chare",
        ],
    );
    for number in [1, 2, 3, 4, 5, 6, 8, 9, 10, 11, 12] {
        check(&text, &[&format!("Refused by question {number},")]);
    }
    check(
        &text,
        &[
            "is a hole",
            "has given no TN",
            "is not received; DATA ",
            "is not noted; NOTE ",
            "on the wire.",
            "is still on the wire.",
            "are still on the wire.",
            "is not sent yet.",
            " beyond mark ",
            "the log of the desk holds",
            "the table of chare",
            "of 64 notes are held",
            "the wire holds",
            "the desk has sent no message to chare",
            "is no longer in the desk's log; it is worked",
            "in the desk's log.",
            "is no longer on the wire; it was delivered",
            "from the copy, though its ASK is on the wire again.",
        ],
    );
}

/// No step goes without words, and no sentence has lost its middle.
#[test]
fn every_step_has_words() {
    for seed in 200..260 {
        let text = explained(&generator::list(seed, 400)).text;
        let (frames, _) = text.split_once("\n\n").expect("letters at the end");
        let mut lines = frames.lines().peekable();
        while let Some(line) = lines.next() {
            let is_head = !line.starts_with("      ");
            let next_is_head = lines.peek().is_none_or(|next| !next.starts_with("      "));
            assert!(!(is_head && next_is_head), "seed {seed}: {line}");
            assert!(!line.trim().is_empty(), "seed {seed}");
            assert!(!line.contains(": ."), "seed {seed}: {line}");
            assert!(
                is_head || !line.contains("  .") && !line.contains(" :"),
                "seed {seed}: {line}"
            );
        }
    }
}
