//! What came before what, as a person asks for it.

mod common;

use common::run::{fed, fresh, run};
use common::told::records;
use common::{folder, names};
use reference::precedes::{Answer, Chains, Processing};
use std::fs;

const CATCHING_UP: &str = "09-catching-up";

fn file(name: &str) -> String {
    folder().join(format!("{name}.in")).display().to_string()
}

fn processing(chare: u8, tn: u16, sender: u8, sender_tn: u16) -> Processing {
    Processing {
        chare,
        tn,
        sender,
        sender_tn,
    }
}

fn name(record: &Processing) -> String {
    format!("{}:{}", record.chare, record.tn)
}

/// The answer to one pair.
fn asked(list: &str, first: &str, later: &str) -> String {
    let (status, out, error) = fed(&["before", "-", first, later], list.as_bytes());
    assert_eq!((status, error.as_str()), (0, ""));
    let start = format!("{first} before {later}: ");
    let answer = out
        .strip_prefix(&start)
        .and_then(|out| out.strip_suffix('\n'));
    answer.unwrap_or_else(|| panic!("{out}")).to_string()
}

/// Chare 1 does its two again after a restart, and chare 2 the second of its own only then: each stands once, where it was first done.
#[test]
#[cfg_attr(not(library), ignore = "needs the engine's library")]
fn the_row_of_a_list_with_a_restart() {
    let (status, out, error) = run(&["before", &file(CATCHING_UP)]);
    assert_eq!((status, error.as_str()), (0, ""));
    let (table, key) = out
        .split_once("\n\nA processing is called ")
        .expect("a key");
    assert_eq!(
        table,
        "\
4 processings, in the order in which they were first done

place  processing  frame         message  sent by   follows  came before it
    1  1:1         10, again 23  0→1 #1   the desk  -        -
    2  1:2         11, again 25  0→1 #2   the desk  1:1      1:1
    3  2:1         15            1→2 #1   1:1       -        1:1
    4  2:2         30            1→2 #2   1:2       2:1      1:1, 1:2, 2:1"
    );
    assert!(key.contains("3:2 is chare 3's work of TN 2."), "{key}");
    let row = [(1, 1, 0, 0), (1, 2, 0, 0), (2, 1, 1, 1), (2, 2, 1, 2)];
    let row = row.map(|(chare, tn, sender, by)| processing(chare, tn, sender, by));
    assert_eq!(records(&common::list(CATCHING_UP)), row);
}

/// Three chares on two machines. 3:1 comes of 2:1, which comes of 1:1; 1:2 comes of the desk.
const WORDS: &str = "\
job 2 machines
chare 1 on 1 to 2
chare 2 on 2 to 3
chare 3 on 1
inject 1 value 3 hops 2
inject 1 value 4 hops 0
deliver ASK 0>1 #1
deliver GRANT 0>1 #1
deliver DATA 0>1 #1
deliver ASK 0>1 #2
deliver GRANT 0>1 #2
deliver DATA 0>1 #2
work 1
work 1
deliver ASK 1>2 #1
deliver GRANT 1>2 #1
deliver DATA 1>2 #1
work 2
deliver ASK 2>3 #1
deliver GRANT 2>3 #1
deliver DATA 2>3 #1
work 3
";

/// Each answer with what makes it so.
#[test]
#[cfg_attr(not(library), ignore = "needs the engine's library")]
fn answers_in_words() {
    for (first, later, answer) in [
        ("1:1", "1:2", "yes. 1:1 is before 1:2 on chare 1."),
        ("1:1", "2:1", "yes. 1:1 sent 2:1's message."),
        ("1:1", "3:1", "yes. 1:1 sent 2:1's message; 2:1 sent 3:1's message."),
        (
            "3:1",
            "1:1",
            "no. It is the other way round: 1:1 sent 2:1's message; 2:1 sent 3:1's message.",
        ),
        // The frame of 1:2 stands before those of 2:1 and 3:1.
        ("1:2", "2:1", "no. Neither came before the other."),
        ("3:1", "1:2", "no. Neither came before the other."),
        ("2:1", "2:1", "no. A processing does not come before itself."),
        ("2:1", "2:2", "unknown. No processing is 2:2, for the last of chare 2 is 2:1."),
        ("4:1", "1:1", "unknown. No processing is 4:1, for chare 4 does none."),
        ("1:0", "1:0", "unknown. No processing is 1:0, for the last of chare 1 is 1:2."),
        (
            "13:1",
            "1:3",
            "unknown. No processing is 13:1, for chare 13 does none; no processing is 1:3, for the last of chare 1 is 1:2.",
        ),
    ] {
        assert_eq!(asked(WORDS, first, later), answer, "{first} {later}");
    }
    // The way from 1:1 to the second of chare 2 goes over the first.
    let list = fs::read_to_string(file(CATCHING_UP)).expect("a list");
    let said = "yes. 1:1 sent 2:1's message; 2:1 is before 2:2 on chare 2.";
    assert_eq!(asked(&list, "1:1", "2:2"), said);
}

#[test]
#[cfg_attr(not(library), ignore = "needs the engine's library")]
fn several_pairs_and_a_file() {
    let list = fresh("before").join("list.txt");
    fs::write(&list, WORDS).expect("a list");
    let list = list.display().to_string();
    let (status, out, error) = run(&["before", &list, "1:1", "2:1", "2:1", "1:1", "1:1", "9:9"]);
    assert_eq!((status, error.as_str()), (0, ""));
    let answers: Vec<&str> = out
        .lines()
        .map(|line| &line[..line.find('.').unwrap_or(0)])
        .collect();
    assert_eq!(
        answers,
        [
            "1:1 before 2:1: yes",
            "2:1 before 1:1: no",
            "1:1 before 9:9: unknown"
        ]
    );
}

/// The answers of one call for all pairs of a list, those on chares and TNs just beside the row too.
fn all_pairs(list: &str, row: &[Processing]) -> Vec<(String, String, String)> {
    let mut names: Vec<String> = row.iter().map(name).collect();
    let last = row.iter().map(|record| record.tn).max().unwrap_or(0);
    names.extend([
        "0:0".to_string(),
        "1:0".to_string(),
        format!("1:{}", last + 1),
    ]);
    let pairs: Vec<(&String, &String)> = names
        .iter()
        .flat_map(|first| names.iter().map(move |later| (first, later)))
        .collect();
    let mut args = vec!["before", list];
    args.extend(
        pairs
            .iter()
            .flat_map(|(first, later)| [first.as_str(), later.as_str()]),
    );
    let (status, out, error) = run(&args);
    assert_eq!(status, 0);
    // A list with garbled lines has a note.
    let noted = error.starts_with("satuphir: note: ") && error.lines().count() == 1;
    assert!(error.is_empty() || noted, "{error}");
    assert_eq!(out.lines().count(), pairs.len());
    let answer = |((first, later), line): (&(&String, &String), &str)| {
        let rest = line.strip_prefix(&format!("{first} before {later}: "));
        let rest = rest.unwrap_or_else(|| panic!("{line}"));
        let answer = rest[..rest.find('.').expect("an end")].to_string();
        (first.to_string(), later.to_string(), answer)
    };
    pairs.iter().zip(out.lines()).map(answer).collect()
}

/// Of every pair of every stored list: what the closure of the second implementation says of the row that the list's words tell.
#[test]
#[cfg_attr(not(library), ignore = "needs the engine's library")]
fn every_pair_of_every_stored_list() {
    let (mut yes, mut no) = (0, 0);
    for list in names() {
        let row = records(&common::list(&list));
        let chains = Chains::of(&row);
        let number = |name: &str| {
            let (chare, tn) = name.split_once(':').expect("a name");
            (chare.parse().expect("a chare"), tn.parse().expect("a TN"))
        };
        for (first, later, answer) in all_pairs(&file(&list), &row) {
            let want = match chains.answer(number(&first), number(&later)) {
                Answer::Yes => "yes",
                Answer::No => "no",
                Answer::Unknown => "unknown",
                Answer::Bad(place) => panic!("{list}: bad at {place}"),
            };
            assert_eq!(answer, want, "{list}: {first} {later}");
            yes += usize::from(want == "yes");
            no += usize::from(want == "no");
        }
    }
    assert!(yes > 1000 && no > 1000, "{yes} {no}");
}

/// So many processings of one chare; a checkpoint now and then keeps table and log from filling.
fn long_list(count: u16) -> String {
    let mut list = "0102010201010000\n".to_string();
    for sn in 1..=count {
        list.push_str("1001000100\n");
        for kind in 1..=3 {
            list.push_str(&format!("110{kind}0001{sn:04X}\n"));
        }
        list.push_str("1201\n");
        if sn % 8 == 0 {
            list.push_str("1301\n");
        }
    }
    list
}

/// 512 are answered, 513 are bad there, and the words say what that means.
#[test]
#[cfg_attr(not(library), ignore = "needs the engine's library")]
fn rows_that_are_too_long() {
    let list = long_list(512);
    assert_eq!(
        asked(&list, "1:1", "1:512"),
        "yes. 1:1 is before 1:512 on chare 1."
    );
    let (_, out, _) = fed(&["before", "-"], list.as_bytes());
    assert!(out.contains("\n  512  1:512       "), "{out}");
    assert!(out.contains("  1:1 to 1:511\n"), "{out}");
    for (count, frame) in [(513, 2630), (600, 2630)] {
        let list = long_list(count);
        let said = format!(
            "The row is bad at place 513: the list does {count} processings, and a row has at most 512.\n\
             Such a row is not searched, so no pair of it is answered. The 513th is done at frame {frame}: a list\n\
             that ends before it is answered.\n"
        );
        let (status, out, error) = fed(&["before", "-"], list.as_bytes());
        assert_eq!(
            (status, out.as_str(), error.as_str()),
            (0, said.as_str(), "")
        );
        // Badness comes before unknown.
        let (status, out, _) = fed(
            &["before", "-", "1:1", "1:2", "9:9", "1:1"],
            list.as_bytes(),
        );
        let pairs = "1:1 before 1:2: bad at place 513.\n9:9 before 1:1: bad at place 513.\n";
        assert_eq!((status, out), (0, format!("{pairs}{said}")));
        // Cut where it says.
        let cut: Vec<&str> = list.lines().take(frame - 1).collect();
        let answer = asked(&cut.join("\n"), "9:9", "1:1");
        assert!(answer.starts_with("unknown. "), "{answer}");
    }
}

#[test]
#[cfg_attr(not(library), ignore = "needs the engine's library")]
fn lists_without_a_processing() {
    let none = (
        0,
        "No processing: the list has no accepted work.\n".to_string(),
        String::new(),
    );
    let job = "0102020201010200020000\n";
    // The last work has its message, but the run is lost.
    let lost = "1001000301\n110100010001\n110200010001\n110300010001\n1402\n1401\n1201\n";
    for list in [
        job,
        "1201\n",
        &format!("{job}1201\n1001000301\n"),
        &format!("{job}{lost}"),
    ] {
        assert_eq!(fed(&["before", "-"], list.as_bytes()), none, "{list}");
        let answer = asked(list, "1:1", "1:2");
        assert!(answer.starts_with("unknown. "), "{answer}");
    }
}

/// A second job is refused, so the row goes on.
#[test]
#[cfg_attr(not(library), ignore = "needs the engine's library")]
fn a_second_job() {
    let list = fs::read_to_string(file(CATCHING_UP)).expect("a list");
    let job = list.lines().next().expect("a job");
    let twice = list.replace("\n1202\n", &format!("\n{job}\n1202\n"));
    assert_eq!(asked(&twice, "1:1", "2:2"), asked(&list, "1:1", "2:2"));
}

/// Whose answers a quick run gives stands on standard error.
#[test]
fn quick_answers() {
    let whose =
        "satuphir: --quick: the lines are the second implementation's, not the proved engine's\n";
    let said = "1:1 before 2:1: yes. 1:1 sent 2:1's message.\n".to_string();
    let args = ["before", "-", "1:1", "--quick", "2:1"];
    assert_eq!(fed(&args, WORDS.as_bytes()), (0, said, whose.to_string()));
}

/// The script that builds the engine asks first whether it is needed, and whether the call is good.
#[test]
fn the_engine_is_needed() {
    let list = file(CATCHING_UP);
    for (args, status) in [
        (&["before", &list][..], 10),
        (&["before", "-", "1:1", "2:1"], 10),
        (&["before", &list, "--quick"], 0),
        (&["before", "missing"], 2),
        (&["before", &list, "1:1"], 2),
        (&["before", &list, "1:1", "2"], 2),
    ] {
        let args: Vec<&str> = ["--check"].iter().chain(args).copied().collect();
        let (found, out, _) = run(&args);
        assert_eq!((found, out.as_str()), (status, ""), "{args:?}");
    }
}
