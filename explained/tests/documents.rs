//! What the documents show is what the command gives.

mod common;

use common::documents::{blocks, document, flowing, plain, root, rows};
use common::list;
use common::run::{fed, fresh, run};
use explained::names::joined;
use explained::notation::{decode, digits};
use explained::words::letter;
use reference::answer::{Answer, Rule};
use reference::limits::{LOG_SIZE, NOTES_SIZE, TABLE_SIZE, WINDOW_BITS, WIRE_SIZE};
use reference::reader::answer_all;
use std::collections::BTreeSet;
use std::fs;
use std::path::{Path, PathBuf};
use std::process::Command;

/// The list that README writes down.
fn own_list() -> String {
    let readme = document("README.md");
    let block = blocks(&readme, "sh")[0];
    let from = block.find("<<'END'\n").expect("a list") + "<<'END'\n".len();
    block[from..block.rfind("END").expect("an end")].to_string()
}

#[test]
#[cfg_attr(not(library), ignore = "needs the engine's library")]
fn the_sitting_of_readme() {
    let list = own_list();
    let (status, lines, _) = fed(&["play", "-"], list.as_bytes());
    assert_eq!((status, lines.as_str()), (0, "00J\n00J\n00C\n06\n"));
    let said = "The lines are `00J`, `00J`, `00C` and `06`.";
    assert!(flowing("README.md").contains(said));
    let readme = document("README.md");
    let shown = blocks(&readme, "text");
    let [frame, refused, next] = shown[..] else {
        panic!("{} blocks", shown.len());
    };
    let rule_book = root().join("examples/00-the-rule-books-sitting.in");
    let (_, text, _) = run(&["explain".as_ref(), rule_book.as_os_str()]);
    assert!(text.contains(frame), "{frame}");
    let (_, text, _) = fed(&["explain", "-"], list.as_bytes());
    assert!(text.contains(refused), "{refused}");
    let (_, text, _) = fed(&["next", "-"], list.as_bytes());
    assert!(text.contains(next), "{next}");
}

/// Every call of README, as typed, but for the building.
#[test]
#[cfg_attr(not(library), ignore = "needs the engine's library")]
fn the_calls_of_readme() {
    let folder = fresh("readme");
    fs::write(folder.join("mine.txt"), own_list()).expect("a list");
    // Any list will do for the random one.
    fs::write(folder.join("exam.txt"), list("05-crash-with-cover")).expect("a list");
    let readme = document("README.md");
    let calls = blocks(&readme, "sh").into_iter().flat_map(str::lines);
    let named = |line: &str| line.contains("mine") || line.contains("exam");
    let calls: Vec<&str> = calls
        .filter(|line| line.starts_with("tools/satuphir ") && named(line))
        .collect();
    assert_eq!(calls.len(), 8);
    for call in calls {
        let words: Vec<&str> = call.split(' ').skip(1).collect();
        let output = common::run::satuphir()
            .args(&words)
            .current_dir(&folder)
            .output()
            .expect("a run");
        assert!(output.status.success(), "{call}");
    }
    for made in ["mine.html", "exam.html", "key.html", "tutors.html"] {
        assert!(folder.join(made).is_file(), "{made}");
    }
    // The table has every subcommand of the help, and the other way round.
    let help = run(&["--help"]).1;
    let called = |text: &str| -> Vec<String> {
        let calls = text
            .split("tools/satuphir ")
            .skip(1)
            .filter_map(|rest| rest.split([' ', '`', '\n']).next());
        let is_name =
            |name: &&str| !name.is_empty() && name.bytes().all(|b| b.is_ascii_lowercase());
        let mut names: Vec<String> = calls.filter(is_name).map(str::to_string).collect();
        names.sort();
        names.dedup();
        names
    };
    assert_eq!(called(&readme), called(&help));
}

/// The README is for people who use it; all else has a document of its own.
#[test]
fn readme_is_short() {
    let words = document("README.md").split_whitespace().count();
    assert!(words < 1500, "{words} words");
}

/// The rule book's sitting in the rules: frame, words and line of each row.
#[test]
fn the_sitting_of_the_rules() {
    let list =
        fs::read_to_string(root().join("examples/00-the-rule-books-sitting.in")).expect("a list");
    let lines = String::from_utf8(answer_all(list.as_bytes())).expect("digits");
    let rules = document("docs/RULES.md");
    let rows: Vec<Vec<String>> = rows(&rules)
        .into_iter()
        .filter(|row| row.len() == 4 && row[0] != "frame")
        .collect();
    assert_eq!(rows.len(), lines.lines().count());
    for ((row, frame), line) in rows.iter().zip(list.lines()).zip(lines.lines()) {
        assert_eq!(
            (plain(&row[0]).as_str(), plain(&row[2]).as_str()),
            (frame, line)
        );
        let words = decode(frame.as_bytes());
        assert_eq!(words.lines().next(), Some(plain(&row[1]).as_str()));
    }
}

/// The row of the crash without cover has each reason that `explain` gives.
#[test]
#[cfg_attr(not(library), ignore = "needs the engine's library")]
fn the_reasons_in_the_sitting_of_the_rules() {
    let rule_book = root().join("examples/00-the-rule-books-sitting.in");
    let (_, text, _) = run(&["explain".as_ref(), rule_book.as_os_str()]);
    let text = text.replace("\n      ", " ");
    let (_, given) = text.split_once("without cover: ").expect("a crash");
    let given: Vec<&str> = given[..given.find('.').expect("an end")]
        .split("; ")
        .collect();
    let rules = document("docs/RULES.md");
    let (_, sitting) = rules.split_once("own sitting\n").expect("a sitting");
    let row = rows(sitting)
        .into_iter()
        .find(|row| row.contains(&"`FF`".to_string()));
    let row = row.expect("a row").pop().expect("what happens");
    let told = [
        ("machine 1 is catching up", "still catching up"),
        (
            "machine 1, the buddy, does not hold its copy",
            "lost machine 2's copy",
        ),
    ];
    assert_eq!(given, told.map(|(reason, _)| reason));
    for (_, words) in told {
        assert!(row.contains(words), "the rules do not say: {words}");
    }
}

/// What the bare program cannot do is said where it is named.
#[test]
fn what_the_bare_program_cannot_do() {
    for (name, words) in [
        (
            "docs/ENGINEERS.md",
            "on a full disk, a closed input or a directory as input `sitting` ends with status 0 and without a word. \
             `tools/satuphir play` reads and writes by itself and notices all three.",
        ),
        ("tools/sitting.sh", "The program cannot say that reading or writing failed"),
    ] {
        assert!(flowing(name).contains(words), "{name} does not say: {words}");
    }
}

#[test]
fn the_frames_of_the_rules() {
    let rules = document("docs/RULES.md");
    let rows: Vec<Vec<String>> = rows(&rules)
        .into_iter()
        .filter(|row| row[0].starts_with('`') && row.len() == 3)
        .collect();
    assert_eq!(rows.len(), 10);
    for row in rows {
        // A job is given with its chares.
        let words = plain(&row[0])
            .replace(" with ", "\n")
            .replace(", chare", "\nchare");
        let digits = digits(words.as_bytes()).expect("a frame");
        assert_eq!(
            String::from_utf8_lossy(&digits).trim_end(),
            plain(&row[1]),
            "{words}"
        );
    }
}

/// Sizes are those of the second implementation.
#[test]
fn the_sizes_of_the_rules() {
    let rows = rows(&document("docs/RULES.md"));
    let said = |part: &str| {
        rows.iter()
            .find(|row| row[0] == part)
            .map(|row| row[1].as_str())
    };
    for (part, size) in [
        (
            "log of a sender (the desk, or a chare)",
            format!("{LOG_SIZE} messages"),
        ),
        (
            "ticket table of a receiver",
            format!("{TABLE_SIZE} entries"),
        ),
        (
            "notes that a buddy keeps for one machine",
            NOTES_SIZE.to_string(),
        ),
        ("packets on the wire", WIRE_SIZE.to_string()),
        ("window", format!("{WINDOW_BITS} SNs above the mark")),
        (
            "08",
            format!("For a new ticket: is the SN at most mark + {WINDOW_BITS}?"),
        ),
        ("open", format!("not worked, at most mark + {WINDOW_BITS}")),
    ] {
        assert_eq!(said(part), Some(size.as_str()), "{part}");
    }
}

/// Every question once, in the order in which they are put: 12 where 06 stands.
#[test]
fn the_questions_of_the_rules() {
    let rules = document("docs/RULES.md");
    let (_, questions) = rules.split_once("\n## Questions\n").expect("questions");
    let (questions, _) = questions.split_once("\n## ").expect("an end");
    let lines: Vec<String> = rows(questions)
        .into_iter()
        .map(|row| row[0].clone())
        .collect();
    let want = "line 01 02 03 04 05 06 12 07 08 09 10 11";
    assert_eq!(lines.join(" "), want);
    let said = flowing("docs/RULES.md");
    for words in [
        "The numbers are not quite in order: 12 is put where 06 stands, before 07.",
        "| `01` to `12` | refused: the number of the first question answered \"no\"; nothing has changed |",
    ] {
        assert!(said.contains(words), "the rules do not say: {words}");
    }
}

/// Every letter with its rule, in order, and no other.
#[test]
fn the_letters_of_the_rules() {
    let rules = document("docs/RULES.md");
    let is_letter = |cell: &str| cell.len() == 1 && cell.bytes().all(|b| b.is_ascii_uppercase());
    let rows = rows(&rules).into_iter().filter(|row| row.len() == 2);
    let rows = rows.map(|row| (plain(&row[0]), row[1].replace('*', "")));
    let rows: Vec<_> = rows.filter(|(cell, _)| is_letter(cell)).collect();
    let want = Rule::ALL.map(|rule| (rule.letter().to_string(), letter::meaning(rule)));
    assert_eq!(rows, want);
}

/// What the rules give to a marker takes the letters away: the rule book's sitting then has the lines of document 01.
#[test]
fn lines_without_letters() {
    let rules = document("docs/RULES.md");
    let call = rules.split('`').find(|code| code.starts_with("sed "));
    let call = call.expect("a call of sed");
    let lines = root().join("examples/00-the-rule-books-sitting.out");
    let output = Command::new("sh")
        .args(["-c", call])
        .stdin(fs::File::open(lines).expect("lines"))
        .output()
        .expect("a run");
    assert_eq!(
        String::from_utf8_lossy(&output.stdout),
        "00\n00\n00\n00\n00\n00\n00\n05\n00\n00\n00\n00000100000023\nFF\n04\n"
    );
}

/// The room that the header tells callers in C to give is that of the longest line, a show's.
#[test]
fn the_room_of_the_header() {
    let mut line = Vec::new();
    let shown = Answer::Shown {
        height: u16::MAX,
        state: u32::MAX,
    };
    shown.print(&mut line);
    let want = format!("#define SATUPHIR_LINE_SPACE {}\n", line.len());
    assert!(
        document("c/satuphir.h").contains(&want),
        "not there: {want}"
    );
}

/// The refusals and the rarer letters that the examples' table names are those of the stored lines.
#[test]
fn the_table_of_the_examples() {
    let readme = document("examples/README.md");
    let table: Vec<Vec<String>> = rows(&readme)
        .into_iter()
        .filter(|row| row[0] != "Example")
        .collect();
    assert_eq!(table.len(), common::names().len());
    for (row, name) in table.iter().zip(common::names()) {
        assert_eq!(row[0], name);
        let lines = document(&format!("examples/{name}.out"));
        let accepted = |line: &&str| line.starts_with("00");
        let refused: BTreeSet<&str> = lines.lines().filter(|line| !accepted(line)).collect();
        // An empty cell leaves its rule behind.
        let named = row.get(2).map_or("", |cell| cell.as_str());
        assert_eq!(
            named.split_whitespace().collect::<BTreeSet<_>>(),
            refused,
            "{name}"
        );
        let letters = lines
            .lines()
            .filter(accepted)
            .filter_map(|line| line.chars().last());
        let rare: BTreeSet<char> = letters.filter(|letter| !"CGHJ".contains(*letter)).collect();
        let rare: Vec<String> = rare.iter().map(char::to_string).collect();
        let told = match rare.len() {
            0 => continue,
            6 => format!("all ten in {}", &name[..2]),
            _ => format!("{} in {}", joined(&rare), &name[..2]),
        };
        assert!(flowing("examples/README.md").contains(&told), "{told}");
    }
}

/// How many must-fail edits there are.
#[test]
fn how_many_edits() {
    fn edits(folder: &Path) -> usize {
        let files = fs::read_dir(folder)
            .expect("a folder")
            .map(|file| file.expect("a file").path());
        let count = |path: PathBuf| match path.is_dir() {
            true => edits(&path),
            false => usize::from(path.extension().is_some_and(|end| end == "edit")),
        };
        files.map(count).sum()
    }
    let engineers = flowing("docs/ENGINEERS.md");
    for (folder, words) in [
        ("crates", "must-fail edits and every program"),
        ("must-fail", "must-fail edits more"),
    ] {
        let want = format!("{} {words}", edits(&root().join(folder)));
        assert!(engineers.contains(&want), "it does not say: {want}");
    }
}
