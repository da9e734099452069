//! Every file, command and definition that the documents name is there.

mod common;

use common::documents::{document, plain, root, rows};
use common::named::{meant, repository, stands, Pieces};
use common::run::{fresh, run};
use std::fs;
use std::process::Command;

/// The repository, and what is looked for in it.
struct Look {
    repository: Vec<String>,
    /// What was looked at, and what of it is not there.
    named: usize,
    missing: Vec<String>,
}

impl Look {
    fn new() -> Look {
        Look {
            repository: repository(),
            named: 0,
            missing: Vec::new(),
        }
    }

    fn note(&mut self, is_there: bool, name: &str) {
        self.named += 1;
        if !is_there {
            self.missing.push(name.to_string());
        }
    }

    fn files(&mut self, text: &str) {
        for path in Pieces::of(text).paths() {
            // One stands for any name, the other is built.
            if !path.contains("NAME") && !path.contains("target/") {
                self.note(!meant(&self.repository, path).is_empty(), path);
            }
        }
    }

    /// Files that are named without their folder.
    fn names_of_files(&mut self, text: &str) {
        let ends = [".antt", ".rt", ".rs", ".sh", ".md", ".edit", ".toml"];
        for word in Pieces::of(text).code() {
            let is_file = ends.iter().any(|end| word.ends_with(end));
            // An ending alone stands for many.
            if is_file && !word.starts_with('.') && !word.contains([' ', '/', '*']) {
                self.note(!meant(&self.repository, word).is_empty(), word);
            }
        }
    }

    /// Each name stands in one of the files that are named with it.
    fn definitions(&mut self, text: &str) {
        for (names, files) in Pieces::of(text).definitions() {
            let is_source = |path: &&str| path.ends_with(".antt") || path.ends_with(".rt");
            let paths = files.iter().flat_map(|file| meant(&self.repository, file));
            let texts: Vec<String> = paths.filter(is_source).map(document).collect();
            if texts.is_empty() {
                continue;
            }
            for name in names {
                let own = name.rsplit("::").next().unwrap_or(name);
                let is_there = texts.iter().any(|text| stands(text, own));
                self.note(is_there, &format!("{name} in {}", files.join(", ")));
            }
        }
    }

    /// `crate::function` stands in that crate's code.
    fn functions(&mut self, text: &str) {
        for word in Pieces::of(text).code() {
            let Some((folder, function)) = word.split_once("::") else {
                continue;
            };
            let start = format!("crates/{folder}/src/");
            let code = self.repository.iter().filter(|p| p.starts_with(&start));
            let code: Vec<String> = code.filter(|p| p.ends_with(".rt")).cloned().collect();
            if !code.is_empty() {
                let is_there = code.iter().any(|path| stands(&document(path), function));
                self.note(is_there, word);
            }
        }
    }

    /// `module::name` stands in that module of the second implementation.
    fn modules(&mut self, text: &str) {
        for word in Pieces::of(text).code() {
            let word = word.split('(').next().unwrap_or(word);
            let Some((module, name)) = word.split_once("::") else {
                continue;
            };
            let file = format!("reference/src/{module}.rs");
            if self.repository.contains(&file) {
                self.note(stands(&document(&file), name), word);
            }
        }
    }

    /// Words after these: subcommands of the command, crates after a command of the toolchain.
    fn after(&mut self, text: &str, command: &str, known: &[String]) {
        let text = text.split_whitespace().collect::<Vec<_>>().join(" ");
        for rest in text.split(&format!("{command} ")).skip(1) {
            let end = rest.find(|c: char| !c.is_ascii_lowercase());
            let word = &rest[..end.unwrap_or(rest.len())];
            if !word.is_empty() {
                let is_there = known.iter().any(|name| name == word);
                self.note(is_there, &format!("{command} {word}"));
            }
        }
    }

    /// The options that are named stand in one of these helps.
    fn options(&mut self, text: &str, helps: &[String]) {
        for word in text.split(|c: char| !(c.is_ascii_lowercase() || c == '-')) {
            if word.starts_with("--") && word.len() > 3 && !word.ends_with('-') {
                let is_there = helps.iter().any(|help| stands(help, word));
                self.note(is_there, word);
            }
        }
    }
}

/// README and everything in docs, with their texts.
fn documents() -> Vec<(String, String)> {
    let is_document =
        |path: &String| path == "README.md" || path.starts_with("docs/") && path.ends_with(".md");
    let names = repository().into_iter().filter(is_document);
    names.map(|name| (name.clone(), document(&name))).collect()
}

/// Looks through documents: all that they name is there, and they name so much at least.
fn all_there(documents: &[(String, String)], least: usize, look_at: impl Fn(&mut Look, &str)) {
    let mut look = Look::new();
    let mut wrong = Vec::new();
    for (name, text) in documents {
        look_at(&mut look, text);
        wrong.extend(look.missing.drain(..).map(|what| format!("{name}: {what}")));
    }
    assert!(wrong.is_empty(), "not there: {wrong:#?}");
    assert!(look.named >= least, "{} names", look.named);
}

/// These, and what the folders' own READMEs say.
fn with_folders() -> Vec<(String, String)> {
    let mut all = documents();
    for folder in ["explained", "examples", "reference"] {
        let name = format!("{folder}/README.md");
        all.push((name.clone(), document(&name)));
    }
    all
}

#[test]
fn files() {
    all_there(&with_folders(), 200, Look::files);
    all_there(&with_folders(), 20, Look::names_of_files);
}

#[test]
fn definitions() {
    all_there(&with_folders(), 80, Look::definitions);
    all_there(&documents(), 10, Look::functions);
    // The second implementation has modules of such names too.
    let own = "reference/README.md".to_string();
    let own = [(own.clone(), document(&own))];
    all_there(&own, 10, Look::modules);
}

fn help_of_lists() -> String {
    let output = Command::new(env!("CARGO_BIN_EXE_lists"))
        .arg("--help")
        .output();
    String::from_utf8(output.expect("a run").stdout).expect("text")
}

#[test]
fn commands() {
    // The gate's options are those of its script.
    let helps = [run(&["--help"]).1, help_of_lists(), document(".ci/run")];
    let calls = helps[0]
        .lines()
        .filter_map(|line| line.strip_prefix("tools/satuphir "));
    let subcommands: Vec<String> = calls
        .filter_map(|call| call.split(' ').next())
        .map(str::to_string)
        .collect();
    all_there(&with_folders(), 20, |look, text| {
        look.after(text, "tools/satuphir", &subcommands);
    });
    all_there(&documents(), 10, |look, text| look.options(text, &helps));
    let crates: Vec<String> = document("crates.txt")
        .lines()
        .filter_map(|line| line.split_once(':')?.0.split(' ').next())
        .map(str::to_string)
        .collect();
    all_there(&documents(), 2, |look, text| {
        for command in ["tools/prove.sh", "rt must-fail", "rt ci"] {
            look.after(text, command, &crates);
        }
    });
}

/// The first cells of a section's table.
fn first_cells(section: &str) -> Vec<String> {
    let engineers = document("docs/ENGINEERS.md");
    let (_, text) = engineers.split_once(section).expect("a section");
    let (text, _) = text.split_once("\n## ").expect("an end");
    let cells = rows(text).into_iter().map(|row| row[0].clone());
    cells.skip(1).collect()
}

/// The steps of the gate stand in its script, in the order that is told.
#[test]
fn the_gate() {
    let script = document(".ci/run");
    let code = script.lines().filter(|line| !line.starts_with('#'));
    let script = code.collect::<Vec<_>>().join("\n");
    let mut rest = script.as_str();
    let steps = first_cells("\n## The gate\n");
    let mut found = 0;
    for step in steps.iter().filter(|step| step.starts_with('`')) {
        let codes = step.split('`').skip(1).step_by(2);
        for code in codes.filter(|code| code.contains(' ') || code.starts_with("tools/")) {
            let at = rest.find(code);
            let at = at.unwrap_or_else(|| panic!("not there, or too early: {code}"));
            rest = &rest[at + code.len()..];
            found += 1;
        }
    }
    assert_eq!(found, 7);
    assert_eq!(rest.matches("cargo test").count(), 0);
}

/// What is beyond the gate has the parts of its script.
#[test]
fn beyond_the_gate() {
    let script = document("tools/long.sh");
    let (_, parts) = script.split_once("|| set -- ").expect("the parts");
    let parts: Vec<&str> = parts.lines().next().expect("a line").split(' ').collect();
    let told = first_cells("\n## Beyond the gate\n");
    assert_eq!(
        told.iter().map(|cell| plain(cell)).collect::<Vec<_>>(),
        parts
    );
}

/// docs/EDITS.md is what its script writes: every must-fail edit, in the gate or beyond it.
#[test]
fn edits() {
    let file = fresh("edits").join("EDITS.md");
    let script = root().join("tools/edits.sh");
    let status = Command::new(script).arg(&file).status();
    assert!(status.expect("a run").success());
    let written = fs::read_to_string(file).expect("a table");
    assert_eq!(document("docs/EDITS.md"), written, "run tools/edits.sh");
    let is_edit = |path: &String| path.ends_with(".edit");
    for path in repository().into_iter().filter(is_edit) {
        let (_, name) = path.rsplit_once('/').expect("a folder");
        let name = name.trim_end_matches(".edit");
        assert!(stands(&written, name), "not in the table: {path}");
    }
}

/// The numbers of the decisions that have a heading.
fn decided(text: &str) -> Vec<usize> {
    let items = text.lines().filter_map(|line| line.split_once(". **"));
    items
        .filter_map(|(number, _)| number.parse().ok())
        .collect()
}

/// The numbers of the decisions that a text cites.
fn cited(text: &str) -> Vec<usize> {
    let text = text.split_whitespace().collect::<Vec<_>>().join(" ");
    let starts = ["DECISIONS.md, ", "DECISIONS.md (", "(decision "];
    let rests = starts.iter().flat_map(|start| text.split(start).skip(1));
    let digits = rests.map(|rest| rest.split(|c: char| !c.is_ascii_digit()).next());
    digits.filter_map(|number| number?.parse().ok()).collect()
}

/// Decisions stand in order, none is left out, each has a heading; those that are cited are there.
#[test]
fn decisions() {
    let text = document("docs/DECISIONS.md");
    let numbers = decided(&text);
    assert_eq!(numbers, (1..=numbers.len()).collect::<Vec<_>>());
    let starts = |line: &&str| line.starts_with(|c: char| c.is_ascii_digit());
    assert_eq!(text.lines().filter(starts).count(), numbers.len());
    let mut found = 0;
    for (name, text) in documents() {
        for number in cited(&text) {
            assert!(numbers.contains(&number), "{name}: decision {number}");
            found += 1;
        }
    }
    assert!(found >= 8, "{found} are cited");
}

/// What is not there is noticed, whichever way it is named.
#[test]
fn what_is_not_there() {
    let missing = |text: &str, look_at: fn(&mut Look, &str)| {
        let mut look = Look::new();
        look_at(&mut look, text);
        look.missing
    };
    for text in [
        "see `crates/engine/src/none.rt`",
        "(docs/NONE.md), and so on",
        "`tools/none.sh LIST` does it",
        "the edit `engine/no_such_edit`",
        "`Recovery/None.antt`",
    ] {
        assert_eq!(missing(text, Look::files).len(), 1, "{text}");
    }
    assert_eq!(missing("`None.antt`", Look::names_of_files), ["None.antt"]);
    for text in [
        "(`none` in crates/transcript/specs/View.antt)",
        "`none` in `crates/transcript/specs/View.antt`",
        "`reading`, `none` and\n`Feeding` (`crates/transcript/specs/View.antt`, too)",
        "| `none` | `crates/transcript/specs/View.antt` | of a reader |",
        // No part of a name is one.
        "`readin` in crates/transcript/specs/View.antt",
    ] {
        assert_eq!(missing(text, Look::definitions).len(), 1, "{text}");
    }
    assert_eq!(missing("`engine::none`", Look::functions), ["engine::none"]);
    assert_eq!(missing("`state::none`", Look::modules), ["state::none"]);
    let known = ["play".to_string()];
    let mut look = Look::new();
    look.after("`tools/satuphir\nply LIST`", "tools/satuphir", &known);
    look.options("`--quikc`", &["--quick".to_string()]);
    assert_eq!(look.missing, ["tools/satuphir ply", "--quikc"]);
}
