//! Every script that README and its companions for engineers and reviewers name is there, is called with what it needs, and says how it is
//! called; what they show runs.

mod common;

use common::clone::{put_script, run_there, tools, unbuilt};
use common::documents::{blocks, document, root};
use std::collections::BTreeSet;
use std::fs;
use std::os::unix::fs::PermissionsExt;

/// All that the documents have as code, a line each.
fn code() -> Vec<String> {
    let documents = ["README.md", "docs/ENGINEERS.md", "docs/PROOFS.md"];
    documents.into_iter().flat_map(code_of).collect()
}

fn code_of(name: &str) -> Vec<String> {
    let document = document(name);
    let mut code: Vec<String> = Vec::new();
    for block in blocks(&document, "sh") {
        code.extend(block.lines().map(str::to_string));
    }
    let text: Vec<&str> = document.split("```").step_by(2).collect();
    let lines = text.iter().flat_map(|part| part.lines());
    code.extend(
        lines
            .clone()
            .filter_map(|line| line.strip_prefix("    "))
            .map(str::to_string),
    );
    let flowing: Vec<&str> = lines.filter(|line| !line.starts_with("    ")).collect();
    let flowing = flowing.join(" ");
    code.extend(flowing.split('`').skip(1).step_by(2).map(str::to_string));
    code
}

/// The scripts that they call, each with the words behind it.
fn calls() -> Vec<(String, Vec<String>)> {
    let code = code();
    let calls = code.iter().filter_map(|line| line.strip_prefix("tools/"));
    let words =
        |call: &str| -> Vec<String> { call.split_whitespace().map(str::to_string).collect() };
    calls
        .map(words)
        .map(|words| (words[0].clone(), words[1..].to_vec()))
        .collect()
}

/// How a script is called, from its first comment: "rival.sh FILE [CRATE]: ...".
fn usage(script: &str) -> Vec<String> {
    let text = fs::read_to_string(tools().join(script)).expect("a script");
    let head = text.lines().nth(1).expect("a comment");
    let head = head.strip_prefix(&format!("# {script}"));
    let head = head.unwrap_or_else(|| panic!("{script} does not say how it is called"));
    let head = &head[..head.find(':').expect("a colon")];
    head.split_whitespace().map(str::to_string).collect()
}

/// The words without which it does nothing.
fn needed(script: &str) -> usize {
    let words = usage(script);
    words.iter().filter(|word| !word.starts_with('[')).count()
}

#[test]
fn every_script_is_there_and_has_what_it_needs() {
    let calls = calls();
    let named: BTreeSet<&str> = calls.iter().map(|(script, _)| script.as_str()).collect();
    for script in [
        "satuphir",
        "lists",
        "sitting.sh",
        "rival.sh",
        "must-fail.sh",
        "prove.sh",
        "library.sh",
        "selfcheck.sh",
        "definitions-give-vectors.sh",
    ] {
        assert!(named.contains(script), "no document names {script}");
    }
    for (script, words) in &calls {
        let file = tools().join(script);
        let mode = fs::metadata(&file)
            .unwrap_or_else(|_| panic!("no {script}"))
            .permissions()
            .mode();
        assert_eq!(mode & 0o111, 0o111, "{script} cannot be run");
        // These two have their calls in full beside the places where they are only named.
        if !["satuphir", "lists"].contains(&script.as_str()) {
            assert!(
                words.len() >= needed(script),
                "{script} is called with {words:?} alone"
            );
        }
    }
}

/// A script that needs something says so: status 2 and one line. One that needs nothing has no mistake in its form.
#[test]
fn how_scripts_are_called() {
    let (root, path) = unbuilt("usages", "echo rt was called >&2; exit 1");
    let mut needing = 0;
    for file in fs::read_dir(tools()).expect("scripts") {
        let file = file.expect("a script");
        let script = file.file_name().into_string().expect("a name");
        // What is no program of the shell is read by others, or is in another language; this one shows the program's own help.
        let text = fs::read_to_string(file.path()).expect("a script");
        let is_program = text.starts_with("#!/usr/bin/env bash\n");
        if !is_program || script == "lists" {
            continue;
        }
        let name = format!("tools/{script}");
        let (status, out, error) = run_there(&root, &path, &["-n", &name]);
        assert_eq!(
            (status, out.as_str(), error.as_str()),
            (0, "", ""),
            "{script}"
        );
        if script != "satuphir" && needed(&script) > 0 {
            let want = format!("usage: {script} {}\n", usage(&script).join(" "));
            let bare = run_there(&root, &path, &[&name]);
            assert_eq!(bare, (2, String::new(), want), "{script}");
            needing += 1;
        }
    }
    assert!(needing >= 3, "{needing}");
    let (status, _, error) = run_there(&root, &path, &["tools/satuphir"]);
    assert_eq!(status, 2);
    assert!(
        error.contains("`tools/satuphir --help` says how it is called"),
        "{error}"
    );
}

/// The calls with which a rule is changed, and a rival tried, with stand-ins for what proves and builds.
#[test]
fn the_recipes() {
    let answers = "[ $1 = must-fail ] || exit 0\n\
                   echo 'rt: must-fail window/rival.edit: refused, as it must be: src/lib.rt:1:1: error: x'";
    let (there, path) = unbuilt("recipes", answers);
    let selfcheck = there.join("reference/target/release/selfcheck");
    let vectors = there.join("reference/tests/vectors");
    let stamps = there.join("target/stamp");
    for folder in [selfcheck.parent().expect("a folder"), &vectors, &stamps] {
        fs::create_dir_all(folder).expect("a folder");
    }
    for crate_ in ["lists", "protocol", "window"] {
        fs::write(stamps.join(crate_), "").expect("a stamp");
    }
    put_script(&selfcheck, "echo \"$@\"");
    for vector in ["01.in", "01.out"] {
        let from = root().join("reference/tests/vectors").join(vector);
        fs::copy(from, vectors.join(vector)).expect("a copy");
    }
    let code = code();
    let call = |start: &str| {
        let call = code.iter().find(|line| line.starts_with(start));
        let call = call.unwrap_or_else(|| panic!("no document has {start}"));
        let (status, out, error) = run_there(&there, &path, &["-c", call]);
        assert_eq!((status, error.as_str()), (0, ""), "{call}");
        out
    };
    let out = call("tools/definitions-give-vectors.sh");
    assert_eq!(out, "1 lists: the definitions give every line\n");
    assert_eq!(call("tools/selfcheck.sh"), "1 1000000\n");
    call("printf 'file: ");
    let edit = fs::read_to_string(there.join("mine.edit")).expect("an edit");
    let out = call("tools/rival.sh mine.edit ");
    assert_eq!(
        out,
        "window: refused, as it must be\nsrc/lib.rt:1:1: error: x\n"
    );
    // The text that it replaces stands in the crate once.
    let field = |name: &str| {
        let line = edit.lines().find_map(|line| line.strip_prefix(name));
        line.unwrap_or_else(|| panic!("no {name}")).trim()
    };
    let file = document(&format!("crates/window/{}", field("file:")));
    assert_eq!(file.matches(field("old:")).count(), 1);
}
