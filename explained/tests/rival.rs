//! One must-fail edit alone, with a stand-in for the prover.

mod common;

use common::clone::{put_script, run_there, unbuilt, without_rt};
use std::fs;
use std::path::{Path, PathBuf};

const EDIT: &str = "A wrong answer.\nfile: src/lib.rt\nold: a\nnew: b\n";

/// A clone with some edits, whose `rt` writes down what it sees and then answers.
fn clone(name: &str, answer: &str) -> (PathBuf, String) {
    let (root, path) = unbuilt(name, "");
    let rt = format!(
        "[ \"$*\" != check ] || {{ echo 'rt: window NOT PROVED'; exit 1; }}
         {{ echo \"$*\"; find . -name '*.edit' | sort; ls -d crates/*/out/*; }} >'{}'
         {answer}",
        root.join("seen").display()
    );
    put_script(&root.join("bin/rt"), &rt);
    let there = [
        "mine.edit",
        "must-fail/window/mine.edit",
        "crates/window/must-fail/mine.edit",
        "crates/window/must-fail/other.edit",
        "crates/lists/must-fail/other.edit",
        "crates/lists/out/rlib/lists.rlib",
        "crates/lists/out/incremental/proved",
        "crates/window/out/incremental/proved",
        "target/stamp/lists",
        "target/stamp/protocol",
        "target/stamp/window",
    ];
    for file in there.map(|file| root.join(file)) {
        fs::create_dir_all(file.parent().expect("a folder")).expect("a folder");
        fs::write(file, EDIT).expect("a file");
    }
    (root, path)
}

fn tried(root: &Path, path: &str, words: &[&str]) -> (i32, String, String) {
    let words: Vec<&str> = ["tools/rival.sh"].iter().chain(words).copied().collect();
    run_there(root, path, &words)
}

/// The crate comes from the folder or the call; the copy has this edit and no other, and what is proved.
#[test]
fn rival() {
    let refused = "echo 'rt: window: begins with what a check kept'; \
                   echo 'rt: must-fail window/rival.edit: refused, as it must be: src/lib.rt:3:5: error: not proved: b'";
    let (root, path) = clone("rival", refused);
    let told = "window: refused, as it must be\nsrc/lib.rt:3:5: error: not proved: b\n";
    for words in [
        &["mine.edit", "window"][..],
        &["must-fail/window/mine.edit"],
        &["crates/window/must-fail/mine.edit"],
        &["crates/lists/must-fail/other.edit", "window"],
    ] {
        let want = (0, told.to_string(), String::new());
        assert_eq!(tried(&root, &path, words), want, "{words:?}");
        let seen = fs::read_to_string(root.join("seen")).expect("a note");
        assert_eq!(
            seen,
            "must-fail window\n./crates/window/must-fail/rival.edit\n\
             crates/lists/out/rlib\ncrates/window/out/incremental\n"
        );
    }
    // What is not proved yet is told, for it takes its time.
    fs::remove_file(root.join("target/stamp/window")).expect("a stamp");
    let rt = fs::read_to_string(root.join("bin/rt")).expect("a stand-in");
    put_script(&root.join("bin/rt"), &rt.replacen("exit 1", "exit 0", 1));
    let said = "rival.sh: window, and what it needs, is proved first ...\n";
    let want = (0, told.to_string(), said.to_string());
    assert_eq!(tried(&root, &path, &["mine.edit", "window"]), want);
    // The clone itself is as it was.
    assert!(root.join("crates/window/must-fail/other.edit").is_file());
    assert!(!root.join("crates/window/must-fail/rival.edit").exists());
    // An edit that is not refused, and one that cannot be tried.
    let (root, path) = clone(
        "rival-not-refused",
        "echo 'rt: must-fail window/rival.edit: NOT REFUSED: the crate is still proved with this edit'; exit 1",
    );
    let told = "window: NOT REFUSED: the crate is still proved with this edit\n";
    let want = (1, told.to_string(), String::new());
    assert_eq!(tried(&root, &path, &["mine.edit", "window"]), want);
    // What is refused for another reason than its contracts is told whole.
    let said = "refused, as it must be (only by a limit of the prover: choose another): src/lib.rt:3:5: error: x";
    let (root, path) = clone(
        "rival-at-a-limit",
        &format!("echo 'rt: must-fail window/rival.edit: {said}'"),
    );
    let want = (0, format!("window: {said}\n"), String::new());
    assert_eq!(tried(&root, &path, &["mine.edit", "window"]), want);
    let (root, path) = clone(
        "rival-bad",
        "echo \"rt: must-fail window/rival.edit: BAD EDIT: an 'old:' text is in src/lib.rt 0 times, and not once\"; exit 1",
    );
    let (status, out, error) = tried(&root, &path, &["mine.edit", "window"]);
    assert_eq!((status, out.as_str()), (2, ""));
    let last =
        "rival.sh: mine.edit: BAD EDIT: an 'old:' text is in src/lib.rt 0 times, and not once\n";
    assert!(error.ends_with(last), "{error}");
    let (root, path) = clone("rival-not-tried", "echo 'rt: the disk is full'; exit 2");
    let (status, out, error) = tried(&root, &path, &["mine.edit", "window"]);
    let want = "rt: the disk is full\nrival.sh: the edit was not tried\n";
    assert_eq!((status, out.as_str(), error.as_str()), (2, "", want));
    // Of a crate that is not proved every edit is refused.
    let (root, path) = clone("rival-unproved", refused);
    fs::remove_file(root.join("target/stamp/window")).expect("a stamp");
    let (status, out, error) = tried(&root, &path, &["mine.edit", "window"]);
    let want = "rival.sh: window, and what it needs, is proved first ...\n\
                rt: window NOT PROVED\nrival.sh: the edit was not tried: the crate itself is not proved\n";
    assert_eq!((status, out.as_str(), error.as_str()), (2, "", want));
    let path = without_rt(&root);
    let (status, _, error) = tried(&root, &path, &["mine.edit", "window"]);
    let want = "rival.sh: rt, the Rattle toolchain, is needed, and not found\n";
    assert_eq!((status, error.as_str()), (2, want));
}

#[test]
fn bad_calls() {
    let (root, path) = clone("rival-calls", "echo rt was called >&2; exit 1");
    fs::write(root.join("half.edit"), "file: src/lib.rt\nold: a\n").expect("a file");
    let usage = "usage: rival.sh FILE [CRATE]";
    for (words, message) in [
        (&[][..], usage),
        (&["a", "b", "c"], usage),
        (&["nofile"], "rival.sh: nofile: there is no such file"),
        (&["crates"], "rival.sh: crates: there is no such file"),
        (
            &["half.edit", "window"],
            "rival.sh: half.edit: a must-fail edit has the lines file:, old: and new:, and this has no new:",
        ),
        (
            &["mine.edit"],
            "rival.sh: mine.edit: it stands in no crate's must-fail folder; name the crate: rival.sh FILE CRATE",
        ),
        (&["mine.edit", "windows"], "rival.sh: there is no crate \"windows\""),
    ] {
        let want = (2, String::new(), format!("{message}\n"));
        assert_eq!(tried(&root, &path, words), want, "{words:?}");
    }
}
