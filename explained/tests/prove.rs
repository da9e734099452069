//! The scripts that prove crates and write the engine's library, with a stand-in for the prover.

mod common;

use common::clone::{put_script, run_there, unbuilt, without_rt};
use std::fs;
use std::path::Path;
use std::time::{Duration, SystemTime};

/// It notes what it is called for, and makes what that makes.
const RT: &str = "echo \"$* ${PWD##*/}\" >>../../called; echo 'fn some: proved'; mkdir -p out
                  case $1 in
                    run) cat; printf '#!/bin/sh\\n' >out/${PWD##*/}; chmod +x out/${PWD##*/}; exit 7 ;;
                    lib) echo library >out/libsatuphir.a ;;
                  esac";

/// What a script says, with every time as N, and what the stand-in was called for since the last look.
fn called(root: &Path, path: &str, words: &[&str]) -> (String, String) {
    let (status, out, error) = run_there(root, path, words);
    assert_eq!((status, error.as_str()), (0, ""), "{words:?}: {out}");
    let timed = |line: &str| match line.split_once(" (").filter(|_| line.ends_with(" s)")) {
        Some((head, time)) => {
            let seconds = time.strip_suffix(" s)").map(str::parse::<u32>);
            assert!(matches!(seconds, Some(Ok(_))), "{line}");
            format!("{head} (N s)\n")
        }
        None => format!("{line}\n"),
    };
    let notes = root.join("called");
    let seen = fs::read_to_string(&notes).unwrap_or_default();
    let _ = fs::remove_file(notes);
    (out.lines().map(timed).collect(), seen)
}

/// Makes a file that is newer than all that is there.
fn change(file: &Path) {
    fs::create_dir_all(file.parent().expect("a folder")).expect("a folder");
    fs::write(file, "changed\n").expect("a file");
    let later = SystemTime::now() + Duration::from_secs(2);
    let opened = fs::File::options().append(true).open(file).expect("a file");
    opened.set_modified(later).expect("a time");
}

#[test]
fn crates_are_proved_in_turn_and_once() {
    let (root, path) = unbuilt("prove", RT);
    let proved = |names: &[(&str, bool)]| -> String {
        let how = |anew| match anew {
            true => "N s",
            false => "unchanged since it was last proved",
        };
        let lines = names.iter();
        lines
            .map(|(name, anew)| format!("rt: {name} proved ({})\n", how(*anew)))
            .collect()
    };
    let window = ["tools/prove.sh", "window"];
    let all = proved(&[("lists", true), ("protocol", true), ("window", true)]);
    let checks = "check lists\ncheck protocol\ncheck window\n";
    assert_eq!(called(&root, &path, &window), (all, checks.to_string()));
    let none = proved(&[("lists", false), ("protocol", false), ("window", false)]);
    let again = (none.clone(), String::new());
    assert_eq!(called(&root, &path, &window), again);
    // What is built, and an edit, are no part of what is proved.
    change(&root.join("crates/window/out/rlib/stamp"));
    change(&root.join("crates/lists/must-fail/new.edit"));
    assert_eq!(called(&root, &path, &window), again);
    // A function of that name is.
    change(&root.join("crates/window/proofs/out/Answers.antt"));
    let last = proved(&[("lists", false), ("protocol", false), ("window", true)]);
    let want = (last, "check window\n".to_string());
    assert_eq!(called(&root, &path, &window), want);
    // A crate takes those with it that need it, also where it alone was proved meanwhile.
    let wait = || std::thread::sleep(Duration::from_secs(3));
    wait();
    assert_eq!(called(&root, &path, &window).1, "check window\n");
    change(&root.join("crates/protocol/specs/Lib.antt"));
    wait();
    let protocol = ["tools/prove.sh", "protocol"];
    assert_eq!(called(&root, &path, &protocol).1, "check protocol\n");
    assert_eq!(called(&root, &path, &window).1, "check window\n");
    assert_eq!(called(&root, &path, &window), again);
}

/// A program is built too, whatever it does without input; the library is written where callers look for it.
#[test]
fn what_is_built() {
    let (root, path) = unbuilt("prove-programs", RT);
    let both = ["tools/prove.sh", "sitting", "survivors"];
    let checks = "check lists\ncheck survivors\nrun survivors\ncheck sitting\nrun sitting\n";
    assert_eq!(called(&root, &path, &both).1, checks);
    let programs = ["survivors", "sitting"].map(|name| root.join("target/bin").join(name));
    for program in &programs {
        let text = fs::read_to_string(program).expect("a program");
        assert_eq!(text, "#!/bin/sh\n");
    }
    assert_eq!(called(&root, &path, &both).1, "");
    fs::remove_file(&programs[1]).expect("a program");
    assert_eq!(called(&root, &path, &both).1, "run sitting\n");
    // One that is not built is a failure.
    fs::remove_file(&programs[1]).expect("a program");
    put_script(&root.join("bin/rt"), "echo 'rt: not linked'; exit 3");
    let (status, _, error) = run_there(&root, &path, &both);
    assert_eq!((status, error.as_str()), (3, "rt: not linked\n"));
    put_script(&root.join("bin/rt"), RT);
    let (_, seen) = called(&root, &path, &["tools/library.sh"]);
    assert_eq!(seen, "lib satuphir\n");
    let library = root.join("target/staticlib/libsatuphir.a");
    assert_eq!(fs::read_to_string(library).expect("a file"), "library\n");
}

/// A check that fails ends it, with its output and its status, and nothing above it is tried.
#[test]
fn a_check_that_fails() {
    let rt = format!("{RT}\n[ ${{PWD##*/}} != protocol ] || exit 3");
    let (root, path) = unbuilt("prove-fails", &rt);
    let (status, out, error) = run_there(&root, &path, &["tools/prove.sh", "window"]);
    assert_eq!((status, error.as_str()), (3, "fn some: proved\n"));
    assert!(out.starts_with("rt: lists proved ("), "{out}");
    assert_eq!(out.lines().count(), 1, "{out}");
    let seen = fs::read_to_string(root.join("called")).expect("a note");
    assert_eq!(seen, "check lists\ncheck protocol\n");
    assert!(!root.join("target/stamp/protocol").exists());
    for (words, message) in [
        (&["tools/prove.sh"][..], "usage: prove.sh NAME..."),
        (
            &["tools/prove.sh", "windows"],
            "prove.sh: there is no crate \"windows\"",
        ),
        (&["tools/library.sh", "x"], "usage: library.sh"),
    ] {
        let want = (2, String::new(), format!("{message}\n"));
        assert_eq!(run_there(&root, &path, words), want, "{words:?}");
    }
    let path = without_rt(&root);
    let needs = "rt, the Rattle toolchain, is needed, and not found";
    for (words, name) in [
        (&["tools/prove.sh", "window"][..], "prove.sh"),
        (&["tools/library.sh"], "library.sh"),
    ] {
        let want = (2, String::new(), format!("{name}: {needs}\n"));
        assert_eq!(run_there(&root, &path, words), want, "{words:?}");
    }
}
