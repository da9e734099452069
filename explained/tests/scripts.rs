//! The scripts in tools/: what they say before anything is built.

mod common;

use common::clone::{put_script, run_there, tools, unbuilt, without_rt};
use common::documents::document;
use common::folder;
use common::run::result;
use std::fs;
use std::os::unix::fs::symlink;
use std::path::PathBuf;
use std::process::Command;

const CALLED: &str = "echo rt was called >&2; exit 1";

/// A bad call is named before anything is proved; what needs no engine is done without.
#[test]
fn satuphir_looks_at_the_call_first() {
    let (root, path) = unbuilt("call-first", CALLED);
    fs::write(root.join("bad"), "work x\n").expect("a list");
    fs::write(root.join("good"), "work 1\n").expect("a list");
    for (words, status, out, error) in [
        (&["play", "nofile"][..], 2, "", "satuphir: nofile: No such file or directory (os error 2)\n"),
        (&["play", "bin"], 2, "", "satuphir: bin: Is a directory (os error 21)\n"),
        (&["play", "bad"], 2, "", "satuphir: bad, line 1, column 6: expected a chare, from 0 to 255, found \"x\"\n"),
        (&["picture", "good", "no/out.svg"], 2, "", "satuphir: no/out.svg: No such file or directory (os error 2)\n"),
        (&["encode", "good"], 0, "1201\n", ""),
        (
            &["play", "good", "--quick"],
            0,
            "02\n",
            "satuphir: --quick: the lines are the second implementation's, not the proved engine's\n",
        ),
    ] {
        let words: Vec<&str> = ["tools/satuphir"].iter().chain(words).copied().collect();
        let want = (status, out.to_string(), error.to_string());
        assert_eq!(run_there(&root, &path, &words), want, "{words:?}");
    }
}

/// A symbolic link to the command is the command, wherever it stands.
#[test]
fn satuphir_by_a_link() {
    let (root, path) = unbuilt("by-a-link", CALLED);
    let bin = root.join("somewhere/bin");
    fs::create_dir_all(&bin).expect("a folder");
    symlink(root.join("tools/satuphir"), bin.join("satuphir")).expect("a link");
    symlink("satuphir", bin.join("again")).expect("a link");
    fs::write(root.join("good"), "work 1\n").expect("a list");
    for link in ["somewhere/bin/satuphir", "somewhere/bin/again"] {
        let want = (0, "1201\n".to_string(), String::new());
        assert_eq!(run_there(&root, &path, &[link, "encode", "good"]), want);
    }
}

/// What the stand-in for `rt` does: it notes what it is called for, proves, and writes the library.
const PROVING: &str = "echo 'fn some: proved'; echo \"$* ${PWD##*/}\" >>../../called
                       if [ $1 = lib ]; then mkdir -p out; touch out/libsatuphir.a; fi";

/// What a script says, but for the crates that it says are proved.
fn without_crates(said: &str) -> String {
    let lines = said.split_inclusive('\n');
    lines.filter(|line| !line.starts_with("rt: ")).collect()
}

/// `play` in a clone whose crates of these names are proved already.
fn first_play(name: &str, rt: &str, proved: &[&str]) -> (PathBuf, (i32, String, String)) {
    let (root, path) = unbuilt(name, rt);
    fs::write(root.join("good"), "work 1\n").expect("a list");
    fs::create_dir_all(root.join("target/stamp")).expect("a folder");
    for name in proved {
        fs::write(root.join("target/stamp").join(name), "").expect("a stamp");
    }
    let words = ["tools/satuphir", "play", "good"];
    let first = run_there(&root, &path, &words);
    if first.0 == 0 {
        // The second time it is there.
        let again = (0, "02\n".to_string(), String::new());
        assert_eq!(run_there(&root, &path, &words), again);
    }
    (root, first)
}

/// The first call that needs the engine says what it does and how far it is; one that fails says where to look.
#[test]
#[cfg_attr(not(library), ignore = "needs the engine's library")]
fn satuphir_says_how_far_it_is() {
    let most = "satuphir: proving and building the engine: 4 crates, a quarter of an hour the first time (--quick does without)\n\
                satuphir: proved 1 of 4: lists\nsatuphir: proved 2 of 4: protocol\nsatuphir: proved 3 of 4: window\n";
    let said =
        format!("{most}satuphir: proved 4 of 4: satuphir\nsatuphir: writing the library ...\n");
    let (_, first) = first_play("how-far", PROVING, &[]);
    assert_eq!(first, (0, "02\n".to_string(), said.clone()));
    for (name, failing, said) in [
        ("not-far", "check satuphir", most),
        ("no-library", "lib satuphir", &said),
    ] {
        let rt = format!("{PROVING}\n[ \"$* ${{PWD##*/}}\" != '{failing}' ]");
        let (root, first) = first_play(name, &rt, &[]);
        let log = root.join("target/satuphir.log");
        let said = format!(
            "{said}satuphir: the engine was not built; {} says why\n",
            log.display()
        );
        assert_eq!(first, (2, String::new(), said));
        assert!(fs::read_to_string(log)
            .expect("a log")
            .contains("fn some: proved"));
    }
}

/// What is proved already takes no minutes, and is not counted.
#[test]
#[cfg_attr(not(library), ignore = "needs the engine's library")]
fn satuphir_counts_what_is_left() {
    let called = |root: &PathBuf| fs::read_to_string(root.join("called")).expect("a note");
    let (root, first) = first_play(
        "all-proved",
        PROVING,
        &["lists", "protocol", "window", "satuphir"],
    );
    let said = "satuphir: all 4 crates are proved already: writing the engine's library, less than a minute ...\n";
    assert_eq!(first, (0, "02\n".to_string(), said.to_string()));
    assert_eq!(called(&root), "lib satuphir\n");
    // One that is not proved takes those with it that need it.
    let (root, first) = first_play("some-proved", PROVING, &["lists", "window", "satuphir"]);
    let said = "satuphir: proving and building the engine: 3 of 4 crates are not proved yet, some minutes (--quick does without)\n\
                satuphir: proved 1 of 3: protocol\nsatuphir: proved 2 of 3: window\nsatuphir: proved 3 of 3: satuphir\n\
                satuphir: writing the library ...\n";
    assert_eq!(first, (0, "02\n".to_string(), said.to_string()));
    let proved = "check protocol\ncheck window\ncheck satuphir\nlib satuphir\n";
    assert_eq!(called(&root), proved);
}

/// Without the toolchain one line says what works and what does not.
#[test]
#[cfg_attr(not(library), ignore = "needs the engine's library")]
fn without_the_toolchain() {
    let (root, _) = unbuilt("no-rt", "");
    let path = without_rt(&root);
    fs::write(root.join("good"), "1201\n").expect("a list");
    let said = "satuphir: rt, the Rattle toolchain, is not found: there are no proved lines here; \
                with --quick all subcommands work, and encode and decode do anyway\n";
    let run = |words: &[&str]| run_there(&root, &path, words);
    let want = (2, String::new(), said.to_string());
    assert_eq!(run(&["tools/satuphir", "play", "good"]), want);
    for words in [
        &["play", "good", "--quick"][..],
        &["next", "good", "--quick"],
        &["decode", "good"],
    ] {
        let words: Vec<&str> = ["tools/satuphir"].iter().chain(words).copied().collect();
        assert_eq!(run(&words).0, 0, "{words:?}");
    }
    let (status, out, error) = run(&["tools/sitting.sh", "good"]);
    let said = "sitting.sh: rt, the Rattle toolchain, is not found: it proves the program; `tools/satuphir play --quick` does without\n";
    assert_eq!((status, out.as_str(), error.as_str()), (2, "", said));
    // The library is enough.
    fs::create_dir_all(root.join("target/staticlib")).expect("a folder");
    fs::write(root.join("target/staticlib/libsatuphir.a"), "").expect("a library");
    let want = (0, "02\n".to_string(), String::new());
    assert_eq!(run(&["tools/satuphir", "play", "good"]), want);
}

/// The first call says that it builds.
#[test]
fn lists_says_that_it_builds() {
    let (root, path) = unbuilt("lists", CALLED);
    let program = root.join("explained/target/quick/release/lists");
    let made = format!(
        "[ \"$*\" = 'build --release --offline --quiet --manifest-path {root}/explained/Cargo.toml \
         --no-default-features --target-dir {root}/explained/target/quick --bin lists' ] || exit 3\n\
         printf '#!/bin/sh\\necho \"$@\"\\n' >'{program}'; chmod +x '{program}'",
        root = root.display(),
        program = program.display()
    );
    put_script(&root.join("bin/cargo"), &made);
    let said = "lists: building the program, once: some seconds ...\n";
    for said in [said, ""] {
        let want = (0, "--clean 7\n".to_string(), said.to_string());
        assert_eq!(
            run_there(&root, &path, &["tools/lists", "--clean", "7"]),
            want
        );
    }
}

/// `-` is standard input, which is the list's to the last byte: no program that builds or proves reads it.
#[test]
fn sitting_takes_standard_input() {
    let rt = "cat; [ $1 = check ] || { mkdir -p out && printf '#!/bin/sh\\ncat\\n' >out/sitting && chmod +x out/sitting; }";
    let (root, path) = unbuilt("sitting-input", rt);
    fs::write(root.join("list"), "1201\n").expect("a list");
    for (words, status, out, error) in [
        (
            "- < list",
            0,
            "1201\n",
            "proving and building the program, once ...\n",
        ),
        ("- < list", 0, "1201\n", ""),
        ("list", 0, "1201\n", ""),
        ("- <&-", 2, "", "sitting.sh: standard input: it is closed\n"),
    ] {
        let script = format!("bash tools/sitting.sh {words}");
        let want = (status, out.to_string(), error.to_string());
        let (status, out, error) = run_there(&root, &path, &["-c", &script]);
        assert_eq!((status, out, without_crates(&error)), want, "{words}");
    }
}

/// A list that cannot be read is named at once, before minutes of proving.
#[test]
fn sitting_looks_at_its_list_first() {
    let (root, path) = unbuilt("sitting", CALLED);
    for (list, message) in [
        (
            &["nofile"][..],
            "sitting.sh: nofile: there is no such file\n",
        ),
        (&["bin"], "sitting.sh: bin: it is a directory\n"),
        (&[], "usage: sitting.sh LIST\n"),
        (&["a", "b"], "usage: sitting.sh LIST\n"),
    ] {
        let words: Vec<&str> = ["tools/sitting.sh"].iter().chain(list).copied().collect();
        let (status, out, error) = run_there(&root, &path, &words);
        assert_eq!((status, out.as_str(), error.as_str()), (2, "", message));
    }
}

/// The table is made of a program's lines, and is the one in the document. The program is built where it is not there.
#[test]
#[cfg_attr(not(library), ignore = "needs the engine's library")]
fn the_table_of_crash_sets() {
    let built = "[ \"$* ${PWD##*/}\" != 'run survivors' ] || { mkdir -p out && cp ../../bin/survivors out; }";
    let (root, path) = unbuilt("crash-sets", built);
    let command = env!("CARGO_BIN_EXE_satuphir");
    put_script(
        &root.join("bin/survivors"),
        &format!("exec '{command}' survivors -"),
    );
    let text = document("docs/SURVIVORS.md");
    let (_, table) = text.split_once("\n| layout |").expect("a table");
    let (table, _) = table.split_once("\n\n").expect("an end");
    let table = format!("| layout |{table}\n");
    let words = ["tools/survivors-table.sh"];
    let said = "proving and building the program, once ...\n";
    let (status, out, error) = run_there(&root, &path, &words);
    assert_eq!(
        (status, out, without_crates(&error)),
        (0, table.clone(), said.to_string())
    );
    // The second time it is there.
    assert_eq!(run_there(&root, &path, &words), (0, table, String::new()));
    // A program that could not read or write ends without a word.
    put_script(&root.join("target/bin/survivors"), "echo 1 2 2");
    let (status, _, error) = run_there(&root, &path, &words);
    let message = "survivors-table.sh: not 2 lines for the job 0102010201010000\n";
    assert_eq!((status, error.as_str()), (1, message));
    let (status, out, error) = run_there(&root, &path, &[words[0], "x"]);
    let usage = "usage: survivors-table.sh\n";
    assert_eq!((status, out.as_str(), error.as_str()), (2, "", usage));
}

/// Runs the script over the command that is built, with this redirection.
fn redirected(words: &str) -> (i32, String, String) {
    let script = format!("{} {words}", tools().join("satuphir").display());
    let mut run = Command::new("bash");
    let run = run.args(["-c", &script]).current_dir(folder());
    let run = run.env("SATUPHIR_COMMAND", env!("CARGO_BIN_EXE_satuphir"));
    result(run.output().expect("a run"))
}

/// What the bare program cannot say: a closed input or a directory is no empty list, on a full disk or a closed output no line is there.
#[test]
#[cfg_attr(not(library), ignore = "needs the engine's library")]
fn play_notices_what_cannot_be_read_or_written() {
    let list = "15-buddy-before.in";
    for (words, error) in [
        ("play - <&-", "standard input: it is closed"),
        ("play - < .", "standard input: Is a directory (os error 21)"),
        ("play .", ".: Is a directory (os error 21)"),
        (
            "play LIST > /dev/full",
            "standard output: No space left on device (os error 28)",
        ),
        ("play LIST >&-", "standard output: it is closed"),
    ] {
        let want = (2, String::new(), format!("satuphir: {error}\n"));
        assert_eq!(redirected(&words.replace("LIST", list)), want, "{words}");
    }
    // Nothing is proved for an input that is closed.
    let (root, path) = unbuilt("closed-input", CALLED);
    let said = "satuphir: standard input: it is closed\n".to_string();
    let closed = ["-c", "bash tools/satuphir play - <&-"];
    assert_eq!(run_there(&root, &path, &closed), (2, String::new(), said));
    // `-` for what is written is no input.
    let (status, page, error) = redirected(&format!("page {list} - <&-"));
    assert_eq!((status, error.as_str()), (0, ""));
    assert!(page.starts_with("<!DOCTYPE html>"));
    // An input that is not asked for may be closed.
    let lines = fs::read_to_string(folder().join("15-buddy-before.out")).expect("lines");
    for words in ["play LIST <&-", "play - < LIST"] {
        let want = (0, lines.clone(), String::new());
        assert_eq!(redirected(&words.replace("LIST", list)), want, "{words}");
    }
}
