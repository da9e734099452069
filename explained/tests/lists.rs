//! Lists for examiners: what is asked for is there, and nothing else that matters.

mod common;

use common::documents::{blocks, document};
use common::run::fresh;
use common::seen::seen;
use explained::notation::{self, decode};
use reference::answer::{Answer, Question};
use reference::frame::Frame;
use reference::reader::answer_all;
use std::fs;
use std::os::unix::fs::symlink;
use std::process::Command;

fn lists(args: &[&str]) -> (i32, Vec<u8>, String) {
    let output = Command::new(env!("CARGO_BIN_EXE_lists"))
        .args(args)
        .output()
        .expect("a run");
    let error = String::from_utf8(output.stderr).expect("text");
    (
        output.status.code().expect("no signal"),
        output.stdout,
        error,
    )
}

/// A list that is asked for, and is there.
fn given(args: &[&str]) -> Vec<u8> {
    let (status, list, error) = lists(args);
    assert_eq!((status, error.as_str()), (0, ""), "{args:?}");
    list
}

#[test]
fn what_is_asked_for_is_there() {
    for seed in ["1", "2", "3"] {
        for (machines, chares) in [("2", "1"), ("3", "4"), ("6", "12")] {
            let args = [
                "--machines",
                machines,
                "--chares",
                chares,
                "--frames",
                "50",
                "--clean",
            ];
            for with in [
                "",
                "crash",
                "crash,restart",
                "hole",
                "ff",
                "withdraw",
                "grant-lost",
                "ff-catching-up",
                "crash,restart,hole,ff,withdraw",
            ] {
                let mut args = args.to_vec();
                if !with.is_empty() {
                    args.extend(["--with", with]);
                }
                args.push(seed);
                let seen = seen(&given(&args));
                let asked = || with.split(',').filter(|name| !name.is_empty());
                assert_eq!(
                    (seen.machines.to_string(), seen.chares.to_string()),
                    (machines.to_string(), chares.to_string())
                );
                assert_eq!(seen.garbled, 0, "{args:?}");
                let lost = asked().any(|name| name.starts_with("ff"));
                assert_eq!(seen.lost, usize::from(lost), "{args:?}");
                assert!(seen.frames == 50 || lost && seen.frames < 50, "{args:?}");
                for name in asked() {
                    assert!(seen.count(name) > 0, "{args:?}: {name}");
                }
            }
        }
    }
}

/// A GRANT old needs two chares on two machines.
#[test]
fn an_old_ticket() {
    for seed in ["1", "2", "3"] {
        for (machines, chares) in [("2", "2"), ("3", "4")] {
            let args = ["--machines", machines, "--chares", chares, "--with", "old"];
            let seen = seen(&given(&[&args[..], &["--clean", seed]].concat()));
            assert!(seen.old > 0 && seen.lost == 0, "{args:?}");
        }
    }
}

/// What each difficulty promises, the easiest first.
const HARD: [&str; 4] = ["grant-lost", "hole", "old", "ff-catching-up"];

#[test]
fn each_difficulty_has_what_it_promises() {
    for seed in ["1", "2"] {
        for sizes in [&[][..], &["--machines", "3", "--chares", "4"]] {
            for difficulty in 1..=HARD.len() {
                let level = difficulty.to_string();
                let args = ["--difficulty", &level, "--clean", seed];
                let seen = seen(&given(&[sizes, &args].concat()));
                for (at, name) in HARD.iter().enumerate() {
                    let happens = seen.count(name) > 0;
                    assert_eq!(happens, at < difficulty, "{args:?}: {name}");
                }
                let lost = difficulty == HARD.len();
                assert_eq!(seen.lost, usize::from(lost), "{args:?}");
                assert!(seen.frames == 60 || lost && seen.frames < 60, "{args:?}");
            }
        }
    }
    // More may be asked for.
    let args = ["--difficulty", "1", "--with", "old,withdraw", "1"];
    let seen = seen(&given(&args));
    for name in ["grant-lost", "old", "withdraw"] {
        assert!(seen.count(name) > 0, "{name}");
    }
    assert_eq!(seen.holes, 0);
}

/// A show of each chare follows on the frames, and what was asked for still happens.
#[test]
fn shows_at_the_end() {
    for seed in ["1", "2", "3", "4", "5"] {
        for with in ["crash", "crash,restart,hole", "grant-lost", "ff"] {
            let args = ["--frames", "40", "--with", with, "--clean", "--shows", seed];
            let seen = seen(&given(&args));
            let chares = usize::from(seen.chares);
            let body = seen.frames - chares;
            assert!(body == 40 || with == "ff" && body < 40, "{args:?}");
            let shows = &seen.played[seen.played.len() - chares..];
            for (&(frame, answer), chare) in shows.iter().zip(1..) {
                assert_eq!(frame, Frame::Show { chare }, "{args:?}");
                let answered = matches!(answer, Answer::Shown { .. });
                let lost = answer == Answer::Refused(Question::NotLost);
                assert!(if with == "ff" { lost } else { answered }, "{args:?}");
            }
            let worked = |answer| matches!(answer, Answer::Shown { height: 1.., .. });
            let any = shows.iter().any(|&(_, answer)| worked(answer));
            assert_eq!(any, with != "ff", "{args:?}");
            for name in with.split(',') {
                assert!(seen.count(name) > 0, "{args:?}: {name}");
            }
        }
    }
}

/// The shows come on top: without the option the same list ends before them.
#[test]
fn a_list_without_its_shows() {
    let args = ["--machines", "2", "--chares", "2", "--clean", "3"];
    let plain = given(&args);
    let shown = given(&[&args[..], &["--shows"]].concat());
    assert_eq!(shown, [&plain[..], b"1601\n1602\n"].concat());
}

#[test]
fn small_values() {
    // Refused injections and garbled lists too.
    for extra in [&["--clean"][..], &[]] {
        let mut drawn = Vec::new();
        for seed in ["1", "2", "3", "4"] {
            let args = [&["--frames", "80", seed], extra].concat();
            let plain = given(&args);
            let small = given(&[&args[..], &["--small-values"]].concat());
            let (wide, values) = (seen(&plain).values, seen(&small).values);
            assert!(wide.iter().any(|&value| value > 9), "{args:?}");
            assert!(values.iter().all(|value| (1..=9).contains(value)));
            assert_eq!(wide.len(), values.len());
            drawn.extend(values);
        }
        assert!((1..=9).all(|value| drawn.contains(&value)), "{drawn:?}");
    }
}

/// The words are those of `decode`, and mean the same list.
#[test]
fn words() {
    for args in [&["--clean", "5"][..], &["6"], &["--difficulty", "3", "7"]] {
        let digits = given(args);
        let words = given(&[args, &["--words"]].concat());
        assert_eq!(String::from_utf8_lossy(&words), decode(&digits), "{args:?}");
        let back = notation::digits(&words).expect("words");
        assert_eq!(answer_all(&back), answer_all(&digits), "{args:?}");
    }
}

/// Without `--clean` there are garbled frames too, some time.
#[test]
fn garbled_frames_unless_clean() {
    let garbled = |seed: u64| seen(&lists(&["--frames", "100", &seed.to_string()]).1).garbled;
    assert!((0..10).any(|seed| garbled(seed) > 0));
}

#[test]
fn a_seed_gives_one_list() {
    let args = |seed: &'static str| ["--with", "crash,hole", "--frames", "60", seed];
    assert_eq!(lists(&args("5")).1, lists(&args("5")).1);
    assert_ne!(lists(&args("5")).1, lists(&args("6")).1);
    let args = |seed: &'static str| ["--small-values", "--shows", "--clean", seed];
    assert_eq!(lists(&args("5")).1, lists(&args("5")).1);
    assert_ne!(lists(&args("5")).1, lists(&args("6")).1);
}

#[test]
fn bad_calls() {
    for (args, message) in [
        (&[][..], "a seed is needed"),
        (&["--clean"], "a seed is needed"),
        (&["--shows", "--words"], "a seed is needed"),
        (&["--machines", "7", "1"], "--machines 7 is not from 2 to 6"),
        (&["--chares", "x", "1"], "--chares x is not from 1 to 12"),
        (
            &["--frames", "0", "1"],
            "--frames 0 is not from 1 to 1000000",
        ),
        (
            &["--difficulty", "5", "1"],
            "--difficulty 5 is not from 1 to 4",
        ),
        (
            &["--difficulty", "hard", "1"],
            "--difficulty hard is not from 1 to 4",
        ),
        (&["1", "--difficulty"], "--difficulty needs a value"),
        (
            &["--with", "crash,fire", "1"],
            "--with has no \"fire\", only crash, restart, hole, ff, withdraw, grant-lost, old and ff-catching-up",
        ),
        (&["--dirty", "1"], "there is no option \"--dirty\""),
        (&["1", "--frames"], "--frames needs a value"),
        (&["--clean", "1", "2"], "\"2\" is too much"),
        (&["--words", "1", "2"], "\"2\" is too much"),
        (&["one"], "\"one\" is no seed"),
        (&["limit", "sky"], "there is no long list \"sky\""),
    ] {
        let (status, list, error) = lists(args);
        assert_eq!((status, list.len()), (2, 0), "{args:?}");
        let hint = "lists: `tools/lists --help` says how it is called\n";
        assert_eq!(error, format!("lists: {message}\n{hint}"), "{args:?}");
    }
}

/// A promise that cannot be kept within the tries is not broken in silence.
#[test]
fn no_such_list() {
    // Both take more frames.
    for args in [
        &["--frames", "3", "--with", "hole", "1"][..],
        &["--frames", "4", "--difficulty", "4", "1"],
    ] {
        let (status, list, error) = lists(args);
        assert_eq!((status, list.len()), (1, 0), "{args:?}");
        assert_eq!(
            error,
            "lists: of 200000 lists none is like that: ask for more frames, or for less to happen\n"
        );
    }
}

/// The help names every option and every promise.
#[test]
fn help() {
    let (status, help, _) = lists(&["--help"]);
    let help = String::from_utf8(help).expect("text");
    assert!(status == 0 && help.starts_with("tools/lists [OPTIONS] SEED"));
    for promise in reference::promise::Promise::ALL {
        assert!(help.contains(&format!("  {} ", promise.name())));
    }
    assert!(help.contains(&format!(" {} ", reference::exam::TRIES)));
    assert!(help.lines().all(|line| line.len() <= 100));
}

/// What README shows to examiners, as typed there.
#[test]
#[cfg_attr(not(library), ignore = "needs the engine's library")]
fn the_calls_of_readme() {
    let folder = fresh("readme-lists");
    fs::create_dir(folder.join("tools")).expect("a folder");
    for (name, built) in [
        ("lists", env!("CARGO_BIN_EXE_lists")),
        ("satuphir", env!("CARGO_BIN_EXE_satuphir")),
    ] {
        symlink(built, folder.join("tools").join(name)).expect("a link");
    }
    let readme = document("README.md");
    let calls: Vec<&str> = blocks(&readme, "sh")
        .into_iter()
        .filter(|block| block.contains("tools/lists "))
        .collect();
    assert_eq!(calls.len(), 1);
    let output = Command::new("bash")
        .args(["-e", "-c", calls[0]])
        .current_dir(&folder)
        .output()
        .expect("a run");
    let error = String::from_utf8_lossy(&output.stderr);
    assert_eq!((output.status.code(), error.as_ref()), (Some(0), ""));
    for name in ["exam.txt", "exam-1.txt", "exam-2.txt", "exam-3.txt"] {
        assert!(readme.contains(&format!("`{name}`")) || name == "exam.txt");
        let words = fs::read(folder.join(name)).expect("a list");
        let seen = seen(&notation::digits(&words).expect("words"));
        assert_eq!((seen.machines, seen.chares), (3, 4), "{name}");
        assert!(seen.grants_lost > 0 && seen.holes > 0 && seen.garbled == 0);
        assert!(seen.values.iter().all(|value| (1..=9).contains(value)));
    }
}
