//! A clone in which nothing is built but the command itself, with stand-ins for the programs that build and prove.

use super::run::{fresh, result};
use std::fs;
use std::os::unix::fs::{symlink, PermissionsExt};
use std::path::{Path, PathBuf};
use std::process::Command;

pub fn tools() -> PathBuf {
    Path::new(env!("CARGO_MANIFEST_DIR")).join("../tools")
}

/// A script that can be run.
pub fn put_script(file: &Path, text: &str) {
    fs::write(file, format!("#!/bin/sh\n{text}\n")).expect("a script");
    fs::set_permissions(file, fs::Permissions::from_mode(0o755)).expect("to be run");
}

/// A clone with all scripts; its `rt` does what is given, its cargo nothing. The second is the path of its programs.
pub fn unbuilt(name: &str, rt: &str) -> (PathBuf, String) {
    let root = fresh(name);
    let built = ["explained/target/quick/release", "explained/target/release"];
    for folder in ["tools", "bin", "crates"].iter().chain(&built) {
        fs::create_dir_all(root.join(folder)).expect("a folder");
    }
    for script in fs::read_dir(tools()).expect("scripts") {
        let script = script.expect("a script");
        fs::copy(script.path(), root.join("tools").join(script.file_name())).expect("a copy");
    }
    for folder in built {
        fs::copy(
            env!("CARGO_BIN_EXE_satuphir"),
            root.join(folder).join("satuphir"),
        )
        .expect("a copy");
    }
    for (crate_, source) in [
        ("lists", "lib.rt"),
        ("protocol", "lib.rt"),
        ("window", "lib.rt"),
        ("survivors", "main.rt"),
        ("sitting", "main.rt"),
        ("satuphir", "lib.rt"),
    ] {
        let folder = root.join("crates").join(crate_).join("src");
        fs::create_dir_all(&folder).expect("a crate");
        fs::write(folder.join(source), "").expect("a source");
    }
    let crates = "# level by level\nlists:\nprotocol: lists\nwindow: lists protocol\nsurvivors: lists\nsitting: lists\n\
                  satuphir staticlib: lists protocol window\n";
    fs::write(root.join("crates.txt"), crates).expect("a file");
    put_script(&root.join("bin/rt"), rt);
    put_script(&root.join("bin/cargo"), "");
    let path = format!(
        "{}:{}",
        root.join("bin").display(),
        std::env::var("PATH").expect("a path")
    );
    (root, path)
}

/// A path on which there is no `rt`: the clone's cargo, and what scripts need.
pub fn without_rt(root: &Path) -> String {
    fs::remove_file(root.join("bin/rt")).expect("a stand-in");
    let folders = std::env::var_os("PATH").expect("a path");
    let needed = [
        "bash", "env", "sh", "awk", "basename", "cat", "cp", "dirname", "find", "grep", "mkdir",
        "mktemp", "readlink", "rm", "sed", "tee", "touch", "wc",
    ];
    for name in needed {
        let found = std::env::split_paths(&folders).map(|folder| folder.join(name));
        let program = { found }.find(|file| file.is_file());
        symlink(program.expect(name), root.join("bin").join(name)).expect("a link");
    }
    root.join("bin").display().to_string()
}

/// Runs a script of such a clone.
pub fn run_there(root: &Path, path: &str, words: &[&str]) -> (i32, String, String) {
    let mut run = Command::new("bash");
    let run = run.args(words).current_dir(root).env("PATH", path);
    result(run.env_remove("SATUPHIR_COMMAND").output().expect("a run"))
}
