//! Runs the command as a person does.

use std::ffi::OsStr;
use std::fs;
use std::io::Write;
use std::path::{Path, PathBuf};
use std::process::{Command, Output, Stdio};
use std::sync::Once;

pub fn satuphir() -> Command {
    Command::new(env!("CARGO_BIN_EXE_satuphir"))
}

/// What a run gave: status, standard output, standard error.
pub fn result(output: Output) -> (i32, String, String) {
    let text = |bytes: Vec<u8>| String::from_utf8_lossy(&bytes).into_owned();
    let status = output.status.code().expect("no signal");
    (status, text(output.stdout), text(output.stderr))
}

pub fn run(args: &[impl AsRef<OsStr>]) -> (i32, String, String) {
    result(satuphir().args(args).output().expect("a run"))
}

/// A run with this on its standard input.
pub fn fed(args: &[&str], input: &[u8]) -> (i32, String, String) {
    let mut run = satuphir()
        .args(args)
        .stdin(Stdio::piped())
        .stdout(Stdio::piped())
        .stderr(Stdio::piped())
        .spawn()
        .expect("a run");
    let mut given = run.stdin.take().expect("an input");
    // A run that ends early leaves its input unread.
    let _ = given.write_all(input);
    drop(given);
    result(run.wait_with_output().expect("an end"))
}

/// An empty folder for one test. It is not in the repository: there `rt ci` refuses links and a second crates.txt.
pub fn fresh(name: &str) -> PathBuf {
    static SWEPT: Once = Once::new();
    SWEPT.call_once(sweep);
    let own = format!("{OWN}{}", std::process::id());
    let folder = std::env::temp_dir().join(own).join(name);
    let _ = fs::remove_dir_all(&folder);
    fs::create_dir_all(&folder).expect("a folder");
    folder
}

/// How the folder of a run of tests is called, before the number of its process.
const OWN: &str = "satuphir-tests-";

/// Removes what runs that have ended left.
fn sweep() {
    let left = fs::read_dir(std::env::temp_dir()).expect("a folder");
    for folder in left.filter_map(Result::ok) {
        let name = folder.file_name().to_string_lossy().into_owned();
        let number = name.strip_prefix(OWN).map(str::to_string);
        if number.is_some_and(|number| !Path::new("/proc").join(number).exists()) {
            let _ = fs::remove_dir_all(folder.path());
        }
    }
}

/// Each subcommand with a list of this name.
pub fn with_list(list: &OsStr) -> Vec<Vec<&OsStr>> {
    let out = Path::new("/dev/null").as_os_str();
    let word = OsStr::new;
    vec![
        vec![word("play"), list],
        vec![word("explain"), list],
        vec![word("picture"), list, out],
        vec![word("page"), list, out],
        vec![word("handout"), list, out],
        vec![word("handout"), list, out, word("--key")],
        vec![word("state"), word("1"), list],
        vec![word("next"), list],
        vec![word("survivors"), list],
        vec![word("before"), list],
        vec![word("variants"), list, word("2")],
        vec![word("encode"), list],
        vec![word("decode"), list],
    ]
}
