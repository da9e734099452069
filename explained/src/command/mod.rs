//! The command: what it was asked to do, and how it ends.

mod args;
mod files;
mod run;
mod usage;
mod variants;

use args::Asked;
use std::ffi::OsString;
use std::process::ExitCode;

/// Done.
const DONE: u8 = 0;
/// The engine's lines and the second implementation's differ: one of the two is wrong.
const DIFFERENT: u8 = 1;
/// Bad usage, a list that cannot be read or has a mistake in its words, a result that cannot be written.
const FAILED: u8 = 2;
/// For the script that builds the engine first: the call is good, and needs it.
const NEEDS_ENGINE: u8 = 10;

/// Why nothing, or not all, could be done.
pub enum Failure {
    /// The call is wrong.
    Usage(String),
    /// A file, or what stands in it.
    File(String),
}

/// With `--check` in front the call and its list are only looked at, so that a mistake is named before minutes of building.
pub fn main(mut given: Vec<OsString>) -> ExitCode {
    let check = given.first().is_some_and(|first| first == "--check");
    if check {
        given.remove(0);
    }
    let result = Asked::new(given).and_then(|asked| match check {
        true => run::check(&asked),
        false => run::run(&asked),
    });
    match result {
        Ok(status) => ExitCode::from(status),
        Err(Failure::Usage(message)) => {
            eprintln!(
                "satuphir: {message}\nsatuphir: `tools/satuphir --help` says how it is called"
            );
            ExitCode::from(FAILED)
        }
        Err(Failure::File(message)) => {
            eprintln!("satuphir: {message}");
            ExitCode::from(FAILED)
        }
    }
}
