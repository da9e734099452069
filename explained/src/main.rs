//! `satuphir`, the command for people.

use std::process::ExitCode;

fn main() -> ExitCode {
    explained::command::main(std::env::args_os().skip(1).collect())
}
