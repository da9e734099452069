//! Compares the proved answers what came before what, asked through the library, with the second implementation's, on random rows.

use reference::asked::compare_random;
use reference::engine::precedes;
use std::env;
use std::process::ExitCode;

const USAGE: &str = "\
compare-precedes COUNT SEED   COUNT random rows, good ones and bad ones, several pairs of each, every pair of some
";

/// Stops at the first answer that differs.
fn compare(count: usize, seed: u64) -> ExitCode {
    match compare_random(count, seed, precedes) {
        Ok(tally) => {
            print!("{tally}");
            println!("{count} rows compared: the same answers");
            ExitCode::SUCCESS
        }
        Err(difference) => {
            print!("{difference}");
            println!("DIFFERENT: the other is the proved engine");
            ExitCode::FAILURE
        }
    }
}

fn main() -> ExitCode {
    let args: Vec<String> = env::args().skip(1).collect();
    if let [count, seed] = &args[..] {
        if let (Ok(count), Ok(seed)) = (count.parse(), seed.parse()) {
            return compare(count, seed);
        }
    }
    eprint!("{USAGE}");
    ExitCode::from(2)
}
