//! Compares the proved count of crash sets, linked as a library, with the second implementation's, on every layout and on inputs of any
//! kind. Or writes some of these inputs, to compare programs on them.

use reference::buddies::{job_line, layouts};
use reference::engine::survivors;
use reference::odd::odd_inputs;
use reference::rng::Rng;
use reference::same::compare;
use reference::slip::{every_slip, random_input, SLIPPED};
use reference::survivors::answer;
use std::collections::BTreeMap;
use std::path::Path;
use std::process::ExitCode;
use std::{env, fs, io};

const USAGE: &str = "\
compare-survivors COUNT SEED   every layout, and inputs of any kind, COUNT random ones among them
compare-survivors FOLDER       writes every 500th layout and the odd inputs, as FOLDER/NAME.in
";

const EVERY: usize = 500;

fn layout_inputs() -> impl Iterator<Item = Vec<u8>> {
    layouts().map(|buddies| job_line(&buddies))
}

/// Stops at the first input that gets other lines from the engine.
fn through_library(count: usize, seed: u64) -> Result<(), Vec<u8>> {
    let same = |inputs: &mut dyn Iterator<Item = Vec<u8>>| compare(inputs, answer, survivors);
    let compared = same(&mut layout_inputs())?;
    println!("{compared} layouts of 2 to 6 machines compared: the same bytes");
    let mut slips = SLIPPED.iter().flat_map(|job| every_slip(job.as_bytes()));
    let compared = same(&mut slips)?;
    println!("{compared} changes of one byte of a job compared: the same bytes");
    let compared = same(&mut odd_inputs().into_iter().map(|odd| odd.input))?;
    println!("{compared} odd inputs compared: the same bytes");
    let mut rng = Rng::new(seed);
    let mut kinds = BTreeMap::new();
    let mut random = (0..count).map(|_| {
        let input = random_input(&mut rng);
        *kinds.entry(kind(&answer(&input))).or_insert(0) += 1;
        input
    });
    let compared = same(&mut random)?;
    println!("{compared} random inputs compared: the same bytes");
    let kinds: Vec<String> = kinds
        .iter()
        .map(|(kind, n)| format!("{kind} {n}"))
        .collect();
    println!("what these get: {}", kinds.join(", "));
    Ok(())
}

/// A number alone, counts, or nothing.
fn kind(lines: &[u8]) -> String {
    match lines {
        [] => "nothing".to_string(),
        [b'0', digit, ..] => format!("0{}", *digit as char),
        _ => "counts".to_string(),
    }
}

/// Keeps an input on which the two differ, and says what each gives.
fn keep(input: &[u8]) -> io::Result<()> {
    let file = env::temp_dir().join("differs.in");
    fs::write(&file, input)?;
    println!("DIFFERENT, the input is kept as {}", file.display());
    println!("proved: {:?}", String::from_utf8_lossy(&survivors(input)));
    println!("second: {:?}", String::from_utf8_lossy(&answer(input)));
    Ok(())
}

fn write_sample(folder: &Path) -> io::Result<()> {
    for (at, input) in layout_inputs().enumerate().step_by(EVERY) {
        fs::write(folder.join(format!("layout-{at:05}.in")), input)?;
    }
    for odd in odd_inputs() {
        fs::write(folder.join(format!("{}.in", odd.name)), odd.input)?;
    }
    Ok(())
}

fn main() -> ExitCode {
    let args: Vec<String> = env::args().skip(1).collect();
    let result = match &args[..] {
        [folder] => write_sample(Path::new(folder)).map(|()| true),
        [count, seed] => match (count.parse(), seed.parse()) {
            (Ok(count), Ok(seed)) => match through_library(count, seed) {
                Ok(()) => Ok(true),
                Err(input) => keep(&input).map(|()| false),
            },
            _ => return usage(),
        },
        _ => return usage(),
    };
    match result {
        Ok(true) => ExitCode::SUCCESS,
        Ok(false) => ExitCode::FAILURE,
        Err(error) => {
            eprintln!("compare-survivors: {error}");
            ExitCode::FAILURE
        }
    }
}

fn usage() -> ExitCode {
    eprint!("{USAGE}");
    ExitCode::from(2)
}
