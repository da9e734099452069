//! Writes random lists of frames, those that an examiner asks for, or the long lists that end in answer 07.

use explained::names::joined;
use explained::notation::decode;
use reference::exam::{wished, Wish, TRIES};
use reference::generator::list;
use reference::limits::{MAX_CHARES, MAX_MACHINES, MIN_MACHINES};
use reference::long::{limit_list, Limit};
use reference::promise::{Promise, HARD};
use std::io::Write;
use std::ops::RangeInclusive;
use std::path::Path;
use std::process::ExitCode;

const USAGE: &str = "\
tools/lists [OPTIONS] SEED            a list for an exam, the same for the same seed
  --machines M        2 to 6 machines
  --chares C          1 to 12 chares
  --frames N          so many frames, 40 if it is not said, 60 with --difficulty; fewer if the run
                      is lost
  --with NAME,...     what has to happen:
                        crash           a crash with cover
                        restart         a restart
                        hole            a restart that leaves a hole
                        ff              a crash without cover (else the run is not lost)
                        withdraw        a withdrawal
                        grant-lost      a crash with cover takes a GRANT off the wire that a chare
                                        of the machine gave
                        old             a GRANT old arrives (00E): the message was worked before
                        ff-catching-up  a crash without cover while another machine is catching up
  --difficulty D      1 to 4, by what has to happen: 1 grant-lost, 2 hole too, 3 old too,
                      4 ff-catching-up too; what makes a higher one does not happen unless --with
                      asks for it
  --clean             no garbled frame and none out of range: no 01, 02 or 03
  --shows             after these frames a show of each chare; each is answered with height and
                      state, and one chare at least has worked; if the run is lost, they get 04
  --small-values      every injected value is from 1 to 9
  --words             in words, as tools/satuphir decode gives them, not in digits
tools/lists SEED FRAMES               one random list, of any kind
tools/lists FOLDER SEED COUNT FRAMES  COUNT of them, of seeds SEED and up, as FOLDER/SEED.in
tools/lists limit NAME                a long list that ends in 07; NAME is injection, ask, local or
                                      sent

Lists are tried until one is as asked for. If of 200000 none is, that is said, with status 1.
Status 2 is a bad call.
";

/// Why there is no list.
enum Failure {
    Usage(String),
    Other(String),
}

fn usage<T>(message: String) -> Result<T, Failure> {
    Err(Failure::Usage(message))
}

fn print(bytes: &[u8]) -> Result<(), Failure> {
    let mut out = std::io::stdout().lock();
    let result = out.write_all(bytes).and_then(|()| out.flush());
    result.map_err(|error| Failure::Other(error.to_string()))
}

fn number<T: std::str::FromStr>(word: &str, what: &str) -> Result<T, Failure> {
    word.parse()
        .or_else(|_| usage(format!("\"{word}\" is no {what}")))
}

fn within(word: &str, what: &str, range: RangeInclusive<usize>) -> Result<usize, Failure> {
    match word.parse() {
        Ok(number) if range.contains(&number) => Ok(number),
        _ => usage(format!(
            "{what} {word} is not from {} to {}",
            range.start(),
            range.end()
        )),
    }
}

fn promises(word: &str) -> Result<Vec<Promise>, Failure> {
    let promise = |name: &str| match Promise::ALL.into_iter().find(|one| one.name() == name) {
        Some(promise) => Ok(promise),
        None => usage(format!(
            "--with has no \"{name}\", only {}",
            joined(&Promise::ALL.map(|one| one.name().to_string()))
        )),
    };
    word.split(',').map(promise).collect()
}

/// The frames of a list for which no number is given.
const FRAMES: usize = 40;
const FRAMES_IF_DIFFICULT: usize = 60;

/// A list that is asked for with options.
fn wish(args: &[&str]) -> Result<(), Failure> {
    let mut wish = Wish::default();
    let (mut seed, mut frames, mut difficulty, mut words) = (None, None, None, false);
    let mut args = args.iter();
    while let Some(&arg) = args.next() {
        let mut value = || match args.next() {
            Some(&value) => Ok(value),
            None => usage(format!("{arg} needs a value")),
        };
        match arg {
            "--machines" => {
                wish.machines = Some(within(value()?, arg, MIN_MACHINES..=MAX_MACHINES)?)
            }
            "--chares" => wish.chares = Some(within(value()?, arg, 1..=MAX_CHARES)?),
            "--frames" => frames = Some(within(value()?, arg, 1..=1_000_000)?),
            "--with" => wish.with = promises(value()?)?,
            "--difficulty" => difficulty = Some(within(value()?, arg, 1..=HARD.len())?),
            "--clean" => wish.clean = true,
            "--shows" => wish.shows = true,
            "--small-values" => wish.small_values = true,
            "--words" => words = true,
            _ if arg.starts_with('-') => return usage(format!("there is no option \"{arg}\"")),
            _ if seed.is_some() => return usage(format!("\"{arg}\" is too much")),
            _ => seed = Some(number(arg, "seed")?),
        }
    }
    let Some(seed) = seed else {
        return usage("a seed is needed".to_string());
    };
    wish.frames = frames.unwrap_or(match difficulty {
        None => FRAMES,
        Some(_) => FRAMES_IF_DIFFICULT,
    });
    if let Some(difficulty) = difficulty {
        let (with, without) = HARD.split_at(difficulty);
        let spared = without.iter().filter(|one| !wish.with.contains(one));
        wish.without = spared.copied().collect();
        wish.with.extend(with);
    }
    match wished(&wish, seed) {
        Some(list) if words => print(decode(&list).as_bytes()),
        Some(list) => print(&list),
        None => Err(Failure::Other(format!(
            "of {TRIES} lists none is like that: ask for more frames, or for less to happen"
        ))),
    }
}

fn run(args: &[&str]) -> Result<(), Failure> {
    match args {
        [] => usage("a seed is needed".to_string()),
        ["--help" | "-h"] => print(USAGE.as_bytes()),
        ["limit", name] => match Limit::ALL.into_iter().find(|limit| limit.name() == *name) {
            Some(limit) => print(&limit_list(limit)),
            None => usage(format!("there is no long list \"{name}\"")),
        },
        [seed, frames] if !seed.starts_with('-') && !frames.starts_with('-') => print(&list(
            number(seed, "seed")?,
            number(frames, "number of frames")?,
        )),
        [folder, seed, count, frames] if !args.iter().any(|arg| arg.starts_with('-')) => {
            let seed: u64 = number(seed, "seed")?;
            let count: u64 = number(count, "number of lists")?;
            let frames: usize = number(frames, "number of frames")?;
            for seed in seed..seed.saturating_add(count) {
                let file = Path::new(folder).join(format!("{seed}.in"));
                let named = |error| Failure::Other(format!("{}: {error}", file.display()));
                std::fs::write(&file, list(seed, frames)).map_err(named)?;
            }
            Ok(())
        }
        _ => wish(args),
    }
}

fn main() -> ExitCode {
    let args: Vec<String> = std::env::args_os()
        .skip(1)
        .map(|arg| arg.to_string_lossy().into_owned())
        .collect();
    let args: Vec<&str> = args.iter().map(String::as_str).collect();
    match run(&args) {
        Ok(()) => ExitCode::SUCCESS,
        Err(Failure::Usage(message)) => {
            eprintln!("lists: {message}\nlists: `tools/lists --help` says how it is called");
            ExitCode::from(2)
        }
        Err(Failure::Other(message)) => {
            eprintln!("lists: {message}");
            ExitCode::FAILURE
        }
    }
}
