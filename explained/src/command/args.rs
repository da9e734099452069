//! What was asked, from the words of the call. Options may stand anywhere; after `--` there are none.

use super::Failure;
use crate::handout::Sort;
use crate::variants::MOST;
use reference::precedes::Name;
use std::ffi::{OsStr, OsString};

#[derive(Clone, Copy, Debug, PartialEq, Eq)]
pub enum Task {
    Help,
    Version,
    Play,
    Explain,
    Picture,
    Page,
    Handout(Sort),
    State(usize),
    /// After so many frames, or after all of the list.
    Next(Option<usize>),
    Survivors,
    Before,
    Variants,
    Encode,
    Decode,
}

pub struct Asked {
    pub task: Task,
    pub quick: bool,
    pub pages: bool,
    /// The lines as a table, or any output as JSON.
    pub table: bool,
    pub json: bool,
    pub list: OsString,
    /// The file to write, for a picture, a page or a handout, `-` being standard output; for variants also a folder.
    pub out: Option<OsString>,
    /// How many variants, and of which seed.
    pub count: usize,
    pub seed: u64,
    /// Of which processings it is asked whether the first came before the second.
    pub pairs: Vec<(Name, Name)>,
}

/// The options as they were found.
#[derive(Default)]
struct Options {
    help: bool,
    version: bool,
    quick: bool,
    pages: bool,
    table: bool,
    json: bool,
    key: bool,
    explained: bool,
    picture: Option<OsString>,
    seed: Option<OsString>,
    out: Option<OsString>,
}

impl Options {
    fn handout(&self) -> Sort {
        match (self.key, self.explained) {
            (_, true) => Sort::Explained,
            (true, false) => Sort::Key,
            (false, false) => Sort::Blank,
        }
    }
}

fn usage<T>(message: String) -> Result<T, Failure> {
    Err(Failure::Usage(message))
}

impl Asked {
    pub fn new(given: Vec<OsString>) -> Result<Asked, Failure> {
        let (options, words) = sort(given)?;
        let alone = |task: Task| Asked {
            task,
            quick: false,
            pages: false,
            table: false,
            json: false,
            list: OsString::new(),
            out: None,
            count: 0,
            seed: 0,
            pairs: Vec::new(),
        };
        if options.help {
            return Ok(alone(Task::Help));
        }
        if options.version {
            return Ok(alone(Task::Version));
        }
        let mut words = words.into_iter();
        let Some(name) = words.next() else {
            return usage("nothing to do: no subcommand was given".to_string());
        };
        let mut word = |what: &str| match words.next() {
            Some(word) => Ok(word),
            None => usage(format!("{} needs {what}", name.to_string_lossy())),
        };
        let mut task = match name.to_str() {
            Some("help") => return Ok(alone(Task::Help)),
            Some("play") => Task::Play,
            Some("explain") => Task::Explain,
            Some("picture") => Task::Picture,
            Some("page") => Task::Page,
            Some("handout") => Task::Handout(options.handout()),
            Some("state") => Task::State(frame(
                &word("the number of a frame, and a list")?,
                "state N LIST",
            )?),
            Some("next") => Task::Next(None),
            Some("survivors") => Task::Survivors,
            Some("before") => Task::Before,
            Some("variants") => Task::Variants,
            Some("encode") => Task::Encode,
            Some("decode") => Task::Decode,
            _ => {
                return usage(format!(
                    "there is no subcommand \"{}\"",
                    name.to_string_lossy()
                ))
            }
        };
        let mut list = word("a list (a file, or - for standard input)")?;
        let out = match task {
            Task::Picture => Some(word("a file to write, such as out.svg")?),
            Task::Page | Task::Handout(_) => Some(word("a file to write, such as out.html")?),
            Task::Explain => options.picture.clone(),
            Task::Variants => options.out.clone(),
            _ => None,
        };
        let count = match task {
            Task::Variants => count(&word("a number of lists, such as 3")?)?,
            _ => 0,
        };
        let pairs = match task {
            Task::Before => pairs(words.by_ref())?,
            _ => Vec::new(),
        };
        // Of two words, the first is the number.
        if task == Task::Next(None) && words.len() > 0 {
            task = Task::Next(Some(frame(&list, "next N LIST")?));
            list = words.next().unwrap_or_default();
        }
        if let Some(more) = words.next() {
            return usage(format!("\"{}\" is too much", more.to_string_lossy()));
        }
        if options.picture.is_some() && task != Task::Explain {
            return usage("--picture goes with explain alone".to_string());
        }
        if options.pages && task != Task::Picture {
            return usage("--pages goes with picture alone".to_string());
        }
        if options.table && task != Task::Play {
            return usage("--table goes with play alone".to_string());
        }
        if options.json && !matches!(task, Task::Play | Task::State(_) | Task::Next(_)) {
            return usage("--json goes with play, state and next alone".to_string());
        }
        if options.table && options.json {
            return usage("--table and --json do not go together".to_string());
        }
        if (options.seed.is_some() || options.out.is_some()) && task != Task::Variants {
            return usage("--seed and --out go with variants alone".to_string());
        }
        if (options.key || options.explained) && !matches!(task, Task::Handout(_)) {
            return usage("--key and --explained go with handout alone".to_string());
        }
        Ok(Asked {
            task,
            quick: options.quick,
            pages: options.pages,
            table: options.table,
            json: options.json,
            list,
            out,
            count,
            seed: options.seed.map_or(Ok(1), |word| seed(&word))?,
            pairs,
        })
    }

    /// Does it need lines, and are these to be the proved engine's?
    pub fn needs_engine(&self) -> bool {
        let needs_none = matches!(
            self.task,
            Task::Help | Task::Version | Task::Encode | Task::Decode | Task::Handout(Sort::Blank)
        );
        !self.quick && !needs_none
    }
}

/// Options and other words, apart.
fn sort(given: Vec<OsString>) -> Result<(Options, Vec<OsString>), Failure> {
    let (mut options, mut words) = (Options::default(), Vec::new());
    let mut given = given.into_iter();
    while let Some(word) = given.next() {
        match word.to_str() {
            Some("--") => {
                words.extend(given.by_ref());
            }
            Some("--help" | "-h") => options.help = true,
            Some("--version" | "-V") => options.version = true,
            Some("--quick") => options.quick = true,
            Some("--pages") => options.pages = true,
            Some("--table") => options.table = true,
            Some("--json") => options.json = true,
            Some("--key") => options.key = true,
            Some("--explained") => options.explained = true,
            Some("--picture") => match given.next() {
                Some(file) => options.picture = Some(file),
                None => return usage("--picture needs a file to write".to_string()),
            },
            Some("--seed") => match given.next() {
                Some(seed) => options.seed = Some(seed),
                None => return usage("--seed needs a number".to_string()),
            },
            Some("--out") => match given.next() {
                Some(out) => options.out = Some(out),
                None => return usage("--out needs a file or folder to write".to_string()),
            },
            _ if is_option(&word) => {
                return usage(format!("there is no option \"{}\"", word.to_string_lossy()));
            }
            _ => words.push(word),
        }
    }
    Ok((options, words))
}

/// `-` alone is standard input.
fn is_option(word: &OsStr) -> bool {
    let bytes = word.as_encoded_bytes();
    bytes.len() > 1 && bytes[0] == b'-'
}

fn frame(word: &OsStr, call: &str) -> Result<usize, Failure> {
    match word.to_str().and_then(|word| word.parse().ok()) {
        Some(number) => Ok(number),
        None => usage(format!(
            "\"{}\" is no number of a frame: {call}, N from 0",
            word.to_string_lossy()
        )),
    }
}

fn count(word: &OsStr) -> Result<usize, Failure> {
    match word.to_str().and_then(|word| word.parse().ok()) {
        Some(number) if (1..=MOST).contains(&number) => Ok(number),
        _ => usage(format!(
            "\"{}\" is no number of lists: variants LIST N, N from 1 to {MOST}",
            word.to_string_lossy()
        )),
    }
}

fn seed(word: &OsStr) -> Result<u64, Failure> {
    match word.to_str().and_then(|word| word.parse().ok()) {
        Some(seed) => Ok(seed),
        None => usage(format!(
            "\"{}\" is no seed: a number is one, from 0 to {}",
            word.to_string_lossy(),
            u64::MAX
        )),
    }
}

/// Processings two by two.
fn pairs(mut words: impl Iterator<Item = OsString>) -> Result<Vec<(Name, Name)>, Failure> {
    let mut pairs = Vec::new();
    while let Some(first) = words.next() {
        let Some(later) = words.next() else {
            return usage(format!(
                "\"{}\" stands alone: before LIST A B asks whether A came before B",
                first.to_string_lossy()
            ));
        };
        pairs.push((processing(&first)?, processing(&later)?));
    }
    Ok(pairs)
}

/// `3:2`, decimal numbers that fit their bytes; one that is in no row is unknown, and no bad call.
fn processing(word: &OsStr) -> Result<Name, Failure> {
    let numbers = word.to_str().and_then(|word| word.split_once(':'));
    let is_number = |part: &str| part.bytes().all(|b| b.is_ascii_digit());
    let numbers = numbers.filter(|(chare, tn)| is_number(chare) && is_number(tn));
    match numbers.map(|(chare, tn)| (chare.parse(), tn.parse())) {
        Some((Ok(chare), Ok(tn))) => Ok((chare, tn)),
        _ => usage(format!(
            "\"{}\" is no processing: it is called CHARE:TN, such as 3:2, up to 255:65535",
            word.to_string_lossy()
        )),
    }
}
