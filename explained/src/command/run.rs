//! The subcommands.

use super::args::{Asked, Task};
use super::files::{self, print};
use super::usage::HELP;
use super::{variants, Failure, DIFFERENT, DONE, NEEDS_ENGINE};
use crate::data::Source;
use crate::handout::Sort;
use crate::hints::hints;
use crate::lines::cut;
use crate::notation::List;
use crate::picture::{check_length, Drawing, Roll, Sheets, Story};
use crate::state::Wrong;
use crate::table::table;
use crate::{
    ahead, before, engine, handout, notation, page, paper, report, state, survivors, version,
};
use reference::reader::answer_all;
use std::ffi::OsStr;
use std::fmt::Display;

/// Is the call good, and its list? Says whether the engine is needed.
pub fn check(asked: &Asked) -> Result<u8, Failure> {
    if !matches!(asked.task, Task::Help | Task::Version) {
        look_at_out(asked)?;
        match files::is_standard(&asked.list) {
            true => files::look_at_input()?,
            false => {
                let input = files::read(&asked.list)?;
                files::list(&asked.list, &input)?;
            }
        }
    }
    Ok(match asked.needs_engine() {
        true => NEEDS_ENGINE,
        false => DONE,
    })
}

/// Can the result be written where it is to be, and does it not lie on the list?
fn look_at_out(asked: &Asked) -> Result<(), Failure> {
    let Some(out) = &asked.out else {
        return Ok(());
    };
    let is_picture = matches!(asked.task, Task::Picture | Task::Explain);
    if files::is_standard(out) {
        return match asked.task {
            Task::Explain => usage("--picture needs a file: the words go to standard output"),
            Task::Variants => usage("--out needs a file or a folder: without it lists are printed"),
            _ if asked.pages => usage("--pages needs a file: it writes several, and - is one"),
            _ => Ok(()),
        };
    }
    // The files of variants have names of their own.
    if asked.task != Task::Variants {
        files::keep_apart(&asked.list, out)?;
        files::look_at_ending(out, is_picture)?;
    }
    files::look_at_folder(out)
}

fn usage<T>(message: &str) -> Result<T, Failure> {
    Err(Failure::Usage(message.to_string()))
}

pub fn run(asked: &Asked) -> Result<u8, Failure> {
    match asked.task {
        Task::Help => return print(HELP.as_bytes()).map(|()| DONE),
        Task::Version => {
            return print(format!("satuphir {}\n", version::VERSION).as_bytes()).map(|()| DONE)
        }
        _ => {}
    }
    look_at_out(asked)?;
    let input = files::read(&asked.list)?;
    let list = files::list(&asked.list, &input)?;
    if asked.needs_engine() && !engine::LINKED {
        return usage(
            "built without the proved engine: tools/satuphir builds it, --quick does without",
        );
    }
    let digits = &list.digits;
    match asked.task {
        Task::Survivors => say(&survivors::notes(&input, digits)),
        _ => say(&hints(&input)),
    }
    match asked.task {
        Task::Encode => print(digits).map(|()| DONE),
        Task::Decode => print(notation::decode(digits).as_bytes()).map(|()| DONE),
        Task::Survivors => counts(asked, digits),
        Task::Variants => variants::run(asked, &input, digits),
        Task::Handout(sort) => hand_out(asked, sort, digits),
        _ => with_lines(asked, &list),
    }
}

pub fn say(notes: &[String]) {
    for note in notes {
        eprintln!("satuphir: note: {note}");
    }
}

const QUICK: &str = "the second implementation's, not the proved engine's";

/// Whose lines a quick run gives is said before them.
pub fn say_whose(asked: &Asked) {
    if asked.quick {
        eprintln!("satuphir: --quick: the lines are {QUICK}");
    }
}

/// The counts of crash sets, for the job at the head of the list.
fn counts(asked: &Asked, digits: &[u8]) -> Result<u8, Failure> {
    say_whose(asked);
    let lines = match asked.quick {
        true => reference::survivors::answer(digits),
        false => engine::survivors(digits),
    };
    let difference = match survivors::compare(digits, &lines) {
        Ok(()) => print(&lines).map(|()| None)?,
        Err(difference) => Some(difference),
    };
    Ok(status(difference))
}

/// The proved engine's lines, or the second implementation's for a quick run.
pub fn lines_of(asked: &Asked, digits: &[u8]) -> Vec<u8> {
    match asked.quick {
        true => answer_all(digits),
        false => engine::lines(digits),
    }
}

/// The handout has no lines, a key has those of each chare's end too.
fn hand_out(asked: &Asked, sort: Sort, digits: &[u8]) -> Result<u8, Failure> {
    let (title, made_by, lines) = match sort {
        Sort::Blank => (files::title(&asked.list), made_from(digits), Vec::new()),
        _ => {
            say_whose(asked);
            let lines = lines_of(asked, &handout::with_shows(digits));
            (title(asked), made_by(asked, digits), lines)
        }
    };
    let made = handout::handout(&title, &made_by, sort, digits, &lines);
    put_file(asked, &made.html)?;
    Ok(status(made.difference))
}

/// What needs the lines of the list.
fn with_lines(asked: &Asked, list: &List) -> Result<u8, Failure> {
    let List { digits, places } = list;
    say_whose(asked);
    let lines = lines_of(asked, digits);
    let ask = (!asked.quick).then_some(engine::precedes as before::Ask);
    let source = Source {
        digits,
        quick: asked.quick,
        places,
    };
    match asked.task {
        Task::Play if asked.json => said(source.play(&lines)),
        Task::Play if asked.table => said(table(digits, &lines, places)),
        Task::Play => print(&lines).map(|()| DONE),
        Task::State(number) => of_moment(match asked.json {
            true => source.state(&lines, number),
            false => state::after(digits, &lines, number, places),
        }),
        Task::Next(after) => of_moment(match asked.json {
            true => source.next(&lines, after),
            false => ahead::next(digits, &lines, after, places),
        }),
        Task::Before => said(before::text(digits, &lines, ask, &asked.pairs)),
        Task::Page => {
            let page = page::page(&title(asked), &made_by(asked, digits), digits, &lines, ask);
            let page = page.map_err(|message| too_long(asked, message))?;
            put_file(asked, &page.html)?;
            Ok(status(page.wrong))
        }
        _ => explained(asked, list, &lines),
    }
}

/// Prints what stands at a moment; one that is not there is a bad call.
fn of_moment(text: Result<String, Wrong>) -> Result<u8, Failure> {
    match text {
        Err(Wrong::NoFrame(message)) => Err(Failure::Usage(message)),
        Err(Wrong::Difference(difference)) => Ok(status(Some(difference))),
        Ok(text) => print(text.as_bytes()).map(|()| DONE),
    }
}

/// Prints a text, or says why there is none.
fn said(text: Result<String, impl Display>) -> Result<u8, Failure> {
    match text {
        Ok(text) => print(text.as_bytes()).map(|()| DONE),
        Err(wrong) => Ok(status(Some(wrong))),
    }
}

/// The words, the picture, or both.
fn explained(asked: &Asked, list: &List, lines: &[u8]) -> Result<u8, Failure> {
    let List { digits, places } = list;
    if asked.out.is_some() {
        check_length(cut(digits).len()).map_err(|message| too_long(asked, message))?;
    }
    let report = report::report(digits, lines, places);
    if asked.out.is_some() {
        put_picture(asked, &made_by(asked, digits), &report.story)?;
    }
    if asked.task == Task::Explain {
        print(report.text.as_bytes())?;
    }
    Ok(status(report.difference))
}

/// What stands over a picture or a page. It outlives the run, so it too says whose lines these are not.
fn title(asked: &Asked) -> String {
    let name = files::title(&asked.list);
    match asked.quick {
        true => format!("{name} (not the proved engine's lines)"),
        false => name,
    }
}

/// What made a file, and from which list: it outlives the run.
fn made_by(asked: &Asked, digits: &[u8]) -> String {
    let engine = version::engine(asked.quick);
    format!("Lines of the {engine}, {}", made_from(digits))
}

/// The hash is that of the digits, whichever form the list has.
fn made_from(digits: &[u8]) -> String {
    let (version, hash) = (version::VERSION, version::hash(digits));
    format!("satuphir {version}, list {hash}")
}

fn too_long(asked: &Asked, message: String) -> Failure {
    Failure::File(format!("{}: {message}", files::title(&asked.list)))
}

fn put_file(asked: &Asked, text: &str) -> Result<(), Failure> {
    match &asked.out {
        Some(out) => files::write(out, text),
        None => Ok(()),
    }
}

/// The picture, or its sheets and beside them one file with all.
fn put_picture(asked: &Asked, made_by: &str, story: &Story) -> Result<(), Failure> {
    let name = title(asked);
    let too_long = |message| too_long(asked, message);
    if !asked.pages {
        let drawing = Drawing::new(&name, made_by, story).map_err(too_long)?;
        return put_file(asked, &drawing.whole());
    }
    let roll = Roll::new(story).map_err(too_long)?;
    let sheets = Sheets::new(&name, made_by, &roll);
    let out = asked.out.as_deref().unwrap_or_default();
    let put = |out: &OsStr, text: &str| {
        files::keep_apart(&asked.list, out)?;
        files::write(out, text)
    };
    for (at, sheet) in sheets.files().iter().enumerate() {
        put(&files::page(out, at + 1), sheet)?;
    }
    put(&files::printable(out), &paper::picture(&name, &sheets))
}

pub fn status(difference: Option<impl Display>) -> u8 {
    match difference {
        None => DONE,
        Some(difference) => {
            eprint!("{difference}");
            DIFFERENT
        }
    }
}
