//! Reading a list, writing a result. Every failure is named.

use super::Failure;
use crate::names::count;
use crate::notation::{self, List, Mistakes};
use std::env;
use std::ffi::{OsStr, OsString};
use std::fs;
use std::io::{self, Read, Write};
use std::os::unix::fs::MetadataExt;
use std::path::{Path, PathBuf};

fn named(name: &OsStr, error: &io::Error) -> Failure {
    Failure::File(format!("{}: {error}", name.to_string_lossy()))
}

/// Standard input for a list, standard output for a result.
pub fn is_standard(name: &OsStr) -> bool {
    name == "-"
}

/// A Rust program cannot tell a closed input from an empty one: tools/satuphir looks, and says so here.
pub fn look_at_input() -> Result<(), Failure> {
    match env::var_os("SATUPHIR_INPUT") {
        Some(input) if input == "closed" => {
            Err(Failure::File("standard input: it is closed".to_string()))
        }
        _ => Ok(()),
    }
}

/// The list as it stands, in either form.
pub fn read(list: &OsStr) -> Result<Vec<u8>, Failure> {
    if !is_standard(list) {
        return fs::read(list).map_err(|error| named(list, &error));
    }
    look_at_input()?;
    let mut input = Vec::new();
    match io::stdin().lock().read_to_end(&mut input) {
        Ok(_) => Ok(input),
        Err(error) => Err(named("standard input".as_ref(), &error)),
    }
}

/// So many mistakes are told one by one.
const TOLD: usize = 100;

/// The list as it is played; every mistake in its words is named with line and column.
pub fn list(list: &OsStr, input: &[u8]) -> Result<List, Failure> {
    notation::read(input).map_err(|Mistakes(mistakes)| {
        let told = mistakes.iter().take(TOLD);
        let mut told: Vec<String> = told.map(|m| format!("{}, {m}", shown(list))).collect();
        if mistakes.len() > TOLD {
            let more = mistakes.len() - TOLD;
            told.push(format!("{}: {}", shown(list), count(more, "more mistake")));
        }
        Failure::File(told.join("\nsatuphir: "))
    })
}

pub fn shown(list: &OsStr) -> String {
    match is_standard(list) {
        true => "standard input".to_string(),
        false => list.to_string_lossy().into_owned(),
    }
}

/// What a picture or a page is called: the list's name without folder and ending.
pub fn title(list: &OsStr) -> String {
    match Path::new(list).file_stem() {
        Some(stem) if !is_standard(list) => stem.to_string_lossy().into_owned(),
        _ => "standard input".to_string(),
    }
}

/// The list must not be written over by what is made from it.
pub fn keep_apart(list: &OsStr, out: &OsStr) -> Result<(), Failure> {
    let (Ok(one), Ok(two)) = (fs::metadata(list), fs::metadata(out)) else {
        return Ok(());
    };
    if (one.dev(), one.ino()) == (two.dev(), two.ino()) {
        return Err(Failure::Usage(format!(
            "{} is the list itself, and would be written over",
            out.to_string_lossy()
        )));
    }
    Ok(())
}

/// The folder of a file that is to be written must be there.
pub fn look_at_folder(out: &OsStr) -> Result<(), Failure> {
    let folder = match Path::new(out).parent() {
        Some(folder) if !folder.as_os_str().is_empty() => folder,
        _ => Path::new("."),
    };
    match fs::metadata(folder) {
        Ok(found) if found.is_dir() => Ok(()),
        Ok(_) => Err(named(out, &io::Error::from(io::ErrorKind::NotADirectory))),
        Err(error) => Err(named(out, &error)),
    }
}

/// Endings of what a picture, which is SVG, or a page, which is HTML, is not.
const OTHERS: [&str; 13] = [
    "png", "jpg", "jpeg", "gif", "webp", "bmp", "tif", "tiff", "pdf", "ps", "eps", "doc", "docx",
];

/// A result must not be called what it is not.
pub fn look_at_ending(out: &OsStr, is_picture: bool) -> Result<(), Failure> {
    let (what, format, own, other) = match is_picture {
        true => ("picture", "SVG", "svg", &["html", "htm"][..]),
        false => ("page", "HTML", "html", &["svg"][..]),
    };
    let ending = Path::new(out).extension().unwrap_or_default();
    let mut others = OTHERS.iter().chain(other);
    if !others.any(|other| ending.eq_ignore_ascii_case(other)) {
        return Ok(());
    }
    let better = Path::new(out).with_extension(own);
    Err(Failure::Usage(format!(
        "a {what} is written as {format}, not as {}: {} would do (a browser opens and prints it)",
        ending.to_string_lossy().to_uppercase(),
        better.display()
    )))
}

pub fn write(out: &OsStr, text: impl AsRef<[u8]>) -> Result<(), Failure> {
    match is_standard(out) {
        true => print(text.as_ref()),
        false => fs::write(out, text).map_err(|error| named(out, &error)),
    }
}

/// The file of one sheet: `out.svg` becomes `out-2.svg`.
pub fn page(out: &OsStr, number: usize) -> OsString {
    let end = Path::new(out).extension().unwrap_or_default();
    beside(out, &format!("-{number}"), end)
}

/// The file with all sheets: `out.svg` becomes `out-print.html`.
pub fn printable(out: &OsStr) -> OsString {
    beside(out, "-print", "html".as_ref())
}

/// A file in the same folder, with something added to its name, and this ending.
fn beside(out: &OsStr, more: &str, end: &OsStr) -> OsString {
    let path = Path::new(out);
    let mut name = path.file_stem().unwrap_or(out).to_os_string();
    name.push(more);
    if !end.is_empty() {
        name.push(".");
        name.push(end);
    }
    let whole: PathBuf = path.with_file_name(name);
    whole.into_os_string()
}

/// To standard output, to the last byte.
pub fn print(bytes: &[u8]) -> Result<(), Failure> {
    let mut out = io::stdout().lock();
    match out.write_all(bytes).and_then(|()| out.flush()) {
        // A reader that has seen enough is no error.
        Err(error) if error.kind() == io::ErrorKind::BrokenPipe => Ok(()),
        Err(error) => Err(named("standard output".as_ref(), &error)),
        Ok(()) => Ok(()),
    }
}
