//! The subcommand `variants`: makes them, checks their lines and writes them.

use super::args::Asked;
use super::files::{self, print};
use super::run::{lines_of, say, say_whose, status};
use super::{Failure, DONE};
use crate::notation::{decode, form, Form};
use crate::variants::{are_told_apart, check, variants, Variant};
use std::ffi::OsString;
use std::path::Path;

pub fn run(asked: &Asked, input: &[u8], digits: &[u8]) -> Result<u8, Failure> {
    let play = |list: &[u8]| lines_of(asked, list);
    let variants = variants(digits, asked.count, asked.seed, play);
    let variants =
        variants.map_err(|why| Failure::File(format!("{}: {why}", files::shown(&asked.list))))?;
    say_whose(asked);
    let own = play(digits);
    for (variant, number) in variants.iter().zip(1..) {
        if let Err(moved) = check(digits, &own, &variant.lines) {
            let message = format!("satuphir: variant {number} has other lines: {moved}\n");
            return Ok(status(Some(message)));
        }
    }
    if !are_told_apart(&own, &variants) {
        say(&["not every list has lines of its own: shows after the works tell them apart".into()]);
    }
    let in_words = form(input) == Form::Words;
    let text = |variant: Variant| match in_words {
        true => decode(&variant.list).into_bytes(),
        false => variant.list,
    };
    let texts: Vec<Vec<u8>> = variants.into_iter().map(text).collect();
    match &asked.out {
        Some(out) => put(asked, &first_name(asked, out, in_words), &texts)?,
        None => print(&one_after_another(&texts))?,
    }
    Ok(DONE)
}

/// One alone stands as it is; of several each has a line over it.
fn one_after_another(texts: &[Vec<u8>]) -> Vec<u8> {
    if let [one] = texts {
        return one.clone();
    }
    let mut all = Vec::new();
    for (text, number) in texts.iter().zip(1..) {
        all.extend(format!("# variant {number} of {}\n", texts.len()).bytes());
        all.extend(text);
        if !text.ends_with(b"\n") {
            all.push(b'\n');
        }
    }
    all
}

/// The name that the files get with their numbers: the one given, or in a folder the list's.
fn first_name(asked: &Asked, out: &OsString, in_words: bool) -> OsString {
    let folder = Path::new(out);
    if !folder.is_dir() {
        return out.clone();
    }
    let name = match Path::new(&asked.list).file_name() {
        Some(name) if !files::is_standard(&asked.list) => name.to_os_string(),
        _ => match in_words {
            true => "variant.txt".into(),
            false => "variant.in".into(),
        },
    };
    folder.join(name).into_os_string()
}

fn put(asked: &Asked, name: &OsString, texts: &[Vec<u8>]) -> Result<(), Failure> {
    let names: Vec<OsString> = (1..=texts.len())
        .map(|number| files::page(name, number))
        .collect();
    // The list must not be one of them; nothing is written before that is known.
    for name in &names {
        files::keep_apart(&asked.list, name)?;
    }
    for (name, text) in names.iter().zip(texts) {
        files::write(name, text)?;
    }
    Ok(())
}
