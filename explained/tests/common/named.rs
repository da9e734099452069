//! What a document names: its words in code marks and the text between them, without blocks of code.

use super::documents::root;
use std::fs;
use std::path::Path;

pub struct Pieces {
    /// Text and code in turn, text first.
    all: Vec<String>,
}

impl Pieces {
    pub fn of(document: &str) -> Pieces {
        let mut fenced = false;
        let mut text = String::new();
        for line in document.lines() {
            if line.trim_start().starts_with("```") {
                fenced = !fenced;
            } else if !fenced && !line.starts_with("    ") {
                text.push_str(line);
                text.push('\n');
            }
        }
        Pieces {
            all: text.split('`').map(flowing).collect(),
        }
    }

    pub fn code(&self) -> impl Iterator<Item = &str> {
        self.all.iter().skip(1).step_by(2).map(String::as_str)
    }

    fn text(&self) -> impl Iterator<Item = &str> {
        self.all.iter().step_by(2).map(String::as_str)
    }

    /// All words that are written like paths: with a slash, of letters, digits and a few signs.
    pub fn paths(&self) -> Vec<&str> {
        let sign = |c: char| c.is_alphanumeric() || "/._-".contains(c);
        let words = self.code().flat_map(str::split_whitespace);
        let words = words.filter(|word| word.chars().all(sign));
        // In the text all that is no such sign parts words.
        let bare = self.text().flat_map(|text| text.split(|c| !sign(c)));
        let bare = bare.filter(|word| is_in_repository(word));
        let all = words
            .chain(bare)
            .map(|word| word.trim_end_matches(['.', '/']));
        all.filter(|word| word.contains('/')).collect()
    }

    /// Names with what may be the files in which they are said to stand: `a`, `b` and `c` (`F.antt`), `a` in `F`, or two cells of a row.
    pub fn definitions(&self) -> Vec<(Vec<&str>, Vec<&str>)> {
        let mut found = Vec::new();
        let mut at = 1;
        while at < self.all.len() {
            let names = self.joined(at);
            let last = at + 2 * (names.len() - 1);
            let between = self.all.get(last + 1).map_or("", String::as_str);
            let leads = [" (", " in ", " | "].contains(&between);
            let mut files = match between.strip_prefix(" in ") {
                // A file that stands in the text.
                Some(rest) if is_in_repository(rest) => {
                    let file = rest.split([' ', ')', ',', ':', ';']).next();
                    file.map(|file| file.trim_end_matches('.'))
                        .into_iter()
                        .collect()
                }
                _ if leads && last + 2 < self.all.len() => self.joined(last + 2),
                _ => Vec::new(),
            };
            if between == " | " {
                // Other rows have an edit, and where a proof breaks.
                files.retain(|file| file.ends_with(".antt"));
            }
            let names: Vec<&str> = names.into_iter().filter(|name| is_name(name)).collect();
            if !files.is_empty() && !names.is_empty() {
                found.push((names, files));
            }
            at = last + 2;
        }
        found
    }

    /// The code from a place on as far as commas, "and" and "or" join it.
    fn joined(&self, at: usize) -> Vec<&str> {
        let mut names = vec![self.all[at].as_str()];
        let mut at = at;
        while at + 2 < self.all.len()
            && [", ", " and ", " or "].contains(&self.all[at + 1].as_str())
        {
            at += 2;
            names.push(&self.all[at]);
        }
        names
    }
}

/// Does it begin with a folder of the repository?
fn is_in_repository(word: &str) -> bool {
    let folder = word.split('/').next().unwrap_or_default();
    word.contains('/') && !folder.is_empty() && folder != ".." && root().join(folder).is_dir()
}

/// One word that is no path: what a definition can be called.
fn is_name(code: &str) -> bool {
    !code.is_empty() && !code.contains([' ', '/', '.'])
}

/// Blanks and ends of lines are one blank each.
fn flowing(text: &str) -> String {
    let mut flowing = String::new();
    for c in text.chars() {
        match c.is_whitespace() {
            true if flowing.ends_with(' ') => {}
            true => flowing.push(' '),
            false => flowing.push(c),
        }
    }
    flowing
}

/// All files and folders of the repository, from its root on.
pub fn repository() -> Vec<String> {
    let mut paths = Vec::new();
    walk(&root(), "", &mut paths);
    paths
}

fn walk(folder: &Path, name: &str, paths: &mut Vec<String>) {
    for entry in fs::read_dir(folder).expect("a folder") {
        let entry = entry.expect("a file");
        let own = entry.file_name().to_string_lossy().into_owned();
        // What is built, and what git keeps, is no part of it.
        if own == "target" || own == ".git" {
            continue;
        }
        let path = match name {
            "" => own,
            name => format!("{name}/{own}"),
        };
        if entry.path().is_dir() {
            walk(&entry.path(), &path, paths);
        }
        paths.push(path);
    }
}

/// The paths that a name may mean: it is one, or the end of one, its ending left out perhaps; `crate/name` is a must-fail edit too.
pub fn meant<'a>(repository: &'a [String], name: &str) -> Vec<&'a str> {
    let name = name.trim_start_matches("../");
    let mut ends: Vec<String> = ["", ".antt", ".edit"]
        .map(|end| format!("{name}{end}"))
        .into();
    if let Some((folder, edit)) = name.split_once('/') {
        ends.push(format!("{folder}/must-fail/{edit}.edit"));
    }
    let is = |path: &&String, end: &String| {
        path.strip_suffix(end.as_str())
            .is_some_and(|rest| rest.is_empty() || rest.ends_with('/'))
    };
    let found = repository
        .iter()
        .filter(|path| ends.iter().any(|end| is(path, end)));
    found.map(String::as_str).collect()
}

/// Does a word stand in a text, with no more letters or signs of a name around it?
pub fn stands(text: &str, word: &str) -> bool {
    let part = |c: char| c.is_alphanumeric() || "-_'".contains(c);
    text.match_indices(word).any(|(at, _)| {
        let (before, after) = (&text[..at], &text[at + word.len()..]);
        !before.ends_with(part) && !after.starts_with(part)
    })
}
