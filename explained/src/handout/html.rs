//! The handout as a page to print.

use super::Sort;
use crate::paper;
use crate::picture::escape;
use crate::words::letter;
use reference::answer::Rule;

/// A frame as it is handed out.
pub struct Row {
    /// In words; a job has several lines.
    pub frame: Vec<String>,
    pub line: String,
    pub words: Vec<String>,
}

const TASK: &str = "Write the line that each frame gets. An accepted line ends with a letter:";
const END: &str = "After the last frame: the line that each of these would get.";

pub fn html(title: &str, made_by: &str, sort: Sort, rows: &[Row], ends: &[Row]) -> String {
    let title = match sort {
        Sort::Blank => title.to_string(),
        Sort::Key => format!("{title}: key"),
        Sort::Explained => format!("{title}: key, explained"),
    };
    let head = match sort {
        Sort::Blank => format!("{}<p>{TASK}</p>\n<p>{}</p>\n", place_for_name(), letters()),
        _ => String::new(),
    };
    let mut body = format!(
        "<style>\n{}</style>\n<h1>{}</h1>\n{head}{}",
        include_str!("handout.css"),
        escape(&title),
        table(rows, 1, sort)
    );
    if !ends.is_empty() {
        body.push_str(&format!("<h2>{END}</h2>\n{}", table(ends, 0, sort)));
    }
    body.push_str(&format!("<p class=\"made\">{}.</p>\n", escape(made_by)));
    paper::document(&title, false, &body)
}

fn place_for_name() -> String {
    let place = |what: &str| format!("<span>{what} <i></i></span>");
    format!("<p class=\"name\">{}{}</p>\n", place("Name"), place("Date"))
}

/// All letters, with their names.
fn letters() -> String {
    let names = Rule::ALL.map(|rule| format!("{} {}", rule.letter(), letter::title(rule)));
    escape(&format!("{}.", names.join("; ")))
}

/// Frames with their numbers from one on; those that stand after the list have none.
fn table(rows: &[Row], first: usize, sort: Sort) -> String {
    let row = |(at, row): (usize, &Row)| {
        let number = match first {
            0 => String::new(),
            first => (first + at).to_string(),
        };
        self::row(&number, row, sort)
    };
    let rows: String = rows.iter().enumerate().map(row).collect();
    format!(
        "<table>\n<thead><tr><th></th><th>frame</th><th>line</th></tr></thead>\n<tbody>\n{rows}</tbody>\n</table>\n"
    )
}

fn row(number: &str, row: &Row, sort: Sort) -> String {
    let each = |lines: &[String], class: &str| -> String {
        let line = |line: &String| format!("<p{class}>{}</p>", escape(line));
        lines.iter().map(line).collect()
    };
    let class = match sort {
        Sort::Blank => "blank",
        _ => "code",
    };
    format!(
        "<tr><td class=\"number\">{number}</td><td>{}{}</td><td class=\"{class}\">{}</td></tr>\n",
        each(&row.frame, ""),
        each(&row.words, " class=\"words\""),
        escape(&row.line)
    )
}
