//! What a page prints: its title, a table of all frames with lines and words, the letters, and the picture in sheets.

use super::html::{meaning, Parts};
use crate::lines::shown;
use crate::notation::one_line;
use crate::picture::{escape, Sheets};
use crate::play::Step;
use crate::words::{letter, words};
use reference::answer::Rule;

/// A row of the table.
pub fn row(step: &Step) -> String {
    let class = match step.answer.is_accepted() {
        true => "code line",
        false => "code line refused",
    };
    let frame = step.frame.as_ref().map(one_line).unwrap_or_default();
    let lines = words(step).into_iter();
    let lines: String = lines
        .map(|line| format!("<p>{}</p>", escape(&line)))
        .collect();
    format!(
        "<tr><td class=\"number\">{}</td><td class=\"code\">{}</td><td>{}</td><td class=\"{class}\">{}</td><td>{lines}</td></tr>\n",
        step.number,
        escape(&shown(step.given)),
        escape(&frame),
        escape(step.line),
    )
}

pub fn print(parts: &Parts, sheets: &Sheets) -> String {
    format!(
        "<div id=\"print\" class=\"paper\">
<h1>{title}</h1>
<p class=\"made\">{made_by}.</p>
<table>
<thead><tr><th></th><th>frame</th><th>in words</th><th>line</th><th>what happened</th></tr></thead>
<tbody>
{table}</tbody>
</table>
<div class=\"letters\">
<h2>{heading}</h2>
{letters}</div>
<div id=\"chosen\"></div>
{sheets}</div>
",
        title = escape(parts.title),
        made_by = escape(parts.made_by),
        table = parts.table,
        heading = letter::HEADING,
        letters = Rule::ALL.map(meaning).concat(),
        sheets = sheets.inline(),
    )
}
