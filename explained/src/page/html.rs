//! The page's own language: header, picture, panel, and what is printed.

use super::print;
use crate::paper;
use crate::picture::{escape, shared, signs, Roll, Sheets};
use crate::words::letter;
use reference::answer::Rule;

/// The legend stands in the panel, which is narrow.
const LEGEND_WIDTH: f64 = 460.0;

/// What stands in a page, in its language or as JSON.
pub struct Parts<'a> {
    pub title: &'a str,
    pub made_by: &'a str,
    pub roll: &'a Roll,
    pub table: String,
    pub data: String,
}

/// A letter with what it means.
pub fn meaning(rule: Rule) -> String {
    let meaning = escape(&letter::meaning(rule));
    format!("<p><b>{}</b> {meaning}</p>\n", rule.letter())
}

pub fn html(parts: &Parts) -> String {
    let sheets = Sheets::new(parts.title, parts.made_by, parts.roll);
    let script = [
        include_str!("page.js"),
        include_str!("zoom.js"),
        include_str!("order.js"),
        include_str!("print.js"),
        include_str!("show.js"),
        include_str!("tools.js"),
    ];
    format!(
        "<!DOCTYPE html>
<html lang=\"en\">
<head>
<meta charset=\"utf-8\">
<meta name=\"viewport\" content=\"width=device-width, initial-scale=1\">
<title>{title}</title>
<style>
{paper}{style}</style>
</head>
<body>
{shared}<header>
<h1>{title}</h1>
<span class=\"group\"><button id=\"back\" type=\"button\">Back</button>
<span id=\"place\"></span>
<button id=\"next\" type=\"button\">Next</button></span>
{tools}<p>{made_by}.</p>
</header>
<main>
<div id=\"picture\" tabindex=\"0\" role=\"region\" aria-label=\"picture\">
<div id=\"heads\">
{heads}</div>
<div id=\"rows\">
{picture}</div>
</div>
<div id=\"side\" tabindex=\"0\" role=\"region\" aria-label=\"panel\">
<section><h2 id=\"head\"></h2><div id=\"text\" aria-live=\"polite\"></div></section>
<section><h2>Packet</h2><p id=\"packet\"></p></section>
<section><h2>What came before</h2><div id=\"order\" tabindex=\"-1\" aria-live=\"polite\"></div></section>
<section><details id=\"letters\"><summary>{heading}</summary>
{letters}</details></section>
<section><details id=\"legend\"><summary>Signs of the picture</summary>
{legend}</details></section>
<section><details id=\"keys\"><summary>Keys</summary>
{keys}</details></section>
<section><h2 id=\"moment\"></h2><p class=\"key\">* new or other than before, - gone</p><div id=\"state\"></div></section>
</div>
</main>
{print}<script type=\"application/json\" id=\"data\">{data}</script>
<script>
{script}</script>
</body>
</html>
",
        title = escape(parts.title),
        paper = paper::style(parts.title, sheets.lying),
        style = include_str!("page.css"),
        shared = shared(),
        tools = include_str!("tools.html"),
        made_by = escape(parts.made_by),
        heads = parts.roll.heads(),
        picture = parts.roll.picture(),
        heading = letter::HEADING,
        letters = Rule::ALL.map(meaning).concat(),
        legend = signs(LEGEND_WIDTH),
        keys = include_str!("keys.html"),
        print = print::print(parts, &sheets),
        data = parts.data,
        script = script.concat(),
    )
}
