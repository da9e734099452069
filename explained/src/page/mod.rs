//! One page to click through: the picture beside the words, and the state of the moment. It fetches nothing from elsewhere.

mod html;
pub mod json;
mod print;
mod works;

use crate::before::row::Row;
use crate::before::{self, Ask, Wrong};
use crate::lines::cut;
use crate::picture::{Place, Recorder, Roll, Stand, ANSWERS_AT};
use crate::play::{play, Step};
use crate::state::compared;
use crate::words::words;
use html::Parts;
use json::{array, quoted};
use reference::answer::Answer;
use reference::frame::Frame;

/// A page holds the state after each frame, so a longer list would make it heavy.
pub const MOST_FRAMES: usize = 1000;

pub struct Page {
    pub html: String,
    pub wrong: Option<Wrong>,
}

/// The page of a list, given the lines for it, what made them from which list, and whom to ask what came before what.
pub fn page(
    title: &str,
    made_by: &str,
    input: &[u8],
    lines: &[u8],
    ask: Option<Ask>,
) -> Result<Page, String> {
    let frames = cut(input).len();
    if frames > MOST_FRAMES {
        return Err(format!(
            "too long for a page: {frames} frames, and a page has at most {MOST_FRAMES}"
        ));
    }
    let (mut recorder, mut row) = (Recorder::new(), Row::default());
    let (mut moments, mut table) = (Vec::new(), String::new());
    let result = play(input, lines, |step| {
        recorder.see(step);
        row.see(step);
        moments.push(moment(step));
        table.push_str(&print::row(step));
    });
    let roll = Roll::new(&recorder.story)?;
    let rows = roll.rows.iter();
    let rows = rows.map(|Stand { top, height, x }| format!("[{top:.1},{height:.1},{x:.1}]"));
    let (works, wrong) = match processings(&row, &roll.works, ask) {
        Ok(works) => (works, None),
        Err(wrong) => (quoted(NOT_SAID), Some(wrong)),
    };
    let data = format!(
        "{{\"answers\":{ANSWERS_AT},\"moments\":{},\"rows\":{},\"works\":{works}}}",
        array(moments),
        array(rows.collect())
    );
    let parts = Parts {
        title,
        made_by,
        roll: &roll,
        table,
        data,
    };
    Ok(Page {
        html: html::html(&parts),
        wrong: result.err().map(Wrong::Lines).or(wrong),
    })
}

const NOT_SAID: &str =
    "What came before what is not said here: the command that made the page said why.";

/// The processings with all that came before each, or the words why they cannot be told.
fn processings(row: &Row, places: &[Option<Place>], ask: Option<Ask>) -> Result<String, Wrong> {
    let order = row.order(ask)?;
    Ok(match order.bad()? {
        Some(place) => quoted(&before::bad(&order, place)),
        None => works::works(&order, places)?,
    })
}

/// Frame, words and state after it.
fn moment(step: &Step) -> String {
    let text = words(step).iter().map(|line| quoted(line)).collect();
    let mut sections = Vec::new();
    for section in compared(step.before, step.after) {
        let entry = |e: &crate::state::Entry| {
            let sign = e.mark.sign().to_string();
            format!("[{},{}]", quoted(&sign), quoted(&e.whole()))
        };
        let entries = section.entries.iter().map(entry).collect();
        sections.push(format!("[{},{}]", quoted(&section.title), array(entries)));
    }
    format!(
        "{{\"head\":{},\"text\":{},\"is\":{},\"state\":{}}}",
        quoted(&step.head()),
        array(text),
        array(kinds(step).iter().map(|kind| quoted(kind)).collect()),
        array(sections)
    )
}

/// What one may want to jump to: a refusal, a crash, a frame after which all is quiet again.
fn kinds(step: &Step) -> Vec<&'static str> {
    let refused = matches!(step.answer, Answer::Refused(_));
    let crash = matches!(step.frame, Some(Frame::Crash { .. })) && !refused;
    let quiet = step.after.is_quiet() && !step.before.is_quiet();
    let kinds = [(refused, "refusal"), (crash, "crash"), (quiet, "quiet")];
    let kinds = kinds.into_iter().filter(|(is, _)| *is);
    kinds.map(|(_, kind)| kind).collect()
}
