//! The same for programs, in JSON: the lines, a state, what can come next.

use crate::ahead::{Group, Moment, Try};
use crate::lines::escaped;
use crate::notation::{words, Places};
use crate::page::json::{array, quoted};
use crate::play::{play, Difference, Step};
use crate::state::{self, compared, Entry, Mark, Wrong};
use crate::version;
use reference::state::State;

/// What every answer begins with: who made it, whose lines it has, from which list.
pub struct Source<'a> {
    pub digits: &'a [u8],
    pub quick: bool,
    pub places: &'a Places,
}

/// Names with their values, which are JSON already.
fn object(fields: &[(&str, String)]) -> String {
    let fields = fields.iter();
    let fields: Vec<String> = fields
        .map(|(name, value)| format!("{}:{value}", quoted(name)))
        .collect();
    format!("{{{}}}", fields.join(","))
}

/// One item a line.
fn listed(items: Vec<String>) -> String {
    match items.is_empty() {
        true => array(items),
        false => format!("[\n{}\n]", items.join(",\n")),
    }
}

impl Source<'_> {
    fn with(&self, fields: &[(&str, String)]) -> String {
        let head = [
            ("version", quoted(version::VERSION)),
            ("engine", quoted(version::engine(self.quick))),
            ("list", quoted(&version::hash(self.digits))),
        ];
        object(&[&head, fields].concat()) + "\n"
    }

    /// A frame's line in the list.
    fn place(&self, frame: usize) -> usize {
        self.places.line(frame).unwrap_or(frame)
    }

    /// Number, line in the list, digits, words and line of a frame.
    fn frame(&self, step: &Step) -> Vec<(&'static str, String)> {
        vec![
            ("frame", step.number.to_string()),
            ("at", self.place(step.number).to_string()),
            ("digits", quoted(&escaped(step.given))),
            ("words", quoted(&words(step.given).join("\n"))),
            ("line", quoted(step.line)),
        ]
    }

    /// Every frame with its line.
    pub fn play(&self, engine: &[u8]) -> Result<String, Difference> {
        let mut frames = Vec::new();
        play(self.digits, engine, |step| {
            frames.push(object(&self.frame(step)))
        })?;
        Ok(self.with(&[("frames", listed(frames))]))
    }

    /// All that stands after a frame.
    pub fn state(&self, engine: &[u8], number: usize) -> Result<String, Wrong> {
        state::at(self.digits, engine, number, |step| {
            let (head, sections) = match step {
                Some(step) => (self.frame(step), compared(step.before, step.after)),
                None => {
                    let empty = State::new();
                    (vec![("frame", 0.to_string())], compared(&empty, &empty))
                }
            };
            let section = |section: &state::Section| {
                let facts = section.entries.iter().map(fact).collect();
                object(&[("title", quoted(&section.title)), ("facts", listed(facts))])
            };
            let sections = sections.iter().map(section).collect();
            self.with(&[head, vec![("state", listed(sections))]].concat())
        })
    }

    /// What would be accepted next, and what would not.
    pub fn next(&self, engine: &[u8], after: Option<usize>) -> Result<String, Wrong> {
        let moment = Moment::new(self.digits, engine, after)?;
        let lost_at = match moment.lost_at {
            Some(frame) => frame.to_string(),
            None => "null".to_string(),
        };
        let group = |group: &Group| {
            let tries = group.tries.iter().map(tried);
            (group.name, listed(tries.collect()))
        };
        let groups: Vec<_> = moment.groups().iter().map(group).collect();
        Ok(self.with(&[
            ("frame", moment.frames.to_string()),
            ("at", self.place(moment.frames).to_string()),
            ("job", moment.has_job().to_string()),
            ("lost_at", lost_at),
            ("next", object(&groups)),
        ]))
    }
}

/// A fact of a state, with what the frame did to it.
fn fact(entry: &Entry) -> String {
    let change = match (entry.mark, &entry.was) {
        (Mark::Same, _) => "none",
        (Mark::Changed, None) => "new",
        (Mark::Changed, Some(_)) => "other",
        (Mark::Gone, _) => "gone",
    };
    let mut fields = vec![("text", quoted(&entry.text)), ("change", quoted(change))];
    fields.extend(entry.was.iter().map(|was| ("before", quoted(was))));
    object(&fields)
}

fn tried(one: &Try) -> String {
    object(&[
        ("words", quoted(&one.words)),
        ("digits", quoted(&one.digits)),
        ("accepted", one.accepted.to_string()),
        ("line", quoted(&one.line)),
        ("why", quoted(&one.why)),
    ])
}
