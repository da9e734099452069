//! Two states side by side.

use super::facts::{facts, Fact};
use reference::state::State;

/// What a frame did to one fact.
#[derive(Clone, Copy, Debug, PartialEq, Eq)]
pub enum Mark {
    Same,
    /// New, or other than before.
    Changed,
    Gone,
}

impl Mark {
    pub fn sign(self) -> char {
        match self {
            Mark::Same => ' ',
            Mark::Changed => '*',
            Mark::Gone => '-',
        }
    }
}

#[derive(Clone, Debug, PartialEq, Eq)]
pub struct Entry {
    pub mark: Mark,
    pub text: String,
    /// What stood there before, if something did.
    pub was: Option<String>,
}

impl Entry {
    /// The text, with what stood there before.
    pub fn whole(&self) -> String {
        match &self.was {
            Some(was) => format!("{} (before: {was})", self.text),
            None => self.text.clone(),
        }
    }
}

#[derive(Clone, Debug, PartialEq, Eq)]
pub struct Section {
    pub title: String,
    pub entries: Vec<Entry>,
}

/// All that stands in the second state, and what stood in the first and is gone, section by section.
pub fn compared(before: &State, after: &State) -> Vec<Section> {
    let (old, new) = (facts(before), facts(after));
    let mut sections: Vec<Section> = Vec::new();
    for group in &new {
        let of_old: &[Fact] = old
            .iter()
            .find(|o| o.title == group.title)
            .map_or(&[], |o| &o.facts);
        let find = |facts: &[Fact], key: &str| facts.iter().position(|fact| fact.key == key);
        let mut entries: Vec<Entry> = Vec::new();
        for fact in &group.facts {
            let was = find(of_old, &fact.key).map(|at| of_old[at].text.clone());
            let same = was.as_ref() == Some(&fact.text);
            entries.push(Entry {
                mark: if same { Mark::Same } else { Mark::Changed },
                text: fact.text.clone(),
                was: was.filter(|_| !same),
            });
        }
        for fact in of_old
            .iter()
            .filter(|fact| find(&group.facts, &fact.key).is_none())
        {
            entries.push(Entry {
                mark: Mark::Gone,
                text: fact.text.clone(),
                was: None,
            });
        }
        sections.push(Section {
            title: group.title.clone(),
            entries,
        });
    }
    sections
}
