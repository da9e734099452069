//! Every link of the documents leads somewhere: to a file, and to a heading of it.

mod common;

use common::documents::{document, root};
use common::named::repository;

/// What stands in `](...)`, outside code.
fn links(text: &str) -> Vec<&str> {
    let outside = text.split("```").step_by(2);
    let starts = outside.flat_map(|part| part.split("](").skip(1));
    starts.filter_map(|rest| rest.split(')').next()).collect()
}

/// How a heading is called in a link: small letters, digits and hyphens, a hyphen for a blank.
fn anchors(text: &str) -> Vec<String> {
    let outside = text.split("```").step_by(2);
    let lines = outside.flat_map(str::lines);
    let headings = lines.filter(|line| line.starts_with('#'));
    let kept = |c: char| c.is_alphanumeric() || c == '-' || c == '_';
    let anchor = |heading: &str| -> String {
        let text = heading.trim_start_matches('#').trim().to_lowercase();
        let text = text.replace(' ', "-");
        text.chars().filter(|c| kept(*c)).collect()
    };
    headings.map(anchor).collect()
}

/// The links of a document that lead nowhere.
fn broken(name: &str, text: &str) -> Vec<String> {
    let folder = name.rsplit_once('/').map_or("", |(folder, _)| folder);
    let leads = |link: &str| {
        let (file, heading) = link.split_once('#').unwrap_or((link, ""));
        let path = root().join(folder).join(file);
        if !file.is_empty() && !path.exists() {
            return false;
        }
        let own = file.is_empty().then(|| text.to_string());
        let there = || own.unwrap_or_else(|| std::fs::read_to_string(path).expect("text"));
        heading.is_empty() || anchors(&there()).iter().any(|anchor| anchor == heading)
    };
    let links = links(text).into_iter();
    let inside = links.filter(|link| !link.contains("://"));
    let wrong = inside.filter(|link| !leads(link));
    wrong.map(|link| format!("{name}: {link}")).collect()
}

#[test]
fn links_lead_somewhere() {
    let mut seen = 0;
    let mut wrong = Vec::new();
    for name in repository().iter().filter(|name| name.ends_with(".md")) {
        let text = document(name);
        seen += links(&text).len();
        wrong.extend(broken(name, &text));
    }
    assert!(wrong.is_empty(), "{wrong:#?}");
    assert!(seen >= 20, "{seen} links");
}

#[test]
fn a_link_that_leads_nowhere() {
    let text =
        "# Some words, and more\n[a](#some-words-and-more) [b](#none) [c](RULES.md#glossary)\n\
                [d](RULES.md#none) [e](NONE.md) [f](../README.md) [g](https://example.com)\n";
    let want = ["#none", "RULES.md#none", "NONE.md"].map(|link| format!("docs/x.md: {link}"));
    assert_eq!(broken("docs/x.md", text), want);
}
