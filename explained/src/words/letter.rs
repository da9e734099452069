//! The letters that end accepted lines: what the rule of each is called, and when it is used.

use reference::answer::Rule;

/// What stands over a list of letters.
pub const HEADING: &str = "What the letters mean";

/// The packet that a rule is about, what it is called, and when it is used. All that is said of a letter is made from this.
fn told(rule: Rule) -> (&'static str, &'static str, &'static str) {
    match rule {
        Rule::AskFound => (
            "ASK",
            "entry found",
            "the table has an entry for the message, so a GRANT with its TN goes back",
        ),
        Rule::AskWorked => (
            "ASK",
            "worked",
            "the message has no entry, but its SN is worked, so a GRANT old goes back",
        ),
        Rule::AskNew => (
            "ASK",
            "new ticket",
            "the message has no entry and is not worked, so it gets a ticket, and a GRANT new goes back",
        ),
        Rule::GrantDropped => (
            "GRANT",
            "dropped",
            "the log does not have the message, or has it with a TN",
        ),
        Rule::GrantOld => ("GRANT", "old", "the message is worked, and leaves the log"),
        Rule::GrantReceived => (
            "GRANT",
            "received",
            "the log takes the TN, and no DATA is needed",
        ),
        Rule::GrantNew => ("GRANT", "new", "the log takes the TN, and DATA goes out"),
        Rule::DataFilled => (
            "DATA",
            "filled",
            "the message fills its entry in the table",
        ),
        Rule::DataDropped => (
            "DATA",
            "dropped",
            "the table has no entry for the message, or a filled one",
        ),
        Rule::Other => (
            "",
            "any other accepted frame",
            "a NOTE, an ACK, or one that delivers nothing",
        ),
    }
}

/// What a rule is called: "entry found".
pub fn name(rule: Rule) -> &'static str {
    told(rule).1
}

/// The same with its packet: "ASK, entry found".
pub fn title(rule: Rule) -> String {
    match told(rule) {
        ("", name, _) => name.to_string(),
        (packet, name, _) => format!("{packet}, {name}"),
    }
}

/// What a letter means, in a row of a list of letters.
pub fn meaning(rule: Rule) -> String {
    format!("{}: {}", title(rule), told(rule).2)
}

/// What the letter of a line means, where it stands alone.
pub fn sentence(rule: Rule) -> String {
    let (letter, when) = (rule.letter(), told(rule).2);
    format!("Rule {letter} ({}): {when}.", title(rule))
}

/// What happened under a rule that has a name of its own.
pub fn under(rule: Rule, what: &str) -> String {
    format!("Rule {}, {}: {what}", rule.letter(), name(rule))
}
