//! A question about two processings, answered in words.

use super::order::{word, Difference, Link, Order};
use crate::names::{capital, processing};
use reference::precedes::{Answer, Name};

/// A line for each pair: did the first come before the second?
pub fn text(order: &Order, pairs: &[(Name, Name)]) -> Result<String, Difference> {
    let mut text = String::new();
    for &(first, later) in pairs {
        let answer = order.answer(first, later)?;
        let why = why(order, answer, first, later)?;
        text.push_str(&format!(
            "{} before {}: {}.{why}\n",
            processing(first),
            processing(later),
            word(answer)
        ));
    }
    Ok(text)
}

/// What makes the answer so; of a bad row that is said once for all pairs.
fn why(order: &Order, answer: Answer, first: Name, later: Name) -> Result<String, Difference> {
    Ok(match answer {
        Answer::Bad(_) => String::new(),
        Answer::Unknown => format!(" {}.", missing(order, first, later)),
        Answer::Yes => format!(" {}.", told(&order.chain(first, later)?)),
        Answer::No if first == later => " A processing does not come before itself.".to_string(),
        Answer::No if order.precedes(later, first)? => format!(
            " It is the other way round: {}.",
            told(&order.chain(later, first)?)
        ),
        Answer::No => " Neither came before the other.".to_string(),
    })
}

/// A chain in words, one step after another.
fn told(links: &[Link]) -> String {
    let step = |link: &Link| match *link {
        Link::Chare(low, high) => {
            let chare = low.0;
            let [low, high] = [low, high].map(processing);
            format!("{low} is before {high} on chare {chare}")
        }
        Link::Message(sender, receiver) => {
            let [sender, receiver] = [sender, receiver].map(processing);
            format!("{sender} sent {receiver}'s message")
        }
    };
    in_one(links.iter().map(step))
}

/// Which of the two the row does not have.
fn missing(order: &Order, first: Name, later: Name) -> String {
    let mut names = vec![first, later];
    names.dedup();
    names.retain(|&name| order.find(name).is_none());
    let told = |name: Name| {
        let last = match order.last(name.0) {
            0 => format!("chare {} does none", name.0),
            last => format!(
                "the last of chare {} is {}",
                name.0,
                processing((name.0, last))
            ),
        };
        format!("no processing is {}, for {last}", processing(name))
    };
    capital(&in_one(names.into_iter().map(told)))
}

fn in_one(parts: impl Iterator<Item = String>) -> String {
    parts.collect::<Vec<_>>().join("; ")
}
