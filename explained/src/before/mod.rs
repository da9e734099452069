//! What came before what: the row of a list's processings, and questions about it.

pub mod order;
pub mod pairs;
pub mod row;
pub mod table;

pub use order::Ask;

use crate::play::{self, play};
use order::Order;
use reference::precedes::{Name, MAX_RECORDS};
use row::{Changed, Row};
use std::fmt;

/// What the command prints for a list, given the lines for it and whom to ask: an answer for each pair, without a pair the row.
pub fn text(
    input: &[u8],
    lines: &[u8],
    ask: Option<Ask>,
    pairs: &[(Name, Name)],
) -> Result<String, Wrong> {
    let mut row = Row::default();
    play(input, lines, |step| row.see(step))?;
    let order = row.order(ask)?;
    Ok(match (order.bad()?, pairs) {
        (None, []) => table::text(&order)?,
        (None, _) => pairs::text(&order, pairs)?,
        (Some(place), _) => pairs::text(&order, pairs)? + &bad(&order, place),
    })
}

/// Why nothing is answered of a bad row. Of a list it is bad only where it is too long.
pub fn bad(order: &Order, place: u16) -> String {
    let count = order.works.len();
    match order.works.get(MAX_RECORDS) {
        Some(next) if usize::from(place) > MAX_RECORDS => format!(
            "The row is bad at place {place}: the list does {count} processings, and a row has at most {MAX_RECORDS}.\n\
             Such a row is not searched, so no pair of it is answered. The {place}th is done at frame {}: a list\n\
             that ends before it is answered.\n",
            next.frames[0]
        ),
        _ => format!("The row is bad at place {place}, and no pair of it is answered.\n"),
    }
}

/// Why nothing can be said.
#[derive(Debug, PartialEq, Eq)]
pub enum Wrong {
    Lines(play::Difference),
    Changed(Changed),
    Order(order::Difference),
}

impl From<play::Difference> for Wrong {
    fn from(difference: play::Difference) -> Wrong {
        Wrong::Lines(difference)
    }
}

impl From<Changed> for Wrong {
    fn from(changed: Changed) -> Wrong {
        Wrong::Changed(changed)
    }
}

impl From<order::Difference> for Wrong {
    fn from(difference: order::Difference) -> Wrong {
        Wrong::Order(difference)
    }
}

impl fmt::Display for Wrong {
    fn fmt(&self, f: &mut fmt::Formatter<'_>) -> fmt::Result {
        match self {
            Wrong::Lines(difference) => difference.fmt(f),
            Wrong::Changed(changed) => changed.fmt(f),
            Wrong::Order(difference) => difference.fmt(f),
        }
    }
}
