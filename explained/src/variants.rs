//! Variants of a list: the same frames with other values injected, so that no line changes but for the states that shows give.

use crate::lines::cut;
use reference::frame::{parse, Frame};
use reference::rng::Rng;
use reference::values::{values, with_values};
use std::collections::BTreeSet;
use std::fmt;

/// The most that are made at once.
pub const MOST: usize = 1000;

/// So often, in all, a list is left out because its lines are not its own.
const PATIENCE: usize = 1000;

pub struct Variant {
    pub list: Vec<u8>,
    pub lines: Vec<u8>,
}

/// So many lists, no two the same, in each of which every value differs from the list's own; or why there are none. Their lines are
/// their own where the shows can tell them apart. Those of a seed begin with the same ones, however many are asked for.
pub fn variants(
    list: &[u8],
    count: usize,
    seed: u64,
    play: impl Fn(&[u8]) -> Vec<u8>,
) -> Result<Vec<Variant>, String> {
    let own = values(list);
    if own.is_empty() {
        return Err("it injects nothing, so there are no values to change".to_string());
    }
    let possible = own.iter().fold(1, |product: usize, &value| {
        product.saturating_mul(Others::of(value).count())
    });
    if count > possible {
        return Err(format!(
            "it injects too little: it has {possible} variants, not {count}"
        ));
    }
    let mut rng = Rng::new(seed);
    let mut patience = PATIENCE;
    let (mut lists, mut solutions) = (BTreeSet::new(), BTreeSet::from([play(list)]));
    let mut variants = Vec::new();
    while variants.len() < count {
        let new = own.iter().map(|&value| Others::of(value).draw(&mut rng));
        let list = with_values(list, new);
        if lists.contains(&list) {
            continue;
        }
        let lines = play(&list);
        if patience > 0 && solutions.contains(&lines) {
            patience -= 1;
            continue;
        }
        lists.insert(list.clone());
        solutions.insert(lines.clone());
        variants.push(Variant { list, lines });
    }
    Ok(variants)
}

/// Has each of them, and the list, lines of its own?
pub fn are_told_apart(own: &[u8], variants: &[Variant]) -> bool {
    let lines = variants.iter().map(|variant| variant.lines.as_slice());
    let all: BTreeSet<&[u8]> = lines.chain([own]).collect();
    all.len() == variants.len() + 1
}

/// All other values with as many decimal digits as one has; 0 comes for none.
struct Others {
    low: usize,
    high: usize,
    /// The value itself, if it is one of those from low to high.
    but: Option<usize>,
}

impl Others {
    fn of(value: u16) -> Others {
        let (low, high) = match value {
            0..=9 => (1, 9),
            10..=99 => (10, 99),
            100..=999 => (100, 999),
            1000..=9999 => (1000, 9999),
            10_000.. => (10_000, u16::MAX.into()),
        };
        let value = usize::from(value);
        Others {
            low,
            high,
            but: (value >= low).then_some(value),
        }
    }

    fn count(&self) -> usize {
        self.high - self.low + 1 - usize::from(self.but.is_some())
    }

    fn draw(&self, rng: &mut Rng) -> u16 {
        let number = self.low + rng.below(self.count());
        let above = self.but.is_some_and(|but| number >= but);
        (number + usize::from(above)) as u16
    }
}

/// A line of a variant that is not the list's.
#[derive(Debug, PartialEq, Eq)]
pub struct Moved {
    frame: usize,
    own: String,
    other: String,
}

impl fmt::Display for Moved {
    fn fmt(&self, f: &mut fmt::Formatter<'_>) -> fmt::Result {
        let Moved { frame, own, other } = self;
        write!(f, "frame {frame} gets {other}, and in the list {own}")
    }
}

/// Are the lines of a variant those of the list, but for the states that shows give?
pub fn check(list: &[u8], own: &[u8], other: &[u8]) -> Result<(), Moved> {
    let frames = cut(list);
    let (own, other) = (cut(own), cut(other));
    for at in 0..frames.len().max(own.len()).max(other.len()) {
        let shows = matches!(
            frames.get(at).and_then(|line| parse(line)),
            Some(Frame::Show { .. })
        );
        let line = |lines: &[&[u8]]| {
            String::from_utf8_lossy(lines.get(at).unwrap_or(&&[][..])).into_owned()
        };
        let (own, other) = (line(&own), line(&other));
        if kept(&own, shows) != kept(&other, shows) {
            return Err(Moved {
                frame: at + 1,
                own,
                other,
            });
        }
    }
    Ok(())
}

/// What has to stay of a line: an answered show may have another state, its height and its letter stay.
fn kept(line: &str, shows: bool) -> String {
    const ANSWERED: usize = "00hhhhssssssssJ".len();
    match shows && line.len() == ANSWERED {
        true => [&line[..6], &line[14..]].concat(),
        false => line.to_string(),
    }
}

#[cfg(test)]
mod tests {
    use super::*;

    const LIST: &[u8] = b"0102020201010200020000\n1001000301\n1601\n1609\n";

    #[test]
    fn states_alone_may_differ() {
        let own = "00J\n00J\n00000100000023J\n03\n";
        let other = own.replace("00000023", "00000024");
        assert_eq!(check(LIST, own.as_bytes(), other.as_bytes()), Ok(()));
    }

    #[test]
    fn nothing_else_may() {
        let own = "00J\n00J\n00000100000023J\n03\n";
        for (frame, other) in [
            (2, "00J\n09\n00000100000023J\n03\n"),
            (3, "00J\n00J\n00000200000023J\n03\n"),
            (3, "00J\n00J\n00000100000023A\n03\n"),
            (3, "00J\n00J\n04\n03\n"),
            (4, "00J\n00J\n00000100000023J\n04\n"),
            (4, "00J\n00J\n00000100000023J\n"),
            (5, "00J\n00J\n00000100000023J\n03\n00J\n"),
        ] {
            let moved = check(LIST, own.as_bytes(), other.as_bytes());
            assert_eq!(moved.map_err(|moved| moved.frame), Err(frame), "{other}");
        }
        // A frame that is no show keeps all of its line, however long.
        let moved = check(b"1201\n", b"00000100000023J\n", b"00000100000024J\n");
        assert_eq!(
            moved.expect_err("moved").to_string(),
            "frame 1 gets 00000100000024J, and in the list 00000100000023J"
        );
    }

    #[test]
    fn other_values_have_as_many_digits() {
        let mut rng = Rng::new(1);
        for value in [
            0,
            1,
            5,
            9,
            10,
            42,
            99,
            100,
            999,
            1000,
            9999,
            10_000,
            u16::MAX,
        ] {
            let digits = |value: u16| value.to_string().len();
            let drawn: Vec<u16> = (0..300).map(|_| Others::of(value).draw(&mut rng)).collect();
            for other in &drawn {
                assert!(*other != value && *other != 0 && digits(*other) == digits(value));
            }
            if digits(value) == 1 {
                let all: Vec<u16> = (1..=9).filter(|other| *other != value).collect();
                assert!(all.iter().all(|other| drawn.contains(other)), "{value}");
                assert_eq!(Others::of(value).count(), all.len());
            }
        }
    }
}
