//! A list's processings as the words of its frames tell them: a second way to the row.

use explained::engine;
use explained::play::play;
use explained::words::words;
use reference::limits::DESK;
use reference::precedes::Processing;
use std::collections::HashMap;

/// A record, and the frames that did it.
pub type Told = (Processing, Vec<usize>);

pub fn told(list: &[u8]) -> Vec<Told> {
    let mut row: Vec<Told> = Vec::new();
    let mut sent = HashMap::new();
    let played = play(list, &engine::lines(list), |step| {
        let lines = words(step);
        if !lines[0].starts_with("Work: ") || !step.answer.is_accepted() {
            return;
        }
        let [chare, _, tn, sender, _, sn] = numbers(&lines[0])[..] else {
            panic!("{}", lines[0]);
        };
        let sender_tn = match sender as u8 {
            DESK => 0,
            _ => sent[&vec![sender, chare, sn]],
        };
        let record = Processing {
            chare: chare as u8,
            tn,
            sender: sender as u8,
            sender_tn,
        };
        match row
            .iter_mut()
            .find(|(other, _)| other.name() == record.name())
        {
            Some((first, frames)) => {
                assert_eq!(*first, record);
                frames.push(step.number);
            }
            None => row.push((record, vec![step.number])),
        }
        for line in lines.iter().filter(|line| line.starts_with("It sends ")) {
            sent.insert(numbers(line), tn);
        }
    });
    assert_eq!(played, Ok(()));
    row
}

pub fn records(list: &[u8]) -> Vec<Processing> {
    told(list).into_iter().map(|(record, _)| record).collect()
}

/// The numbers of a sentence, up to what a message carries.
fn numbers(line: &str) -> Vec<u16> {
    let head = &line[..line.find(" (").unwrap_or(line.len())];
    let numbers = head.split(|letter: char| !letter.is_ascii_digit());
    numbers.filter_map(|number| number.parse().ok()).collect()
}
