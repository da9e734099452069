//! Plays random lists and checks demand 3 at every quiet moment.

use reference::answer::{Answer, Question};
use reference::census::{Census, ANSWERS};
use reference::check::{Checked, Violation};
use reference::frame::parse;
use reference::generator::Generator;
use reference::long::{limit_list, Limit};
use reference::rng::Rng;
use std::process::ExitCode;

#[derive(Default)]
struct Totals {
    census: Census,
    lists: u64,
    quiet_moments: usize,
    from_nothing: usize,
    after_withdrawals: usize,
}

impl Totals {
    fn end_list(&mut self, list: &Checked) {
        self.lists += 1;
        self.quiet_moments += list.checker.quiet_moments;
        self.from_nothing += list.checker.from_nothing;
        self.after_withdrawals += list.checker.after_withdrawals;
    }
}

fn play(list: &mut Checked, line: &[u8], census: &mut Census) -> Result<Answer, Violation> {
    let Some(frame) = parse(line) else {
        let answer = list.line(line)?;
        census.garbled(answer);
        return Ok(answer);
    };
    let before = Census::before(&list.state, &frame);
    let answer = list.step(&frame)?;
    census.after(&before, &frame, answer, &list.state);
    Ok(answer)
}

fn play_random(seed: u64, frames: usize, totals: &mut Totals) -> Result<(), String> {
    let mut list = Checked::new();
    let mut generator = Generator::new(seed, frames);
    let mut line = Vec::new();
    let mut at = 0;
    while generator.next(&list.state, &mut line) {
        at += 1;
        let digits = &line[..line.len() - 1];
        let answer = play(&mut list, digits, &mut totals.census)
            .map_err(|v| format!("list of seed {seed}, {frames} frames, line {at}: {v}"))?;
        generator.heard(answer);
        line.clear();
    }
    totals.end_list(&list);
    Ok(())
}

/// The last frame but one of a long list, and no other, gets 07.
fn play_limit(limit: Limit, totals: &mut Totals) -> Result<(), String> {
    let name = limit.name();
    let input = limit_list(limit);
    let lines: Vec<&[u8]> = input.trim_ascii_end().split(|&b| b == b'\n').collect();
    let mut list = Checked::new();
    for (at, line) in lines.iter().enumerate() {
        let answer = play(&mut list, line, &mut totals.census)
            .map_err(|v| format!("long list {name}, line {}: {v}", at + 1))?;
        let want = if at + 2 == lines.len() {
            answer == Answer::Refused(Question::Number)
        } else {
            answer.is_accepted()
        };
        if !want {
            return Err(format!("long list {name}, line {}: {answer:?}", at + 1));
        }
    }
    totals.end_list(&list);
    Ok(())
}

fn run(seed: u64, frames: u64) -> Result<Totals, String> {
    let mut totals = Totals::default();
    let mut rng = Rng::new(seed);
    let mut next = seed;
    while totals.census.frames < frames {
        let length = *rng.pick(&[100, 500, 2000, 2000, 5000, 10_000]);
        play_random(next, length, &mut totals)?;
        next = next.wrapping_add(1);
    }
    println!(
        "random lists {}, frames {}",
        totals.lists, totals.census.frames
    );
    for limit in Limit::ALL {
        play_limit(limit, &mut totals)?;
    }
    Ok(totals)
}

fn main() -> ExitCode {
    let args: Vec<u64> = std::env::args()
        .skip(1)
        .map_while(|arg| arg.parse().ok())
        .collect();
    let [seed, frames] = args[..] else {
        eprintln!("selfcheck SEED FRAMES");
        return ExitCode::from(2);
    };
    match run(seed, frames) {
        Ok(totals) => {
            println!(
                "all lists {}, frames {}",
                totals.lists, totals.census.frames
            );
            println!("quiet moments checked {}", totals.quiet_moments);
            println!("of these from nothing {}", totals.from_nothing);
            println!("of these after withdrawals {}", totals.after_withdrawals);
            print!("{}", totals.census);
            let unseen = ANSWERS.iter().zip(&totals.census.answers);
            let unseen: Vec<&str> = unseen.filter(|(_, &n)| n == 0).map(|(a, _)| *a).collect();
            if !unseen.is_empty() {
                println!("answers not seen: {}", unseen.join(" "));
            }
            let unseen = totals.census.unseen_letters();
            if !unseen.is_empty() {
                println!("letters not seen: {}", String::from_iter(unseen));
            }
            ExitCode::SUCCESS
        }
        Err(message) => {
            println!("VIOLATION: {message}");
            ExitCode::FAILURE
        }
    }
}
