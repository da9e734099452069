//! Asks the proved engine what came before what in long rows, each question many times, and prints for each row the question with the
//! highest median: that and its longest time. A median above a millisecond is a failure. The longest time is no measure of the engine: it
//! has in it what the machine did meanwhile.

use reference::engine::precedes;
use reference::hard::{hard_pairs, hard_rows};
use reference::pairs::Pair;
use reference::precedes::{Answer, Processing};
use std::hint::black_box;
use std::process::ExitCode;
use std::time::{Duration, Instant};

const TIMES: usize = 500;
const MOST: Duration = Duration::from_millis(1);

/// A question, asked many times.
struct Asked {
    answer: Answer,
    median: Duration,
    longest: Duration,
}

fn ask(row: &[Processing], (first, second): Pair) -> Asked {
    let mut times: Vec<Duration> = (0..TIMES)
        .map(|_| {
            let start = Instant::now();
            black_box(precedes(black_box(row), first, second));
            start.elapsed()
        })
        .collect();
    times.sort();
    Asked {
        answer: precedes(row, first, second),
        median: times[TIMES / 2],
        longest: times[TIMES - 1],
    }
}

fn main() -> ExitCode {
    let micros = |time: Duration| time.as_secs_f64() * 1e6;
    println!("  median  longest  microseconds for the slowest question, of {TIMES} times");
    let mut slowest = Duration::ZERO;
    for hard in hard_rows() {
        let asked = hard_pairs(&hard.row)
            .into_iter()
            .map(|pair| ask(&hard.row, pair))
            .max_by_key(|asked| asked.median)
            .expect("some pairs");
        let (median, longest) = (micros(asked.median), micros(asked.longest));
        println!(
            "{median:8.1} {longest:8.1}  {}: {:?}",
            hard.name, asked.answer
        );
        slowest = slowest.max(asked.median);
    }
    if slowest > MOST {
        println!("TOO SLOW: a median is above a millisecond");
        return ExitCode::FAILURE;
    }
    println!("every median is within a millisecond");
    ExitCode::SUCCESS
}
