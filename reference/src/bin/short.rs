//! Plays many short sittings in one process, so that starting a program does not count, with the proved engine and with the second
//! implementation; compares every byte, and prints the frames per second of the best of five rounds of each.

use reference::engine::{write_transcript, LINE_SPACE};
use reference::generator::list;
use reference::reader::Sitting;
use std::process::ExitCode;
use std::time::{Duration, Instant};

const LISTS: u64 = 20_000;
/// Of each list; fewer if its run is lost.
const FRAMES: usize = 40;
const ROUNDS: usize = 5;

/// The answers to all lists, one behind the other.
fn play_second(lists: &[Vec<u8>], out: &mut Vec<u8>) {
    out.clear();
    for list in lists {
        let mut sitting = Sitting::new();
        sitting.feed(list, out);
        sitting.finish(out);
    }
}

/// The same from the proved engine; how many bytes they are.
fn play_proved(lists: &[Vec<u8>], out: &mut [u8]) -> usize {
    lists.iter().fold(0, |at, list| {
        at + write_transcript(list, &mut out[at..]).bytes
    })
}

fn timed<T>(play: impl FnOnce() -> T) -> (T, Duration) {
    let start = Instant::now();
    let result = play();
    (result, start.elapsed())
}

fn main() -> ExitCode {
    let lists: Vec<Vec<u8>> = (1..=LISTS).map(|seed| list(seed, FRAMES)).collect();
    // Both sides write where memory is already there.
    let room = LINE_SPACE * FRAMES * lists.len();
    let (mut second, mut proved) = (vec![1; room], vec![1; room]);
    let (mut best_second, mut best_proved) = (Duration::MAX, Duration::MAX);
    for _ in 0..ROUNDS {
        let (len, time) = timed(|| play_proved(&lists, &mut proved));
        best_proved = best_proved.min(time);
        let ((), time) = timed(|| play_second(&lists, &mut second));
        best_second = best_second.min(time);
        if proved[..len] != second[..] {
            eprintln!("short: the answers differ");
            return ExitCode::FAILURE;
        }
    }
    let frames = second.iter().filter(|&&b| b == b'\n').count();
    let speed = |time: Duration| frames as f64 / time.as_secs_f64();
    let (proved, second) = (speed(best_proved), speed(best_second));
    println!("frames:                {frames}");
    println!("proved engine:         {proved:.0} frames a second");
    println!("second implementation: {second:.0} frames a second");
    println!("proved / second:       {:.2}", proved / second);
    ExitCode::SUCCESS
}
