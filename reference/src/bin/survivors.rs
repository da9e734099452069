//! A job from the first line of standard input, its crash sets counted on standard output.

use reference::frame::LONGEST_LINE;
use reference::survivors::answer;
use std::io::{self, BufRead, Read, Write};

fn main() -> io::Result<()> {
    // What is longer than the longest frame is no frame, however it goes on.
    let enough = LONGEST_LINE as u64 + 1;
    let mut line = Vec::new();
    io::stdin()
        .lock()
        .take(enough)
        .read_until(b'\n', &mut line)?;
    let mut output = io::stdout().lock();
    output.write_all(&answer(&line))?;
    output.flush()
}
