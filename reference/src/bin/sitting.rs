//! Frames from standard input, answers to standard output.

use reference::reader::Sitting;
use std::io::{self, Read, Write};

const PIECE: usize = 1 << 16;

fn main() -> io::Result<()> {
    let (mut input, mut output) = (io::stdin().lock(), io::stdout().lock());
    let mut sitting = Sitting::new();
    let mut piece = vec![0; PIECE];
    let mut answers = Vec::with_capacity(PIECE);
    loop {
        let len = match input.read(&mut piece) {
            Ok(0) => break,
            Ok(len) => len,
            Err(e) if e.kind() == io::ErrorKind::Interrupted => continue,
            Err(e) => return Err(e),
        };
        sitting.feed(&piece[..len], &mut answers);
        output.write_all(&answers)?;
        answers.clear();
    }
    sitting.finish(&mut answers);
    output.write_all(&answers)?;
    output.flush()
}
