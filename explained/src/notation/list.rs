//! A list that has words: each line decides by itself whether it is words or digits.

use super::encode::{draft, frame, put_chare, raw_line};
use super::form::{without_mark, Shape, WORDS};
use super::scan::Scan;
use super::{Error, List, Mistakes};
use reference::encode::put_line;
use reference::frame::{Draft, Frame};
use reference::limits::MAX_CHARES;

/// The frames of the list, or every mistake in it.
pub fn read(input: &[u8]) -> Result<List, Mistakes> {
    let mut reader = Reader::default();
    let mut mistakes = Vec::new();
    for (number, line) in (1..).zip(without_mark(input).split(|&b| b == b'\n')) {
        let line = line.strip_suffix(b"\r").unwrap_or(line);
        mistakes.extend(reader.line(number, line).err());
    }
    reader.put_job();
    match mistakes.is_empty() {
        true => Ok(List::new(reader.digits, reader.lines)),
        false => Err(Mistakes(mistakes)),
    }
}

#[derive(Default)]
struct Reader {
    digits: Vec<u8>,
    /// The line of each frame.
    lines: Vec<usize>,
    /// A job is written once its chares are known.
    job: Option<Draft>,
}

impl Reader {
    fn line(&mut self, number: usize, line: &[u8]) -> Result<(), Error> {
        let text = String::from_utf8_lossy(line);
        let mut scan = Scan::new(number, &text);
        let shape = Shape::of(line);
        match shape {
            Shape::Nothing => return Ok(()),
            Shape::Neither => return Err(self.neither(&scan)),
            Shape::Words | Shape::Digits => {}
        }
        let given = scan.word().unwrap_or_default();
        let word = given.to_ascii_lowercase();
        if word == "chare" {
            return match &mut self.job {
                Some(draft) => put_chare(draft, &mut scan),
                None => Err(scan.wrong(
                    "a line \"chare\" stands under a line \"job\", nowhere else".to_string(),
                )),
            };
        }
        self.put_job();
        self.lines.push(number);
        match word.as_str() {
            _ if shape == Shape::Digits => {
                scan.end()?;
                self.put(given.as_bytes());
            }
            "job" => {
                // The chares under a job with a mistake are looked at too.
                self.job = Some(Draft::default());
                self.job = Some(draft(&mut scan)?);
            }
            "raw" => self.put(&raw_line(number, line)?),
            word => put_line(&mut self.digits, &frame(word, &mut scan)?),
        }
        Ok(())
    }

    /// A line as it stands.
    fn put(&mut self, line: &[u8]) {
        self.digits.extend(line);
        self.digits.push(b'\n');
    }

    fn put_job(&mut self) {
        if let Some(draft) = self.job.take() {
            put_line(&mut self.digits, &Frame::Job(draft));
        }
    }

    /// What the line was meant to be counts for those that follow, so that they are not mistakes too.
    fn neither(&mut self, scan: &Scan) -> Error {
        match (scan.meant(&WORDS), &mut self.job) {
            (Some("job"), _) => self.job = Some(Draft::default()),
            (Some("chare"), Some(draft)) => {
                draft.chares = (draft.chares + 1).min(MAX_CHARES as u8);
            }
            _ => {}
        }
        let known = WORDS.join(", ");
        let what = format!("one of {known}, or a frame in digits");
        scan.expected_one_of(&what, &WORDS)
    }
}
