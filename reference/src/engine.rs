//! The proved engine, called through its static library. It shares no code with the second implementation.

use crate::precedes::{Answer, Name, Processing};

extern "C" {
    /// Writes the output for a whole input and returns its length, or the largest number where room ran out. `written` gets the number of
    /// bytes written in either case.
    fn satuphir_transcript(
        input: *const u8,
        input_len: usize,
        out: *mut u8,
        out_len: usize,
        written: *mut usize,
    ) -> usize;

    /// How many words a state has.
    fn satuphir_state_words() -> usize;

    /// Feeds a reader a piece; returns how many bytes it took.
    fn satuphir_feed(
        state: *mut [u64; STATE],
        line: *mut [u8; LINE],
        len: *mut usize,
        input: *const u8,
        input_len: usize,
        out: *mut u8,
        out_len: usize,
        written: *mut usize,
    ) -> usize;

    /// The end of the input; returns how many bytes were written, or the largest number where there is no room for a line.
    fn satuphir_finish(
        state: *mut [u64; STATE],
        line: *mut [u8; LINE],
        len: *mut usize,
        out: *mut u8,
        out_len: usize,
    ) -> usize;

    /// Counts the crash sets of the job in the first line. Writes the lines and returns their length, or writes nothing and returns the
    /// largest number where there is less room than for the longest answer.
    fn satuphir_survivors(
        input: *const u8,
        input_len: usize,
        out: *mut u8,
        out_len: usize,
    ) -> usize;

    /// Does the processing `chare`, `tn` of the row precede the later one? 0 no, 1 yes, 2 one of them is not in the row, 1000 and the
    /// place where the row is bad.
    fn satuphir_precedes(
        row: *const Processing,
        row_len: usize,
        chare: u8,
        tn: u16,
        later_chare: u8,
        later_tn: u16,
    ) -> u32;
}

/// No line is longer than this, newline included: a show has 14 digits and a letter.
pub const LINE_SPACE: usize = 16;

/// The words of a state, and the bytes of a line that are kept.
pub const STATE: usize = 3287;
pub const LINE: usize = 2047;

/// How many bytes were written, and whether that is all.
#[derive(Debug, PartialEq, Eq)]
pub struct Written {
    pub bytes: usize,
    pub all: bool,
}

/// The engine's output for a whole input, written into `out` as far as there is room.
pub fn write_transcript(input: &[u8], out: &mut [u8]) -> Written {
    let mut bytes = 0;
    // Sound: both places are given with their own lengths, and the engine keeps neither.
    let code = unsafe {
        satuphir_transcript(
            input.as_ptr(),
            input.len(),
            out.as_mut_ptr(),
            out.len(),
            &mut bytes,
        )
    };
    let all = code != usize::MAX;
    assert!(!all || code == bytes, "{code} is not {bytes}");
    Written { bytes, all }
}

/// The engine's output for a whole input.
pub fn transcript(input: &[u8]) -> Vec<u8> {
    let lines = input.iter().filter(|&&b| b == b'\n').count() + 1;
    let mut out = vec![0; LINE_SPACE * lines];
    let written = write_transcript(input, &mut out);
    assert!(written.all, "16 bytes a line are enough");
    out.truncate(written.bytes);
    out
}

/// A sitting that the engine plays piece by piece.
pub struct Reader {
    state: Box<[u64; STATE]>,
    line: Box<[u8; LINE]>,
    len: usize,
}

impl Reader {
    pub fn new() -> Reader {
        // Sound: it only gives a number.
        let words = unsafe { satuphir_state_words() };
        assert_eq!(words, STATE, "the library has another state");
        Reader {
            state: Box::new([0; STATE]),
            line: Box::new([0; LINE]),
            len: 0,
        }
    }

    /// Takes a piece, or its beginning where room runs out: how many bytes, and what was written into `out`.
    pub fn feed(&mut self, input: &[u8], out: &mut [u8]) -> (usize, usize) {
        let mut written = 0;
        // Sound: the reader's places have the lengths that the engine asks for, the others are given with theirs.
        let taken = unsafe {
            satuphir_feed(
                &mut *self.state,
                &mut *self.line,
                &mut self.len,
                input.as_ptr(),
                input.len(),
                out.as_mut_ptr(),
                out.len(),
                &mut written,
            )
        };
        (taken, written)
    }

    /// The end of the input: how many bytes were written, if there was room.
    pub fn finish(&mut self, out: &mut [u8]) -> Option<usize> {
        // Sound: as above.
        let written = unsafe {
            satuphir_finish(
                &mut *self.state,
                &mut *self.line,
                &mut self.len,
                out.as_mut_ptr(),
                out.len(),
            )
        };
        (written != usize::MAX).then_some(written)
    }
}

impl Default for Reader {
    fn default() -> Reader {
        Reader::new()
    }
}

/// Room for every answer to a count of crash sets: six lines of at most 8 bytes.
pub const COUNT_SPACE: usize = 48;

/// The engine's count of the crash sets, written into `out`; its length, if there is room for the longest.
pub fn write_survivors(input: &[u8], out: &mut [u8]) -> Option<usize> {
    // Sound: both places are given with their own lengths, and the engine keeps neither.
    let len =
        unsafe { satuphir_survivors(input.as_ptr(), input.len(), out.as_mut_ptr(), out.len()) };
    (len != usize::MAX).then_some(len)
}

/// The engine's count of the crash sets of the job in the first line.
pub fn survivors(input: &[u8]) -> Vec<u8> {
    let mut out = vec![0; COUNT_SPACE];
    let len = write_survivors(input, &mut out).expect("48 bytes are enough");
    out.truncate(len);
    out
}

/// The engine's answer whether the first processing precedes the second.
pub fn precedes(row: &[Processing], first: Name, second: Name) -> Answer {
    let ((chare, tn), (later_chare, later_tn)) = (first, second);
    // Sound: the row is given with its own length, and the engine neither changes nor keeps it.
    let code =
        unsafe { satuphir_precedes(row.as_ptr(), row.len(), chare, tn, later_chare, later_tn) };
    match code {
        0 => Answer::No,
        1 => Answer::Yes,
        2 => Answer::Unknown,
        1001..=1513 => Answer::Bad((code - 1000) as u16),
        _ => panic!("{code} is no answer"),
    }
}
