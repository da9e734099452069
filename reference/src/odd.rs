//! Odd inputs for the count of crash sets, with the lines that each must get.

use crate::frame::LONGEST_LINE;

pub struct Odd {
    pub name: String,
    pub input: Vec<u8>,
    pub lines: &'static str,
}

/// Three machines in a ring, and what they survive: nothing beyond one crash.
const RING: &str = "010301020301010000";
const RING_LINES: &str = "1 3 3\n2 3 0\n3 1 0\n";

/// Two machines and twelve chares, so that the frame has digits above 9.
const LETTERS: &str =
    "01020c000001000001000001000001000001000001000001000001000001000002000002000b020c0A";
const TWO_LINES: &str = "1 2 2\n2 1 0\n";

/// A line of this many digits is no frame; programs read in pieces, and these are likely sizes.
const PIECES: [usize; 4] = [1 << 10, 1 << 12, 1 << 13, 1 << 16];
const HUGE: usize = 10_000_000;

/// Small ones first, then those of `HUGE` bytes.
pub fn odd_inputs() -> Vec<Odd> {
    let mut all = Vec::new();
    let mut put = |name: &str, input: Vec<u8>, lines: &'static str| {
        all.push(Odd {
            name: name.to_string(),
            input,
            lines,
        })
    };
    for (name, input, lines) in SMALL {
        put(name, input.as_bytes().to_vec(), lines);
    }
    for (name, before, after, lines) in AROUND {
        let input = [before, RING.as_bytes(), after].concat();
        put(name, input, lines);
    }
    let longest = |len: usize| {
        let mut line = b"01FFFF".to_vec();
        line.resize(len, b'0');
        line
    };
    let followed = |line: Vec<u8>| [&line[..], b"\n", RING.as_bytes(), b"\n"].concat();
    put("longest-frame", longest(LONGEST_LINE), "03\n");
    put(
        "longest-frame-line",
        followed(longest(LONGEST_LINE)),
        "03\n",
    );
    for more in 1..=2 {
        let line = longest(LONGEST_LINE + more);
        put(&format!("longest-and-{more}"), line.clone(), "01\n");
        put(&format!("longest-and-{more}-line"), followed(line), "01\n");
    }
    // A job stands where the second piece begins, or just before or behind.
    for size in PIECES {
        for len in size - 2..=size + 1 {
            let line = vec![b'0'; len];
            put(&format!("line-of-{len}"), followed(line), "01\n");
        }
    }
    put("huge-line", vec![b'1'; HUGE], "01\n");
    put("huge-first-line", followed(vec![b'0'; HUGE]), "01\n");
    let rest = [RING.as_bytes(), b"\n", &vec![b'1'; HUGE]].concat();
    put("huge-rest", rest, RING_LINES);
    let lines = format!("{RING}\n").repeat(HUGE / RING.len());
    put("huge-list", lines.into_bytes(), RING_LINES);
    all
}

/// Name, input, lines.
const SMALL: [(&str, &str, &str); 31] = [
    ("nothing", "", ""),
    ("newline", "\n", "01\n"),
    ("two-newlines", "\n\n", "01\n"),
    ("one-digit", "0", "01\n"),
    ("kind-alone", "01", "01\n"),
    ("kind-and-machines", "0102", "01\n"),
    ("counts-alone", "010201", "01\n"),
    ("no-machine-no-chare", "010000", "03\n"),
    ("other-kind", "1601\n", "02\n"),
    ("other-kind-out-of-range", "1600\n", "02\n"),
    ("injection", "1001000301", "02\n"),
    ("delivery", "110100010001\n", "02\n"),
    ("crash", "1401\n", "02\n"),
    ("withdrawal", "1701\n", "02\n"),
    ("unknown-kind", "1801\n", "01\n"),
    ("kind-two", "0202010000010000\n", "01\n"),
    ("lower-case", LETTERS, TWO_LINES),
    ("no-chare", "01020002010000", "01\n"),
    ("no-chare-right-length", "0102000201", "03\n"),
    ("thirteen-chares", THIRTEEN, "03\n"),
    ("one-machine", "01010100010000\n", "03\n"),
    ("seven-machines", "01070100000000000000010000\n", "03\n"),
    ("first-is-its-buddy", "0102010101010000\n", "03\n"),
    ("last-is-its-buddy", "010301020303010000\n", "03\n"),
    ("buddy-beyond", "010301020401010000\n", "03\n"),
    ("buddy-far-beyond", "0103010203FF010000\n", "03\n"),
    ("chare-on-machine-0", "010301020301000000\n", "03\n"),
    ("chare-on-machine-4", "010301020301040000\n", "03\n"),
    ("first-port-beyond", "010301020301010200\n", "03\n"),
    ("second-port-beyond", "010301020301010002\n", "03\n"),
    ("port-to-itself", "010301020301010101\n", RING_LINES),
];

const THIRTEEN: &str =
    "01020d0000010000010000010000010000010000010000010000010000010000010000010000010000010000";

/// Name, what stands before the ring's digits and after them, lines.
const AROUND: [(&str, &[u8], &[u8], &str); 21] = [
    ("no-newline", b"", b"", RING_LINES),
    ("one-line", b"", b"\n", RING_LINES),
    ("empty-line-behind", b"", b"\n\n", RING_LINES),
    ("job-behind", b"", b"\n0102010000010000\n", RING_LINES),
    ("garbled-behind", b"", b"\nx\n\n\xff", RING_LINES),
    ("zero-behind", b"", b"\n\0", RING_LINES),
    ("empty-line-before", b"\n", b"\n", "01\n"),
    ("two-empty-lines-before", b"\n\n", b"\n", "01\n"),
    ("bad-job-before", b"0102010101010000\n", b"\n", "03\n"),
    ("other-kind-before", b"1601\n", b"\n", "02\n"),
    ("good-job-before", b"0102010000010000\n", b"\n", TWO_LINES),
    ("blank-before", b" ", b"\n", "01\n"),
    ("blank-after", b"", b" \n", "01\n"),
    ("carriage-return", b"", b"\r\n", "01\n"),
    ("carriage-return-alone", b"", b"\r", "01\n"),
    ("zero-byte", b"", b"\0\n", "01\n"),
    ("byte-order-mark", b"\xef\xbb\xbf", b"\n", "01\n"),
    ("digit-too-many", b"", b"0\n", "01\n"),
    ("byte-too-many", b"", b"00\n", "01\n"),
    ("two-jobs-in-a-line", b"0102010000010000", b"\n", "01\n"),
    ("sitting-named", b"01", b"\n", "01\n"),
];
