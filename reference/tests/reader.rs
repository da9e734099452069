//! Input in pieces gives the same lines as input at once, with constant memory.

use reference::frame::LONGEST_LINE;
use reference::generator::list;
use reference::reader::{answer_all, Sitting};

fn in_pieces(input: &[u8], size: usize) -> Vec<u8> {
    let (mut sitting, mut out) = (Sitting::new(), Vec::new());
    for piece in input.chunks(size) {
        sitting.feed(piece, &mut out);
    }
    sitting.finish(&mut out);
    out
}

#[test]
fn pieces_of_any_size() {
    for seed in 0..24 {
        let input = list(seed, 1500);
        let want = answer_all(&input);
        assert!(want.len() > 100);
        for size in [1, 2, 3, 7, 13, 64, 1021, 4096] {
            assert_eq!(in_pieces(&input, size), want, "seed {seed}, size {size}");
        }
    }
}

#[test]
fn any_bytes() {
    let mut input: Vec<u8> = (0..=255).collect();
    input.extend((0..=255).rev());
    input.extend_from_slice(b"\n\n12\x8a\n\x0a\xff\n1201");
    let want = answer_all(&input);
    assert_eq!(want.iter().filter(|&&b| b == b'\n').count(), 8);
    for size in [1, 5, 8, 9] {
        assert_eq!(in_pieces(&input, size), want);
    }
}

/// A job of 255 machines and 255 chares is the longest frame.
#[test]
fn longest_line() {
    let mut job = b"01FFFF".to_vec();
    job.resize(LONGEST_LINE, b'0');
    assert_eq!(job.len(), 2046);
    assert_eq!(in_pieces(&job, 100), b"03\n");
    for more in [1, 2, 3, 5000] {
        let mut line = job.clone();
        line.resize(LONGEST_LINE + more, b'0');
        assert_eq!(answer_all(&line), b"01\n");
        line.extend_from_slice(b"\n1201\n");
        assert_eq!(in_pieces(&line, 100), b"01\n02\n");
        assert_eq!(in_pieces(&line, 1 << 20), b"01\n02\n");
    }
}

#[test]
fn a_long_line_is_not_kept() {
    let (mut sitting, mut out) = (Sitting::new(), Vec::new());
    let piece = vec![b'0'; 1 << 16];
    for _ in 0..64 {
        sitting.feed(&piece, &mut out);
    }
    assert!(out.is_empty());
    assert!(sitting.line_capacity() <= 2 * LONGEST_LINE);
    sitting.feed(b"\n12", &mut out);
    sitting.feed(b"01\n", &mut out);
    assert_eq!(out, b"01\n02\n");
}
