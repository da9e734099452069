//! The proved reader, linked as a library and fed in pieces, gives the second implementation's bytes.

use reference::engine::{Reader, LINE_SPACE};
use reference::generator::list;
use reference::reader::answer_all;

/// What a reader writes that gets an input in pieces of at most `size` bytes and a buffer of `room` bytes.
fn in_pieces(input: &[u8], size: usize, room: usize) -> Vec<u8> {
    let mut reader = Reader::new();
    let mut whole = Vec::new();
    let mut out = vec![b'.'; room];
    for mut piece in input.chunks(size) {
        while !piece.is_empty() {
            let (taken, written) = reader.feed(piece, &mut out);
            assert!(taken > 0, "a buffer of {room} bytes has room for a line");
            whole.extend_from_slice(&out[..written]);
            piece = &piece[taken..];
        }
    }
    let written = reader.finish(&mut out).expect("room for a line");
    whole.extend_from_slice(&out[..written]);
    whole
}

#[test]
fn pieces_of_every_size() {
    // Garbled lines, a line longer than any frame, a last line without a newline.
    let input = [
        &list(7, 60)[..],
        &[b'1'; 2500],
        b"\n\n12\n",
        &list(8, 20),
        b"1601",
    ]
    .concat();
    let whole = answer_all(&input);
    for size in (1..=80).chain([500, 2046, 2047, 2048, input.len()]) {
        for room in [LINE_SPACE, LINE_SPACE + 1, 40, 1000] {
            assert!(in_pieces(&input, size, room) == whole, "{size}, {room}");
        }
    }
}

#[test]
fn random_pieces_of_random_lists() {
    for seed in 1..=60 {
        let input = list(seed, 300);
        let size = 1 + (seed * 37 % 211) as usize;
        let room = LINE_SPACE + (seed * 13 % 59) as usize;
        assert!(
            in_pieces(&input, size, room) == answer_all(&input),
            "{seed}"
        );
    }
}

/// Without room for a last line the reader is as it was, and the end can be asked for again.
#[test]
fn the_end_again_with_room() {
    let mut reader = Reader::new();
    let mut out = [b'.'; LINE_SPACE];
    assert_eq!(reader.feed(b"160", &mut out), (3, 0));
    for room in 0..LINE_SPACE {
        assert_eq!(reader.finish(&mut out[..room]), None);
    }
    assert_eq!(out, [b'.'; LINE_SPACE]);
    assert_eq!(reader.feed(b"1", &mut out), (1, 0));
    assert_eq!(reader.finish(&mut out), Some(3));
    assert_eq!(&out[..3], b"02\n");
    // No line is under way any more, so that the end needs no room, and a new line can follow.
    assert_eq!(reader.finish(&mut []), Some(0));
    assert_eq!(reader.feed(b"0102020201010200020000\n", &mut out), (23, 4));
    assert_eq!(&out[..4], b"00J\n");
}
