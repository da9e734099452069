//! The proved count of crash sets, linked as a library, gives the second implementation's bytes.

use reference::buddies::{job_line, layouts};
use reference::engine::{survivors, write_survivors, COUNT_SPACE};
use reference::odd::odd_inputs;
use reference::rng::Rng;
use reference::same::compare;
use reference::slip::{every_slip, random_input, SLIPPED};
use reference::survivors::answer;

/// How many inputs were compared.
fn same(inputs: impl IntoIterator<Item = Vec<u8>>) -> usize {
    compare(inputs, answer, survivors).unwrap_or_else(|input| {
        let start = String::from_utf8_lossy(&input[..input.len().min(200)]);
        panic!("the lines differ, {} bytes: {start:?}", input.len());
    })
}

#[test]
fn every_layout() {
    let lines = layouts().map(|buddies| job_line(&buddies));
    assert_eq!(same(lines), 50_068);
}

#[test]
fn inputs_of_any_kind() {
    assert_eq!(same(odd_inputs().into_iter().map(|odd| odd.input)), 78);
    let mut rng = Rng::new(1);
    let random = std::iter::repeat_with(|| random_input(&mut rng));
    assert_eq!(same(random.take(100_000)), 100_000);
    let slips = SLIPPED.iter().flat_map(|job| every_slip(job.as_bytes()));
    assert_eq!(same(slips), 33_536);
}

/// Below the room for every answer nothing is written, however short the answer is.
#[test]
fn a_buffer_that_is_too_small() {
    for input in [
        "",
        "\n",
        "1601",
        "0102010000010000",
        "010601000000000000010000\n",
    ] {
        for len in 0..COUNT_SPACE {
            let mut out = vec![b'.'; len];
            assert_eq!(write_survivors(input.as_bytes(), &mut out), None);
            assert!(out.iter().all(|&b| b == b'.'), "{len}");
        }
        let want = answer(input.as_bytes());
        for len in [COUNT_SPACE, COUNT_SPACE + 1, 1000] {
            let mut out = vec![b'.'; len];
            let written = write_survivors(input.as_bytes(), &mut out).expect("room");
            assert_eq!(out[..written], want, "{len}");
        }
    }
}
