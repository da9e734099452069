//! Every list under tests/vectors gives its lines, byte for byte.

use reference::reader::answer_all;
use std::fs;
use std::path::Path;

const LISTS: usize = 76;

#[test]
fn every_vector() {
    let folder = Path::new(env!("CARGO_MANIFEST_DIR")).join("tests/vectors");
    // No list is left out.
    let files = fs::read_dir(&folder).unwrap().map(|file| file.unwrap());
    let is_list = |file: &fs::DirEntry| file.path().extension().is_some_and(|end| end == "in");
    assert_eq!(files.filter(is_list).count(), LISTS);
    for number in 1..=LISTS {
        let read = |end: &str| fs::read(folder.join(format!("{number:02}.{end}"))).unwrap();
        let (want, got) = (read("out"), answer_all(&read("in")));
        let lines = |bytes: &[u8]| String::from_utf8(bytes.to_vec()).unwrap();
        for (at, (w, g)) in lines(&want).lines().zip(lines(&got).lines()).enumerate() {
            assert_eq!(g, w, "list {number:02}, line {}", at + 1);
        }
        assert_eq!(got, want, "list {number:02}");
    }
}
