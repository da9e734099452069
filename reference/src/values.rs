//! The values that a list injects. They decide no line but a show's.

use crate::frame::{parse, Frame};

/// Where an injection's line has its value.
const PLACE: std::ops::Range<usize> = 4..8;

/// The values of all injections, refused ones too.
pub fn values(list: &[u8]) -> Vec<u16> {
    let lines = list.split(|&b| b == b'\n');
    lines.filter_map(value).collect()
}

/// The list with these values in its injections, one after another; all else stays, byte for byte.
pub fn with_values(list: &[u8], values: impl IntoIterator<Item = u16>) -> Vec<u8> {
    let mut values = values.into_iter();
    let mut lines: Vec<Vec<u8>> = list.split(|&b| b == b'\n').map(<[u8]>::to_vec).collect();
    for line in lines.iter_mut().filter(|line| value(line).is_some()) {
        if let Some(value) = values.next() {
            line[PLACE].copy_from_slice(format!("{value:04X}").as_bytes());
        }
    }
    lines.join(&b'\n')
}

fn value(line: &[u8]) -> Option<u16> {
    match parse(line) {
        Some(Frame::Inject { value, .. }) => Some(value),
        _ => None,
    }
}
