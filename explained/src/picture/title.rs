//! What stands over a picture.

use crate::lines::shortened;

/// Room for a letter of the title, at 18 pixels and bold, with something to spare.
const LETTER: f64 = 12.4;

/// Name, what it shows, and the page; what does not fit into the width is left out, with a sign where it is part of the name.
pub fn title(name: &str, page: &str, width: f64) -> String {
    let room = (width / LETTER) as usize;
    let whole = format!("{name}: who sent what to whom, frame by frame, time running down{page}");
    match whole.chars().count() <= room {
        true => whole,
        false => shortened(name, room.saturating_sub(page.chars().count())) + page,
    }
}

#[cfg(test)]
mod tests {
    use super::title;

    #[test]
    fn as_long_as_fits() {
        let page = " (page 1 of 2)";
        let whole = "a: who sent what to whom, frame by frame, time running down (page 1 of 2)";
        assert_eq!(title("a", page, 1000.0), whole);
        let name = "n".repeat(70);
        assert_eq!(title(&name, page, 1050.0), format!("{name}{page}"));
        let name = format!("first{}last", "-".repeat(100));
        let short = title(&name, page, 1000.0);
        assert_eq!(short.chars().count(), 80);
        assert!(
            short.starts_with("first---") && short.contains("-…-"),
            "{short}"
        );
        assert!(short.ends_with("---last (page 1 of 2)"), "{short}");
    }
}
