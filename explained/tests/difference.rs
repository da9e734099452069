//! A line that differs from the engine's is told loudly.

use explained::before::Wrong;
use explained::data::Source;
use explained::notation::Places;
use explained::play::{play, Difference};
use explained::report::report;

const LIST: &[u8] = b"0102020201010200020000\n1001000301\n1601\n";
const LINES: &[u8] = b"00J\n00J\n00000000000001J\n";

#[test]
fn equal_lines_are_quiet() {
    let report = report(LIST, LINES, &Places::default());
    assert_eq!(report.difference, None);
    assert_eq!(report.status(), 0);
    assert!(!report.text.contains("!!!"));
}

#[test]
fn the_message_names_the_frame_and_both_lines() {
    let report = report(LIST, b"00J\n09\n00000000000001J\n", &Places::default());
    let want = Difference {
        number: 2,
        frame: "1001000301".to_string(),
        engine: "09".to_string(),
        second: "00J".to_string(),
    };
    assert_eq!(report.difference, Some(want));
    assert_eq!(report.status(), 1);
    let text = &report.text;
    assert!(text.contains("!!! THE LINES DIFFER AT FRAME 2\n"), "{text}");
    assert!(
        text.contains("!!! frame:                 1001000301\n"),
        "{text}"
    );
    assert!(text.contains("!!! proved engine:         09\n"), "{text}");
    assert!(text.contains("!!! second implementation: 00J\n"), "{text}");
    // The frame before is explained, the one that differs and those after it are not.
    assert!(text.contains("Job: "));
    assert!(!text.contains("Inject: ") && !text.contains("Show: "));
}

fn first_difference(lines: &[u8]) -> (usize, String, String) {
    let difference = play(LIST, lines, |_| {}).expect_err("a difference");
    (difference.number, difference.engine, difference.second)
}

#[test]
fn lines_that_are_missing_cut_or_too_many() {
    let (none, shown) = ("(no line)".to_string(), "00000000000001J".to_string());
    assert_eq!(
        first_difference(b"00J\n00J\n"),
        (3, none.clone(), shown.clone())
    );
    let cut = format!("{shown} (without a newline)");
    assert_eq!(first_difference(&LINES[..LINES.len() - 1]), (3, cut, shown));
    let more = [LINES, b"00J\n"].concat();
    assert_eq!(
        first_difference(&more),
        (4, "00J".to_string(), none.clone())
    );
    assert_eq!(first_difference(b""), (1, none, "00J".to_string()));
}

/// A letter alone is a difference too.
#[test]
fn letters_that_differ() {
    let wrong = b"00J\n00C\n00000000000001J\n";
    let second = "00J".to_string();
    assert_eq!(first_difference(wrong), (2, "00C".to_string(), second));
    let without = b"00J\n00J\n00000000000001\n";
    let [engine, second] = ["00000000000001", "00000000000001J"].map(str::to_string);
    assert_eq!(first_difference(without), (3, engine, second));
}

/// Whatever is made of a list says where the lines differ.
#[test]
fn states_and_pages_tell_of_a_difference() {
    let (wrong, places) = (b"00J\n09\n00000000000001J\n", Places::default());
    match explained::state::after(LIST, wrong, 1, &places) {
        Err(explained::state::Wrong::Difference(difference)) => assert_eq!(difference.number, 2),
        _ => panic!("no difference"),
    }
    match explained::ahead::next(LIST, wrong, None, &places) {
        Err(explained::state::Wrong::Difference(difference)) => assert_eq!(difference.number, 2),
        _ => panic!("no difference"),
    }
    let difference = explained::table::table(LIST, wrong, &places).expect_err("a difference");
    assert_eq!(difference.number, 2);
    let source = Source {
        digits: LIST,
        quick: false,
        places: &places,
    };
    let difference = source.play(wrong).expect_err("a difference");
    assert_eq!(difference.number, 2);
    let page = explained::page::page("a list", "wrong", LIST, wrong, None).expect("a page");
    match page.wrong {
        Some(Wrong::Lines(difference)) => assert_eq!(difference.number, 2),
        other => panic!("{other:?}"),
    }
    match explained::before::text(LIST, wrong, None, &[]) {
        Err(Wrong::Lines(difference)) => assert_eq!(difference.number, 2),
        other => panic!("{other:?}"),
    }
}
