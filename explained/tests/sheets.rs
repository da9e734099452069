//! The picture on paper: sheets of A4, type that can be read, every text whole on one of them.

mod common;

use common::svg::{attribute, number, said, shapes};
use common::{explained, list, names, sheets, widest_lists};
use explained::notation::digits;
use explained::picture::Roll;
use reference::generator;

/// The numbers of a sheet's view: left, top, width, height.
fn view(shape: &str) -> [f64; 4] {
    let numbers = attribute(shape, "viewBox").split(' ');
    let numbers: Vec<f64> = numbers.map(|n| n.parse().expect("a number")).collect();
    numbers.try_into().expect("four numbers")
}

/// Lists of two, three and six machines, short and long.
fn lists() -> Vec<(String, Vec<u8>)> {
    let stored = names().into_iter().map(|name| (name.clone(), list(&name)));
    let random = (0..40).map(|seed| (seed, generator::list(seed, 60)));
    let wide: Vec<_> = widest_lists().take(6).collect();
    assert_eq!(wide.len(), 6);
    let random = random
        .chain(wide)
        .map(|(seed, list)| (format!("seed {seed}"), list));
    stored.chain(random).collect()
}

/// The sizes of type in a picture, in its own measure.
fn type_sizes(sheet: &str) -> Vec<f64> {
    let (style, _) = sheet.split_once("</style>").expect("a style");
    let sizes = style.split("font-size:").skip(1);
    let size = |rest: &str| rest[..rest.find("px").expect("pixels")].parse();
    sizes.map(|rest| size(rest).expect("a number")).collect()
}

/// At least six points on paper of this size, which is A4.
#[test]
fn type_has_six_points() {
    for (name, list) in lists() {
        for sheet in sheets(&name, &list).files() {
            let lying = sheet.contains("width=\"297mm\" height=\"210mm\"");
            let upright = sheet.contains("width=\"210mm\" height=\"297mm\"");
            assert!(lying || upright, "{name}");
            let millimetres = if lying { 297.0 } else { 210.0 };
            let [_, _, width, _] = view(&sheet);
            let least = type_sizes(&sheet).into_iter().fold(f64::MAX, f64::min);
            let points = least * millimetres / 25.4 * 72.0 / width;
            assert!((6.5..12.0).contains(&points), "{name}: {points} points");
        }
    }
}

/// A part of the picture that stands on a sheet: the shapes in it, and what of them is seen.
struct Part<'a> {
    view: [f64; 4],
    body: &'a str,
}

fn parts(sheet: &str) -> Vec<Part<'_>> {
    let parts = sheet.split("<svg class=").skip(1);
    let part = |part| Part {
        view: view(part),
        body: &part[..part.find("</svg>").expect("an end")],
    };
    parts.map(part).collect()
}

/// Is this text seen in a part as a whole, by the usual widths of its letters?
fn sees(part: &Part, shape: &str) -> bool {
    let [left, top, width, height] = part.view;
    let (x, y) = (number(shape, "x"), number(shape, "y"));
    let wide = 6.9 * said(shape).chars().count() as f64;
    let from = match attribute(shape, "text-anchor") {
        "start" => x,
        "end" => x - wide,
        _ => x - wide / 2.0,
    };
    part.body.contains(shape)
        && left <= from
        && from + wide <= left + width
        && top <= y - 9.0
        && y + 2.0 <= top + height
}

fn check_texts(name: &str, list: &[u8]) {
    let files = sheets(name, list).files();
    let parts: Vec<Part> = files.iter().flat_map(|sheet| parts(sheet)).collect();
    let roll = Roll::new(&explained(list).story).expect("a picture");
    for picture in [roll.picture(), roll.heads()] {
        for text in shapes(&picture, "<text") {
            let seen = parts.iter().any(|part| sees(part, text));
            assert!(seen, "{name}: {text}");
        }
    }
}

#[test]
fn every_text_is_whole_on_a_sheet() {
    for (name, list) in lists() {
        check_texts(&name, &list);
    }
}

/// How many sheets stand side by side.
fn strips(sheet: &str) -> usize {
    let words = sheet.split_once(", part 1 of ");
    words.map_or(1, |(_, rest)| rest[..1].parse().expect("a number"))
}

/// Each sheet says what it is, and has the names of its columns and lanes; together they have all lanes.
#[test]
fn sheets_have_heads() {
    let (_, wide) = widest_lists().next().expect("a wide job");
    for (list, machines) in [(list("11-full-window"), 2), (wide, 6)] {
        let files = sheets("a list", &list).files();
        let (count, strips) = (files.len(), strips(&files[0]));
        assert_eq!(strips > 1, machines == 6);
        assert!(count > strips && count % strips == 0);
        for (at, sheet) in files.iter().enumerate() {
            let mut words = format!(
                "who sent what to whom, frame by frame, time running down; sheet {} of {count}",
                at + 1
            );
            if strips > 1 {
                words += &format!(", part {} of {strips} from the left", at % strips + 1);
            }
            let made = "made by a test".to_string();
            for text in [words, "a list".to_string(), made, "frame".to_string()] {
                let times = shapes(sheet, "<text").filter(|shape| said(shape) == text);
                assert_eq!(times.count(), 1, "sheet {}: {text}", at + 1);
            }
            assert_eq!(sheet.contains(">refused: the question"), at == 0);
        }
        for side in files.chunks(strips) {
            for machine in 1..=machines {
                let name = format!(">machine {machine}</text>");
                assert!(side.iter().any(|sheet| sheet.contains(&name)));
            }
        }
    }
}

/// Seven chares send much to a machine that crashes: its restart has all of it sent again, in one row.
fn high_row() -> Vec<u8> {
    let mut list = "job 2 machines\nchare 1 on 1\nchare 2 on 1\n".to_string();
    (3..10).for_each(|chare| list += &format!("chare {chare} on 2 to 1 2\n"));
    for round in 1..6 {
        for chare in 3..10 {
            list += &format!("inject {chare} value 1 hops 1\n");
            for kind in ["ASK", "GRANT", "DATA"] {
                list += &format!("deliver {kind} 0>{chare} #{round}\n");
            }
            list += &format!("work {chare}\n");
        }
        list += "checkpoint 2\n";
    }
    digits((list + "crash 1\nrestart 1\n").as_bytes()).expect("a list")
}

#[test]
fn a_row_higher_than_a_sheet_goes_on_on_the_next() {
    let list = high_row();
    let roll = Roll::new(&explained(&list).story).expect("a picture");
    let last = roll.rows.last().expect("a row");
    let files = sheets("a list", &list).files();
    let [_, _, _, sheet] = view(&files[0]);
    assert!(last.height > sheet, "{} of {sheet}", last.height);
    check_texts("a high row", &list);
}

#[test]
fn a_long_title_ends_with_a_sign() {
    let title = "a".repeat(400);
    let files = sheets(&title, &list("05-crash-with-cover")).files();
    let [_, _, width, _] = view(&files[0]);
    let shown = shapes(&files[0], "<text").find(|shape| said(shape).starts_with("aaa"));
    let shown = said(shown.expect("a title"));
    assert!(shown.ends_with("a…"));
    assert!(12.0 * (shown.chars().count() as f64) < width);
}
