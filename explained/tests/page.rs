//! The page in one file: nothing is fetched, nothing in a list can break out of its place.

mod common;

use common::{list, made, made_by, names, sheets};

#[test]
fn nothing_is_fetched() {
    for name in names() {
        let html = made(&name, &list(&name));
        for word in [
            " src=",
            "href",
            "@import",
            "fetch(",
            "XMLHttpRequest",
            "import(",
        ] {
            assert!(!html.contains(word), "{name}: {word}");
        }
        // Names of the language of pictures, and a pattern of the page itself.
        let addresses = html.matches("http").count();
        assert_eq!(
            addresses,
            html.matches("\"http://www.w3.org/2000/svg\"").count()
                + html.matches("'http://www.w3.org/2000/svg'").count()
        );
        assert_eq!(
            html.matches("url(").count(),
            html.matches("url(#hatch)").count()
        );
    }
}

/// Each frame is there once, with its line.
#[test]
fn every_frame_is_there() {
    for name in names() {
        let html = made(&name, &list(&name));
        let frames = list(&name).trim_ascii_end().split(|&b| b == b'\n').count();
        assert_eq!(html.matches("{\"head\":").count(), frames, "{name}");
    }
    let html = made("00", &list("00-the-rule-books-sitting"));
    assert!(html.contains("{\"head\":\"1402  crash 2  ->  FF\",\"text\":[\"Crash of machine 2 without cover: machine 1 is catching up;"));
    assert!(html
        .contains("[\"*\",\"the run is LOST: no frame is accepted any more (before: not lost)\"]"));
    let html = made("17", &list("17-mistyped-value"));
    assert!(html.contains(
        "{\"head\":\"1701  withdraw 1  ->  00J\",\"text\":[\"Withdraw: the desk takes 0→1 #2 "
    ));
    assert!(html.contains("[\"-\",\"110100010002  ASK 0→1 #2 from the desk to machine 1\"]"));
    assert!(html.contains(">0→1 #2 withdrawn</text>"));
}

/// Marks of the page's language in a list or its name stay text.
#[test]
fn marks_stay_text() {
    let html = made("<b>&\"", b"</script><script>alert(1)</script>\n");
    assert!(html.contains("<title>&lt;b&gt;&amp;&quot;</title>"));
    assert_eq!(html.matches("<script").count(), 2);
    assert_eq!(html.matches("</script>").count(), 2);
    assert!(
        html.contains("\"head\":\"\\u003c/script>\\u003cscript>alert(1)\\u003c/script>  ->  01\"")
    );
}

#[test]
fn an_empty_list_has_a_page() {
    assert!(made("empty", b"").contains("\"moments\":[],\"rows\":[],\"works\":[]}"));
}

/// What one may jump to, frame by frame.
#[test]
fn refusals_crashes_and_quiet_moments_are_marked() {
    let html = made("05", &list("05-crash-with-cover"));
    let kinds = html.split("\"is\":[").skip(1);
    let kinds = kinds.map(|rest| &rest[..rest.find(']').expect("an end")]);
    let marked = kinds.enumerate().filter(|(_, kinds)| !kinds.is_empty());
    let marked: Vec<(usize, &str)> = marked.map(|(at, kinds)| (at + 1, kinds)).collect();
    let want = [
        (1, "\"quiet\""),
        (15, "\"crash\""),
        (16, "\"refusal\""),
        (17, "\"refusal\""),
        (21, "\"quiet\""),
        (27, "\"refusal\""),
    ];
    assert_eq!(marked, want);
    // A crash without cover is one, a refused crash is none.
    let html = made("06", &list("06-crash-without-cover"));
    assert!(html.contains("\"is\":[\"crash\"]"));
    let html = made("no job", b"1401\n");
    assert!(html.contains("\"is\":[\"refusal\"]") && !html.contains("\"crash\"]"));
}

/// A page fits its window: nothing in it has a size of paper but what is printed.
#[test]
fn a_page_is_for_screens_of_any_width() {
    let html = made("05", &list("05-crash-with-cover"));
    assert!(
        html.contains("<meta name=\"viewport\" content=\"width=device-width, initial-scale=1\">")
    );
    assert!(html.contains("@media (max-width: 820px)"));
    // The names of the lanes stand apart from the rows, to stay in view.
    let (screen, _) = html.split_once("<div id=\"print\"").expect("two parts");
    let (before, rows) = screen.split_once("<div id=\"rows\">").expect("rows");
    let (_, heads) = before.split_once("<div id=\"heads\">").expect("heads");
    for name in [">desk</text>", ">machine 2</text>", ">what happened</text>"] {
        assert_eq!(
            (heads.matches(name).count(), rows.matches(name).count()),
            (1, 0)
        );
    }
}

/// What a page prints: title, whose lines, every frame with its line and words, the letters, the picture in sheets, numbers.
#[test]
fn a_page_can_be_printed() {
    for name in names() {
        let html = made(&name, &list(&name));
        let (_, print) = html.split_once("<div id=\"print\"").expect("two parts");
        assert!(print.contains(&format!("<h1>{name}</h1>")));
        assert!(print.contains(&format!("{}.", made_by(&list(&name)))));
        let rows = print.matches("<tr><td class=\"number\">").count();
        assert_eq!(rows, html.matches("{\"head\":").count(), "{name}");
        assert!(print.contains("<h2>What the letters mean</h2>"));
        let sheets = sheets(&name, &list(&name)).files().len();
        assert_eq!(print.matches("<div class=\"sheet\">").count(), sheets);
    }
    let html = made("a \"title\"</style>", &list("00-the-rule-books-sitting"));
    assert!(html.contains("<td class=\"code\">1402</td><td>crash 2</td><td class=\"code line refused\">FF</td><td><p>Crash of machine 2 without cover: "));
    assert!(html.contains("counter(page) \" of \" counter(pages)"));
    assert!(html.contains("@bottom-left { content: \"a \\22 title\\22 \\3C \\2F style\\3E \";"));
}

/// The number that follows each of these words.
fn numbers_after(text: &str, word: &str) -> Vec<f64> {
    let number = |rest: &str| {
        let end = rest.find(|letter: char| !letter.is_ascii_digit() && letter != '.');
        rest[..end.unwrap_or(rest.len())].parse().expect("a number")
    };
    text.split(word).skip(1).map(number).collect()
}

/// Type has at least 9 px: on the page by its style, in the picture by its own size and the least zoom, in the legend by its least width.
/// `tools/type-size.sh` measures it in a browser.
#[test]
fn type_is_never_too_small() {
    let html = made("05", &list("05-crash-with-cover"));
    let (_, style) = html.split_once("box-sizing").expect("the page's style");
    let (style, _) = style.split_once("@media print").expect("an end");
    let sizes = numbers_after(style, "font-size: ");
    assert!(sizes.len() > 8 && sizes.iter().all(|&size| size >= 9.0));
    let (_, shared) = html.split_once("<svg class=\"shared\"").expect("a style");
    let (shared, _) = shared.split_once("</style>").expect("an end");
    let least = numbers_after(shared, "font-size:")
        .into_iter()
        .fold(f64::MAX, f64::min);
    let [zoom] = numbers_after(&html, "const LEAST = ")[..] else {
        panic!("one least zoom");
    };
    assert!(least * zoom >= 9.0, "{least} at {zoom}");
    let narrowest = numbers_after(
        style,
        "#legend svg { display: block; width: 100%; min-width: ",
    )[0];
    let (_, legend) = html
        .split_once("<summary>Signs of the picture</summary>\n")
        .expect("a legend");
    let width = numbers_after(legend, "<svg width=\"")[0];
    assert!(least * narrowest / width >= 9.0, "{narrowest} of {width}");
}
