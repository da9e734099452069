//! The page's tools: address, scrolling, zoom, jumps, search, class mode.

use crate::browser::Browser;
use crate::{check, Moment};

pub fn check_all(browser: &mut Browser, moments: &[Moment], page: &str) {
    check_address(browser, moments, page);
    check_scrolling(browser, moments);
    check_zoom(browser, moments);
    check_jumps(browser, moments);
    check_search(browser, moments);
    check_print(browser, moments);
    check_class_mode(browser, moments);
}

/// A page that is opened with a frame's number shows that frame.
fn check_address(browser: &mut Browser, moments: &[Moment], page: &str) {
    let last = moments.len();
    for (given, shown) in [(2, 2), (last, last), (last + 7, last), (0, 1)] {
        browser.go(&format!("{page}#{given}"));
        check(browser, moments, shown - 1);
    }
    browser.value("location.hash = '#2'");
    browser.wait("now === 1");
    check(browser, moments, 1);
}

/// Down scrolls the panel where it has the focus, and goes on elsewhere.
fn check_scrolling(browser: &mut Browser, moments: &[Moment]) {
    browser.go_to(0);
    // With all that can be opened it is longer than the window.
    browser.value("(document.querySelectorAll('details').forEach((d) => { d.open = true; }), '')");
    browser.value("String(part('side').focus())");
    browser.press("ArrowDown", 40);
    browser.wait("part('side').scrollTop > 0");
    assert_eq!(browser.value("String(now)"), "0");
    browser.value("String(picture.focus())");
    browser.press("ArrowDown", 40);
    check(browser, moments, 1);
}

fn check_zoom(browser: &mut Browser, moments: &[Moment]) {
    let size = "String(12 * svg.getScreenCTM().a)";
    let mut measured = |key: &str, code: u32| -> f64 {
        browser.press(key, code);
        browser.value(size).parse().expect("a number")
    };
    let fitted = measured("0", 48);
    let larger = measured("+", 187);
    assert!((larger / fitted - 1.25).abs() < 0.01, "{fitted} {larger}");
    let least = (0..12).map(|_| measured("-", 189)).last().unwrap_or(0.0);
    assert!((9.0..9.5).contains(&least), "{least}");
    browser.click("part('larger')");
    browser.click("part('smaller')");
    browser.click("part('fit')");
    let again: f64 = browser.value(size).parse().expect("a number");
    assert!((again - fitted).abs() < 0.01, "{fitted} {again}");
    check(browser, moments, 1);
}

/// From each end to the other, from one to the next.
fn check_jumps(browser: &mut Browser, moments: &[Moment]) {
    type Is = fn(&Moment) -> bool;
    let kinds: [(&str, Is); 3] = [
        ("refusal", |moment| moment.refusal),
        ("crash", |moment| moment.crash),
        ("quiet", |moment| moment.quiet),
    ];
    for (kind, is) in kinds {
        let places = (1..moments.len()).filter(|&at| is(&moments[at]));
        let places: Vec<usize> = places.take(12).collect();
        browser.go_to(0);
        for &at in &places {
            browser.press(&kind[..1], 0);
            check(browser, moments, at);
        }
        for &at in places.iter().rev().skip(1) {
            browser.press(&kind[..1].to_uppercase(), 0);
            check(browser, moments, at);
        }
        if let Some(&first) = places.first() {
            browser.go_to(0);
            browser.click(&format!("part('{kind}')"));
            check(browser, moments, first);
        }
    }
    browser.value("(part('go').focus(), part('go').value = '3')");
    browser.press("Enter", 13);
    check(browser, moments, 2);
}

fn check_search(browser: &mut Browser, moments: &[Moment]) {
    // The first words of the last frame, in capitals: small and capital letters are the same.
    let wanted = moments[moments.len() - 1].text.split(' ');
    let wanted = wanted.take(2).collect::<Vec<_>>().join(" ").to_uppercase();
    let has = |moment: &Moment| {
        let said = format!("{}\n{}", moment.head, moment.text);
        said.to_uppercase().contains(&wanted)
    };
    let places = (1..moments.len()).filter(|&at| has(&moments[at]));
    let first = places.clone().next().expect("the last frame at least");
    let later = places.count() - 1;
    let all = usize::from(has(&moments[0])) + 1 + later;
    browser.go_to(0);
    browser.press("/", 191);
    browser.value(&format!("part('find').value = '{wanted}'"));
    browser.press("Enter", 13);
    check(browser, moments, first);
    let said = browser.value("part('found').textContent");
    assert_eq!(said, format!("{} of {all}", all - later));
    // Round the end, back to the first.
    for _ in 0..all {
        browser.press("Enter", 13);
    }
    check(browser, moments, first);
    browser.value("part('find').value = 'no such word'");
    browser.press("Enter", 13);
    assert_eq!(browser.value("part('found').textContent"), "nowhere");
    check(browser, moments, first);
    browser.press("Escape", 27);
}

/// The words of a processing that is shown are printed, and its marks on each sheet; of another frame there are none.
fn check_print(browser: &mut Browser, moments: &[Moment]) {
    let marked = "document.querySelectorAll('#print .marks').length";
    let all = "document.querySelectorAll('#print .rows').length";
    for (at, moment) in moments.iter().enumerate().take(20) {
        browser.go_to(at);
        browser.value("String(window.dispatchEvent(new Event('beforeprint')))");
        let said = browser.value("part('chosen').textContent");
        match &moment.order {
            Some(order) => {
                let start = format!("What came beforeProcessing {}, ", order.name);
                assert!(said.starts_with(&start), "frame {}: {said}", at + 1);
                assert_eq!(
                    browser.value(&format!("String({marked} === {all})")),
                    "true"
                );
            }
            None => {
                assert_eq!(said, "", "frame {}", at + 1);
                assert_eq!(browser.value(&format!("String({marked})")), "0");
            }
        }
    }
}

/// Line, words and all that comes later are hidden until a key is pressed.
fn check_class_mode(browser: &mut Browser, moments: &[Moment]) {
    browser.go_to(0);
    browser.press("h", 72);
    for (at, moment) in moments.iter().enumerate().take(20) {
        let head = browser.value("part('head').textContent");
        let (frame, line) = moment.head.rsplit_once("  ->  ").expect("a line");
        assert_eq!(head, frame, "frame {}", at + 1);
        let seen = browser.value("part('side').innerText + part('state').textContent");
        let words = moment.text.lines().next().unwrap_or_default();
        assert!(!seen.contains(words), "frame {}: {words}", at + 1);
        // Where its line would stand in the picture there is nothing, nor anywhere below.
        let cover = "covers.map((c) => c.getBoundingClientRect()).map((c) => c.top + ' ' + c.bottom).join(' ')";
        let edges: Vec<f64> = browser
            .value(&format!("{cover} + ' ' + row.getBoundingClientRect().top + ' ' + svg.getBoundingClientRect().bottom"))
            .split(' ')
            .map(|edge| edge.parse().expect("a number"))
            .collect();
        let [top, _, below, end, row, bottom] = edges[..] else {
            panic!("{edges:?}");
        };
        assert!((top - row).abs() < 0.5 && below > row, "{edges:?}, {line}");
        assert!((end - bottom).abs() < 1.0, "{edges:?}");
        // Space opens, and so does Next.
        match at % 2 {
            0 => browser.press(" ", 32),
            _ => browser.press("ArrowRight", 39),
        }
        let head = browser.value("part('head').textContent");
        assert_eq!(head, moment.head, "frame {}", at + 1);
        browser.press("ArrowRight", 39);
    }
    browser.go_to(0);
    browser.click("part('class')");
    check(browser, moments, 0);
}
