//! Clocks and chains of many lists, and what is said where the engine and the second implementation differ.

mod common;

use common::{list, names, row};
use explained::before::order::{Link, Order};
use explained::before::row::Work;
use explained::before::{bad, pairs, text, Ask, Wrong};
use explained::engine;
use explained::page::page;
use reference::generator;
use reference::job::ix;
use reference::limits::MAX_CHARES;
use reference::precedes::{Answer, Chains, Name, Processing};

const ENGINE: Option<Ask> = Some(engine::precedes);

/// What a clock says of each pair is what the closure says.
#[test]
fn clocks() {
    let lists = names().into_iter().map(|name| list(&name));
    let lists = lists.chain((0..60).map(|seed| generator::list(seed, 400)));
    let mut pairs = 0;
    for list in lists {
        let row = row(&list);
        let order = Order::new(&row.works, ENGINE);
        let chains = Chains::of(&row.records());
        for (place, later) in row.works.iter().enumerate() {
            let clock = order.clock(place).expect("a clock");
            for first in &row.works {
                let (chare, tn) = first.name();
                let yes = chains.answer(first.name(), later.name()) == Answer::Yes;
                assert_eq!(tn <= clock[ix(chare)], yes);
                pairs += usize::from(yes);
            }
        }
    }
    assert!(pairs > 10_000, "{pairs}");
}

/// Does a link stand in the row as it says?
fn holds(order: &Order, link: Link) -> bool {
    match link {
        Link::Chare(low, high) => low.0 == high.0 && low.1 < high.1,
        Link::Message(sender, later) => order.find(later).and_then(Work::sender) == Some(sender),
    }
}

fn ends(link: Link) -> (Name, Name) {
    match link {
        Link::Chare(low, high) => (low, high),
        Link::Message(sender, later) => (sender, later),
    }
}

/// A chain goes from the one to the other without a gap, over single steps.
#[test]
fn chains() {
    let mut longest = 0;
    for seed in 0..60 {
        let row = row(&generator::list(seed, 400));
        let order = Order::new(&row.works, ENGINE);
        let chains = Chains::of(&row.records());
        for first in row.works.iter().map(Work::name) {
            for later in row.works.iter().map(Work::name) {
                if chains.answer(first, later) != Answer::Yes {
                    continue;
                }
                let links = order.chain(first, later).expect("a chain");
                let mut at = first;
                for &link in &links {
                    assert!(holds(&order, link), "seed {seed}: {link:?}");
                    let (from, to) = ends(link);
                    assert_eq!(from, at);
                    at = to;
                }
                assert_eq!(at, later);
                longest = longest.max(links.len());
            }
        }
    }
    assert!(longest >= 8, "{longest}");
}

/// Wrong answers to the same questions.
fn always_yes(_: &[Processing], _: Name, _: Name) -> Answer {
    Answer::Yes
}

fn bad_at_once(_: &[Processing], _: Name, _: Name) -> Answer {
    Answer::Bad(1)
}

/// Right but for one pair.
fn once_wrong(row: &[Processing], first: Name, later: Name) -> Answer {
    match (first, later) {
        ((1, 2), (2, 1)) => Answer::Yes,
        _ => engine::precedes(row, first, later),
    }
}

#[test]
fn answers_that_differ_are_told_loudly() {
    let list = list("09-catching-up");
    let lines = engine::lines(&list);
    let said = |ask: Ask, pairs: &[(Name, Name)]| match text(&list, &lines, Some(ask), pairs) {
        Err(wrong @ Wrong::Order(_)) => wrong.to_string(),
        other => panic!("{other:?}"),
    };
    let pair = [((1, 2), (2, 1))];
    let loud = said(once_wrong, &pair);
    for want in [
        "!!! THE ANSWERS DIFFER ON WHAT CAME BEFORE WHAT\n",
        "!!! asked:                 1:2 before 2:1\n",
        "!!! proved engine:         yes\n",
        "!!! second implementation: no\n",
        "!!! One of them is wrong. No answer is printed.\n",
    ] {
        assert!(loud.contains(want), "{loud}");
    }
    // Without a pair too: the row is asked through.
    assert_eq!(said(once_wrong, &[]), loud);
    assert!(said(always_yes, &[]).contains("proved engine:         yes\n"));
    let loud = said(bad_at_once, &pair);
    assert!(
        loud.contains("proved engine:         bad at place 1\n"),
        "{loud}"
    );
    assert!(loud.contains("second implementation: unknown\n"), "{loud}");
    // A page leaves the order out, and the command says why.
    for ask in [once_wrong, always_yes, bad_at_once] {
        let page = page("a list", "some", &list, &lines, Some(ask)).expect("a page");
        assert!(matches!(page.wrong, Some(Wrong::Order(_))));
        let words =
            "\"works\":\"What came before what is not said here: the command that made the page said why.\"";
        assert!(page.html.contains(words));
    }
}

/// No list has a row that is bad before its end. This one is made by hand, without the record of 1:1.
#[test]
fn a_row_that_is_bad_before_its_end() {
    let works = row(&list("09-catching-up")).works.split_off(1);
    let order = Order::new(&works, ENGINE);
    assert_eq!(order.bad(), Ok(Some(1)));
    let said = pairs::text(&order, &[((2, 1), (2, 2))]);
    assert_eq!(said.as_deref(), Ok("2:1 before 2:2: bad at place 1.\n"));
    let said = bad(&order, 1);
    assert_eq!(
        said,
        "The row is bad at place 1, and no pair of it is answered.\n"
    );
}

#[test]
fn a_clock() {
    let row = row(&list("09-catching-up"));
    let order = Order::new(&row.works, ENGINE);
    let mut want = [0; MAX_CHARES];
    (want[0], want[1]) = (2, 1);
    assert_eq!(order.clock(3), Ok(want));
}
