//! How large type is in a window of a phone, of a small screen and of a large one, and whether all has its place there.

use crate::browser::Browser;

const WINDOWS: [(u32, u32); 3] = [(390, 844), (1024, 768), (1920, 1080)];
const LEAST: f64 = 9.0;

/// The smallest type that is seen, and a text that has it.
const SMALLEST: &str = "(() => {
  let least = [1000, ''];
  const walk = document.createTreeWalker(document.body, NodeFilter.SHOW_TEXT);
  while (walk.nextNode()) {
    const text = walk.currentNode.textContent.trim(), at = walk.currentNode.parentElement;
    if (text === '' || at.getClientRects().length === 0 || at.closest('title')) continue;
    const scale = at.closest('svg') ? at.getScreenCTM().a : 1;
    const size = parseFloat(getComputedStyle(at).fontSize) * scale;
    if (size < least[0]) least = [size, text];
  }
  return least.join(' ');
})()";

/// All that can be opened is open.
const OPENED: &str = "(document.querySelectorAll('details').forEach((d) => { d.open = true; }), part('tools').classList.add('open'), '')";

/// Where the panel stands, and whether the window need not be moved from side to side.
const PLACES: &str = "(() => {
  const p = picture.getBoundingClientRect(), s = part('side').getBoundingClientRect();
  const where = s.top >= p.bottom - 1 ? 'below' : s.left >= p.right - 1 ? 'beside' : 'over';
  const wide = document.documentElement.scrollWidth <= innerWidth && part('side').scrollWidth <= part('side').clientWidth;
  const seen = p.height > 150 && s.height > 150 && p.width > 250 && s.width > 250;
  return [where, wide, seen].join(' ');
})()";

fn smallest(browser: &mut Browser, what: &str) -> f64 {
    let found = browser.value(SMALLEST);
    let (size, text) = found.split_once(' ').expect("a size and a text");
    let size: f64 = size.parse().expect("a number");
    assert!(size >= LEAST, "{what}: {size} px: {text}");
    size
}

pub fn check_all(browser: &mut Browser, page: &str) {
    for (width, height) in WINDOWS {
        browser.resize(width, height);
        browser.go(page);
        let what = format!("{width} px wide");
        let want = if width < 820 { "below" } else { "beside" };
        assert_eq!(browser.value(PLACES), format!("{want} true true"), "{what}");
        browser.value(OPENED);
        let fitted = smallest(browser, &what);
        (0..12).for_each(|_| browser.press("-", 189));
        let least = smallest(browser, &what);
        println!(
            "{what}: type of {fitted:.1} px and more, {least:.1} px at the smallest size, the panel {want} the picture"
        );
    }
}
