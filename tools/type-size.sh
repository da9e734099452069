#!/usr/bin/env bash
# type-size.sh [LIST...]: how large type is. On the page of each list at 390, 1024 and 1920 px in headless Chromium, at least 9 px; on paper,
# from the page, the sheets of the picture, the handout and the key, at least 6 points. Without a list: some of two, three and six machines.
# The lines are the second implementation's, which is quicker and as long.
set -euo pipefail
root=$(cd "$(dirname "$0")/.." && pwd)
. "$root/tools/browser.sh"
command -v pdftohtml >/dev/null || { echo "type-size.sh: pdftohtml is needed (Debian: apt-get install poppler-utils)" >&2; exit 2; }
if [ $# -eq 0 ]; then
  "$root/tools/lists" --machines 3 --chares 4 --frames 60 --clean 7 > "$work/three-machines.in"
  "$root/tools/lists" --machines 6 --chares 12 --frames 100 --clean 9 > "$work/six-machines.in"
  set -- "$root/examples/05-crash-with-cover.in" "$work/three-machines.in" "$work/six-machines.in"
fi

# on_paper NAME FILE.html: prints it and measures its type; three of pdftohtml's units are a point, and every sheet has its number.
on_paper() {
  "$browser" "${flags[@]}" --no-pdf-header-footer --print-to-pdf="$work/out.pdf" "file://$2" 2>/dev/null
  pdftohtml -xml -zoom 3 -i -stdout "$work/out.pdf" 2>/dev/null > "$work/out.xml"
  awk -v name="$1" '
    /<page / { pages++ }
    /<fontspec / { match($0, / size="[0-9]+"/); size = substr($0, RSTART + 7, RLENGTH - 8) / 3; if (least == 0 || size < least) least = size }
    />page [0-9]+ of [0-9]+</ { numbered++ }
    END {
      printf "%s: %d sheets of paper, type of %.1f points and more\n", name, pages, least
      if (pages == 0 || least < 6) { print name ": type is too small" > "/dev/stderr"; exit 1 }
      if (numbered != pages) { print name ": " pages - numbered " sheets have no number" > "/dev/stderr"; exit 1 }
    }' "$work/out.xml"
}

make() { "$root/tools/satuphir" "$@" --quick 2>/dev/null; }
for list; do
  name=$(basename "$list")
  make page "$list" "$work/page.html"
  click_through "$name: page" "$work/page.html" --sizes
  on_paper "$name: page" "$work/page.html"
  make picture "$list" "$work/picture.svg" --pages
  on_paper "$name: picture" "$work/picture-print.html"
  make handout "$list" "$work/handout.html"
  on_paper "$name: handout" "$work/handout.html"
  make handout "$list" "$work/key.html" --explained
  on_paper "$name: explained key" "$work/key.html"
done
