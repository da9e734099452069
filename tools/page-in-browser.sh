#!/usr/bin/env bash
# page-in-browser.sh [LIST...]: makes the page of each list, opens it in headless Chromium, goes through it with button, key and pointer,
# and compares all that it shows with what the list gives. Without a list: two examples, and a random list of six machines.
set -euo pipefail
root=$(cd "$(dirname "$0")/.." && pwd)
. "$root/tools/browser.sh"
if [ $# -eq 0 ]; then
  "$root/tools/lists" --machines 6 --chares 12 --frames 100 --clean 9 > "$work/six-machines.in"
  set -- "$root/examples/05-crash-with-cover.in" "$root/examples/11-full-window.in" "$work/six-machines.in"
fi
for list; do
  "$root/tools/satuphir" page "$list" "$work/page.html"
  click_through "$(basename "$list")" "$work/page.html" "$list"
done
