# Sourced by scripts that look at pages in headless Chromium (Debian: apt-get install chromium). Expects `root`; sets `work`, an empty folder.
browser=$(command -v chromium || command -v chromium-browser || command -v google-chrome) || { echo "$(basename "$0"): no Chromium found" >&2; exit 2; }
work=$(mktemp -d); started=
end() { if [ -n "$started" ]; then kill "$started" 2>/dev/null || true; wait "$started" 2>/dev/null || true; fi; rm -rf "$work"; }
trap end EXIT
# It needs no sandbox for a page of our own.
flags=(--headless --no-sandbox --disable-gpu --user-data-dir="$work/profile")

# click_through NAME PAGE LIST|--sizes: a program with the browser at the other end of two pipes; each line that it says begins with the name.
click_through() {
  cargo build --release --offline --quiet --manifest-path "$root/explained/Cargo.toml" --example click_through
  rm -f "$work/to" "$work/from"; mkfifo "$work/to" "$work/from"
  # The browser speaks on its files 3 and 4.
  "$browser" "${flags[@]}" --window-size=1400,900 --remote-debugging-pipe 3<"$work/to" 4>"$work/from" 2>"$work/browser.log" &
  started=$!
  "$root/explained/target/release/examples/click_through" "$work/to" "$work/from" "$2" "$3" | sed "s|^|$1: |"
  wait "$started"; started=
}
