#!/usr/bin/env bash
# sitting-input.sh: writes anew what the gate runs the program `sitting` on, `crates/sitting/stdin`, and with the second implementation
# what it must write, `stdout`. The program reads 65,536 bytes at a time and has a buffer of 65,536 bytes for answers. The input needs three
# reads and more: a frame lies across the end of the first, a line longer than any frame across the end of the second; in the second,
# empty lines fill the buffer of answers, which is full amid frames; the last line has no newline.
set -euo pipefail
root=$(cd "$(dirname "$0")/.." && pwd)
cargo build --release --offline --quiet --manifest-path "$root/reference/Cargo.toml" --bin sitting
read=65536 burst=20500 long=3000 last=6000
work=$(mktemp -d); trap 'rm -rf "$work"' EXIT
"$root/tools/lists" --machines 6 --chares 12 --frames 12000 --clean --with crash,restart,withdraw 12 >"$work/list"
# the whole lines of a file's first $2 bytes, and what follows them
lines() { head -c "$2" "$1" | sed '$d'; }
lines "$work/list" $((read + 40)) >"$work/first"
tail -c +$(($(wc -c <"$work/first") + 1)) "$work/list" >"$work/rest"
lines "$work/rest" $((2 * read - 1000 - burst - $(wc -c <"$work/first"))) >"$work/second"
tail -c +$(($(wc -c <"$work/second") + 1)) "$work/rest" >"$work/after"
lines "$work/after" $last >"$work/third"
{
  cat "$work/first"
  head -c $burst /dev/zero | tr '\0' '\n'
  cat "$work/second"
  head -c $long /dev/zero | tr '\0' '1'; echo
  cat "$work/third"
  printf 1601
} >"$root/crates/sitting/stdin"
"$root/reference/target/release/sitting" <"$root/crates/sitting/stdin" >"$root/crates/sitting/stdout"
