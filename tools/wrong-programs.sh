#!/usr/bin/env bash
# wrong-programs.sh: no contract can say what a program reads and writes, and how often. So each of these wrong programs is proved, and a
# run must refuse it: on the crate's own input, as the gate runs it, or on inputs that come in pieces (reference/tests/programs.rs).
set -euo pipefail
root=$(cd "$(dirname "$0")/.." && pwd)
. "$root/tools/crates.sh"
programs="sitting survivors sittings"
# Proved here, and then on a copy, which keeps what is proved and built of the crates below.
"$root/tools/prove.sh" $programs >&2
work=$(mktemp -d); trap 'rm -rf "$work"' EXIT
copy_crates "$work" $(needed $programs)
copy_built "$work" $programs
cp -r "$root/tools" "$work"
mkdir "$work/target"
cp -rp "$root/target/stamp" "$root/target/bin" "$work/target"
cp -rp "$root/target/bin" "$work/right"
reads_its_own() { # CRATE: from a folder with its data, on stdin and with args (one word a line); what it writes is the file stdout
  local crate=$work/crates/$1 input=/dev/null words=()
  if [ -f "$crate/stdin" ]; then input=$crate/stdin; fi
  if [ -f "$crate/args" ]; then mapfile -t words <"$crate/args"; fi
  rm -rf "$work/data"; mkdir "$work/data"
  if [ -d "$crate/data" ]; then cp -r "$crate/data/." "$work/data"; fi
  (cd "$work/data" && timeout 120 "$work/target/bin/$1" ${words[@]+"${words[@]}"} <"$input" >"$work/out" 2>/dev/null) && cmp -s "$work/out" "$crate/stdout"
}
reads_pieces() { SATUPHIR_PROGRAMS=$work/target/bin cargo test --offline --quiet --manifest-path "$root/reference/Cargo.toml" --test programs >/dev/null 2>&1; }
for name in $programs; do reads_its_own "$name" || { echo "the right program $name is refused"; exit 2; }; done
reads_pieces || { echo "the right programs are refused"; exit 2; }
refused=0 others=0
wrong() { # CRATE WHAT OLD NEW [OLD NEW]...
  local crate=$1 what=$2 source=$work/crates/$1/src/main.rt by= proved=no
  cp -p "$source" "$work/kept"
  shift 2
  while [ $# -gt 0 ]; do
    [ "$(grep -cF -- "$1" "$source")" = 1 ] || { echo "$crate: this does not stand once in its source: $1"; exit 2; }
    OLD=$1 NEW=$2 awk '{ old = ENVIRON["OLD"]; at = index($0, old); if (at) $0 = substr($0, 1, at - 1) ENVIRON["NEW"] substr($0, at + length(old)); print }' "$source" >"$work/edited"
    cp "$work/edited" "$source"
    shift 2
  done
  if "$work/tools/prove.sh" "$crate" >"$work/log" 2>&1 && grep -q "^rt: $crate proved ([0-9]" "$work/log"; then
    proved=yes
    if ! reads_its_own "$crate"; then by="its run on the crate's own input"
    elif ! reads_pieces; then by="its run on pieces"; fi
  fi
  if [ $proved = yes ] && [ -n "$by" ]; then
    echo "$crate, $what: proved, refused by $by"; refused=$((refused + 1))
  else
    echo "$crate, $what: NOT refused by a run$([ $proved = yes ] || echo ', for it is not proved')"; others=$((others + 1))
  fi
  cp -p "$work/kept" "$source"
  cp -p "$work/right/$crate" "$work/target/bin/$crate"
}
imports='use std::io::{Read, Stdin, Stdout};' with_write='use std::io::{Read, Stdin, Stdout, Write};'
wrong sitting "reads twice and stops" 'for _ in 0..u64::MAX {' 'for _ in 0..2u64 {'
wrong sitting "reads another file" 'stdin.read(input)' 'std::io::empty().read(input)'
wrong sitting "writes the answers to another file" "$imports" "$with_write" 'if stdout.write_all(' 'if std::io::sink().write_all('
wrong sitting "writes the last answer to another file" "$imports" "$with_write" 'let _ = stdout.write_all(' 'let _ = std::io::sink().write_all('
wrong survivors "drops the piece that ends the line" 'break;' 'return n - got;'
wrong sittings "takes nothing of a list" 'if n == 0 {' 'if n < 99999 {'
wrong sittings "writes a blank after a name" 'let _ = rt.write_all(b"\n");' 'let _ = rt.write_all(b" ");'
echo "$refused wrong programs refused by a run, $others not"
[ $others -eq 0 ]
