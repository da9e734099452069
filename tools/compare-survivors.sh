#!/usr/bin/env bash
# compare-survivors.sh [COUNT] [SEED]: counts crash sets with the proved engine and with the second implementation and compares every
# byte: through the library every layout of 2 to 6 machines, every change of one byte of some jobs, odd inputs and COUNT random ones;
# then a sample of these with the proved program `survivors`, as a file and byte by byte. Prints how many of each were compared.
set -euo pipefail
count=${1:-100000}
seed=${2:-1}
root=$(cd "$(dirname "$0")/.." && pwd)
library=${SATUPHIR_LIB:-$root/target/staticlib}/libsatuphir.a
[ -f "$library" ] || "$root/tools/library.sh" >&2
proved=$root/target/bin/survivors
[ -x "$proved" ] || "$root/tools/prove.sh" survivors >&2
cargo build --release --offline --quiet --manifest-path "$root/reference/Cargo.toml" --features engine \
  --bin survivors --bin compare-survivors
second=$root/reference/target/release/survivors
compare=$root/reference/target/release/compare-survivors
work=$(mktemp -d); trap 'rm -rf "$work"' EXIT
"$compare" "$count" "$seed"
same() { # INPUT HOW: are the lines in `proved` and `second` the same?
  if ! cmp -s "$work/proved" "$work/second"; then
    cp "$1" "${TMPDIR:-/tmp}/differs.in"
    echo "DIFFERENT on $(basename "$1") $2, kept as ${TMPDIR:-/tmp}/differs.in"; cmp "$work/proved" "$work/second" || true
    exit 1
  fi
}
mkdir "$work/sample"
"$compare" "$work/sample"
files=0 pieces=0
for f in "$work"/sample/*.in; do
  "$second" <"$f" >"$work/second"
  "$proved" <"$f" >"$work/proved" || echo "ended with status $?" >>"$work/proved"
  same "$f" "as a file"; files=$((files + 1))
  if [ "$(wc -c <"$f")" -gt 10000 ]; then continue; fi
  # The program need not read to the end: that the writer is then stopped is no failure.
  { dd bs=1 status=none <"$f" 2>/dev/null || true; } | { "$proved" >"$work/proved" || echo "ended with status $?" >>"$work/proved"; }
  same "$f" "byte by byte"; pieces=$((pieces + 1))
done
echo "$files inputs compared with the program survivors, $pieces of them byte by byte too: the same bytes"
