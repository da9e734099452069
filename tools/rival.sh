#!/usr/bin/env bash
# rival.sh FILE [CRATE]: tries one must-fail edit alone, on a copy of the crates: does the prover refuse this wrong answer, and where
# first? The crate is that of the file's folder (crates/CRATE/must-fail or must-fail/CRATE) if it is not named. What is proved already
# is not proved again. Status: 0 refused, 1 not refused, 2 no edit that could be tried.
set -euo pipefail
root=$(cd "$(dirname "$(readlink -f -- "${BASH_SOURCE[0]}")")/.." && pwd)
. "$root/tools/crates.sh"
fail() { echo "rival.sh: $*" >&2; exit 2; }
if [ $# -lt 1 ] || [ $# -gt 2 ]; then echo "usage: rival.sh FILE [CRATE]" >&2; exit 2; fi
[ -f "$1" ] || fail "$1: there is no such file"
for part in file: old: new:; do
  grep -q "^$part" "$1" || fail "$1: a must-fail edit has the lines file:, old: and new:, and this has no $part"
done
# .../crates/CRATE/must-fail/x.edit, or .../must-fail/CRATE/x.edit
folder=$(dirname "$(readlink -f -- "$1")")
if [ $# -eq 2 ]; then crate=$2
elif [ "$(basename "$folder")" = must-fail ]; then crate=$(basename "$(dirname "$folder")")
elif [ "$(basename "$(dirname "$folder")")" = must-fail ]; then crate=$(basename "$folder")
else fail "$1: it stands in no crate's must-fail folder; name the crate: rival.sh FILE CRATE"
fi
[ -d "$root/crates/$crate/src" ] || fail "there is no crate \"$crate\""
command -v rt >/dev/null || fail "rt, the Rattle toolchain, is needed, and not found"
[ -z "$(unproved $(needed "$crate"))" ] || echo "rival.sh: $crate, and what it needs, is proved first ..." >&2

work=$(mktemp -d); trap 'rm -rf "$work"' EXIT
# Of a crate that is not proved, whatever is changed, the prover refuses all.
"$root/tools/prove.sh" "$crate" 2>"$work/log" >/dev/null || { cat "$work/log" >&2; fail "the edit was not tried: the crate itself is not proved"; }
copy_crates "$work/copy" $(needed "$crate")
copy_built "$work/copy" "$crate"
mkdir "$work/copy/crates/$crate/must-fail"
cp "$1" "$work/copy/crates/$crate/must-fail/rival.edit"
(cd "$work/copy" && rt must-fail "$crate") >"$work/log" 2>&1 || true
said=$(grep "^rt: must-fail $crate/rival.edit: " "$work/log") || { cat "$work/log" >&2; fail "the edit was not tried"; }
said=${said#"rt: must-fail $crate/rival.edit: "}
case $said in
  # Behind the colon stands what the prover said first.
  "refused, as it must be: "*) printf '%s: %s\n%s\n' "$crate" "${said%%: *}" "${said#*: }" ;;
  refused*) echo "$crate: $said" ;;
  "NOT REFUSED"*) echo "$crate: $said"; exit 1 ;;
  *) sed -n "/^rt: must-fail/,\$p" "$work/log" >&2; fail "$1: $said" ;;
esac
