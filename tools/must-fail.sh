#!/usr/bin/env bash
# must-fail.sh [NAME...]: tries the wrong answers of the folder must-fail, which are too many for the gate (each costs a check of its
# whole crate), on a copy of the crates; the prover must refuse each. Without a NAME: those of every crate. The crates are proved first,
# where they are not: of one that is not proved, whatever is changed, the prover refuses all.
set -euo pipefail
root=$(cd "$(dirname "$0")/.." && pwd)
. "$root/tools/crates.sh"
[ $# -gt 0 ] || set -- $(ls "$root/must-fail")
"$root/tools/prove.sh" "$@"
work=$(mktemp -d); trap 'rm -rf "$work"' EXIT
copy_crates "$work" $(needed "$@")
copy_built "$work" "$@"
for name; do mkdir "$work/crates/$name/must-fail"; cp "$root/must-fail/$name"/*.edit "$work/crates/$name/must-fail"; done
cd "$work" && rt must-fail "$@"
