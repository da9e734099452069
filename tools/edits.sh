#!/usr/bin/env bash
# edits.sh: writes docs/EDITS.md anew, the table of all must-fail edits, crate by crate as crates.txt has them; with a FILE, that one. A test
# holds the document to it.
set -euo pipefail
export LC_ALL=C # one order of names everywhere
cd "$(dirname "$0")/.."
root=$PWD
. tools/crates.sh
names() { # FOLDER
  local file all=
  for file in "$1"/*.edit; do
    if [ -e "$file" ]; then file=${file##*/}; all="$all, ${file%.edit}"; fi
  done
  all=${all#, }
  echo "${all:--}"
}
{
  cat <<'TEXT'
# Every must-fail edit

A must-fail edit is a wrong answer that the prover must refuse. Its name says the wrong answer, mostly with its function (or definition)
before it: `inject_from_the_chare` is an `inject` whose message comes from the chare itself and not from the desk. Each shows that the
contract of that function rules this answer out. The gate tries those of `crates/NAME/must-fail`; the others stand in `must-fail/NAME`,
and `tools/must-fail.sh` tries them. This page is written by `tools/edits.sh`.

| crate | in the gate | beyond it |
|---|---|---|
TEXT
  all_crates | while read -r crate; do
    gate=$(names "crates/$crate/must-fail") beyond=$(names "must-fail/$crate")
    [ "$gate$beyond" = -- ] || echo "| \`$crate\` | $gate | $beyond |"
  done
} >"${1:-docs/EDITS.md}"
