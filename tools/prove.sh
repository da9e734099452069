#!/usr/bin/env bash
# prove.sh NAME...: proves these crates and all that they need, in the order of crates.txt, and says each as it is done; what is as it was
# when it was last proved is not proved again. A program is built too, as target/bin/NAME. If a check fails, what it said is on standard
# error, and its status is the script's.
set -euo pipefail
root=$(cd "$(dirname "$(readlink -f -- "${BASH_SOURCE[0]}")")/.." && pwd)
. "$root/tools/crates.sh"
fail() { echo "prove.sh: $*" >&2; exit 2; }
[ $# -gt 0 ] || { echo "usage: prove.sh NAME..." >&2; exit 2; }
for name; do
  all_crates | grep -qxF -- "$name" || fail "there is no crate \"$name\""
done
command -v rt >/dev/null || fail "rt, the Rattle toolchain, is needed, and not found"

work=$(mktemp -d); trap 'rm -rf "$work"' EXIT
mkdir -p "$root/target/stamp" "$root/target/bin"
crates=$(needed "$@")
left=" $(unproved $crates) "
for crate in $crates; do
  folder=$root/crates/$crate stamp=$root/target/stamp/$crate
  case $left in
    *" $crate "*)
      # What changes while the check runs is newer than the stamp.
      touch "$work/begun"
      rm -f "$stamp"
      from=$SECONDS status=0
      (cd "$folder" && rt check) >"$work/log" 2>&1 </dev/null || status=$?
      if [ $status -ne 0 ]; then cat "$work/log" >&2; exit $status; fi
      touch -r "$work/begun" "$stamp"
      echo "rt: $crate proved ($((SECONDS - from)) s)" ;;
    *) echo "rt: $crate proved (unchanged since it was last proved)" ;;
  esac
  program=$root/target/bin/$crate
  if [ -f "$folder/src/main.rt" ] && { [ ! -x "$program" ] || [ "$program" -ot "$stamp" ]; }; then
    # `rt run` builds the program and runs it. What it does without input says nothing of it, but that it is there does.
    rm -f "$folder/out/$crate"
    status=0
    (cd "$folder" && rt run) >"$work/log" 2>&1 </dev/null || status=$?
    if [ ! -x "$folder/out/$crate" ]; then cat "$work/log" >&2; exit $((status > 0 ? status : 1)); fi
    cp "$folder/out/$crate" "$work/program"
    mv "$work/program" "$program"
  fi
done
