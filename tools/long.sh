#!/usr/bin/env bash
# long.sh [PART...]: what is too long for the gate, each part a script of its own, with a summary at the end. Without a PART: all of them,
# some two hours on two cores with an older kit. Run it on a tree that has passed `.ci/run`, whose proofs it uses.
set -euo pipefail
root=$(cd "$(dirname "$0")/.." && pwd)
cd "$root"
part() { # NAME
  case $1 in
    must-fail) tools/must-fail.sh ;;
    wrong-programs) tools/wrong-programs.sh ;;
    compare) tools/compare.sh ;;
    compare-survivors) tools/compare-survivors.sh ;;
    compare-precedes) tools/compare-precedes.sh ;;
    selfcheck) tools/selfcheck.sh 1 2000000 ;;
    definitions) tools/definitions-give-vectors.sh reference/tests/vectors ;;
    measure) tools/measure.sh && tools/measure-precedes.sh ;;
    *) echo "long.sh: no such part: $1" >&2; exit 2 ;;
  esac
}
[ $# -gt 0 ] || set -- must-fail wrong-programs compare compare-survivors compare-precedes selfcheck definitions measure
summary="commit $(git rev-parse --short HEAD)$([ -z "$(git status --porcelain)" ] || echo ', changed')"
failed=0
for name; do
  echo "== $name"
  from=$(date +%s) said=passed
  part "$name" || { said=FAILED; failed=1; }
  summary+=$'\n'"$name: $said, $((($(date +%s) - from) / 60)) min $((($(date +%s) - from) % 60)) s"
done
echo "== summary"
echo "$summary"
exit $failed
