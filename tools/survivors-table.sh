#!/usr/bin/env bash
# survivors-table.sh: the table of docs/SURVIVORS.md, with the counts of the proved program `survivors`. The first time the program is
# proved and built, which takes minutes.
set -euo pipefail
root=$(cd "$(dirname "$0")/.." && pwd)
[ $# -eq 0 ] || { echo "usage: survivors-table.sh" >&2; exit 2; }
program=$root/target/bin/survivors
if [ ! -x "$program" ]; then
  echo "proving and building the program, once ..." >&2
  "$root/tools/prove.sh" survivors >&2
fi

# The buddy of machine p of m, 0 if it is not named.
buddy() { # LAYOUT
  case $1 in
    next) echo $((p % m + 1)) ;;
    previous) echo 0 ;;
    pairs) if [ $((p % 2)) -eq 0 ]; then echo $((p - 1)); elif [ $p -lt $m ]; then echo $((p + 1)); else echo 1; fi ;;
    "all on one") if [ $p -eq 1 ]; then echo 2; else echo 1; fi ;;
  esac
}

echo "| layout | M | buddies | f = 1 | f = 2 | f = 3 | f = 4 | f = 5 | f = 6 |"
echo "|---|---|---|---|---|---|---|---|---|"
for layout in next previous pairs "all on one"; do
  for m in 2 3 4 5 6; do
    buddies=() cells=()
    for ((p = 1; p <= m; p++)); do buddies+=("$(buddy "$layout")"); done
    # One chare, on machine 1, that writes to none.
    job=$(printf '%02X' 1 $m 1 "${buddies[@]}" 1 0 0)
    while read -r _ total survived; do cells+=("$survived of $total"); done < <("$program" <<<"$job")
    # The program cannot say that reading or writing failed.
    [ ${#cells[@]} -eq $m ] || { echo "survivors-table.sh: not $m lines for the job $job" >&2; exit 1; }
    while [ ${#cells[@]} -lt 6 ]; do cells+=(""); done
    printf '| %s ' "$layout" $m "\`${buddies[*]}\`" "${cells[@]}"
    echo "|"
  done
done
