#!/usr/bin/env bash
# compare.sh [FRAMES] [SEED]: plays random lists with the proved program `sitting` and with the second implementation and compares
# every byte; then a long input, one very long line and random bytes. Prints how many frames were compared, how often each letter
# ended a line of the random lists, and how often each line answered a frame 17 of theirs.
set -euo pipefail
frames=${1:-20000000}
seed=${2:-1}
. "$(dirname "$0")/programs.sh"
compared=0
same() { # INPUT
  "$proved" <"$1" >"$work/proved"
  "$second" <"$1" >"$work/second"
  if ! cmp -s "$work/proved" "$work/second"; then
    cp "$1" "${TMPDIR:-/tmp}/differs.in"
    echo "DIFFERENT on $1, kept as ${TMPDIR:-/tmp}/differs.in"; cmp "$work/proved" "$work/second" || true
    exit 1
  fi
  compared=$((compared + $(wc -l <"$work/second")))
}
# short and long lists, of wide and narrow jobs, with garbled lines among the frames
lengths=(60 300 1000 5000 20000)
round=0
while [ "$compared" -lt "$frames" ]; do
  length=${lengths[$((round % ${#lengths[@]}))]}
  mkdir "$work/lists"
  "$lists" "$work/lists" "$seed" 50 "$length" >/dev/null
  for f in "$work"/lists/*; do
    same "$f"
    sed -n 's/^00.*\(.\)$/\1/p' "$work/second" >>"$work/letters"
    paste -d ' ' "$f" "$work/second" | LC_ALL=C sed -n 's/^17[0-9A-Fa-f]\{2\} \([0-9J]*\)$/\1/p' >>"$work/withdrawals"
  done
  rm -rf "$work/lists"
  seed=$((seed + 50)); round=$((round + 1))
  if [ $((round % 20)) -eq 0 ]; then echo "$compared frames compared"; fi
done
echo "$compared frames of random lists: the same bytes"
counts() { awk '{ n[$0]++ } END { for (l in n) print l, n[l] }' "$1" | sort; }
echo "letters:" $(counts "$work/letters")
echo "frames 17:" $(counts "$work/withdrawals")
# 100 MB of frames, one line of 10 MB, random bytes
"$lists" "$seed" 1000000 >"$work/long"
while [ "$(wc -c <"$work/long")" -lt 100000000 ]; do cat "$work/long" "$work/long" >"$work/longer"; mv "$work/longer" "$work/long"; done
same "$work/long"; echo "an input of $(wc -c <"$work/long") bytes: the same bytes"
head -c 10000000 /dev/zero | tr '\0' '1' >"$work/line"; same "$work/line"; echo "one line of 10,000,000 digits: the same bytes"
head -c 20000000 /dev/urandom >"$work/random"; same "$work/random"; echo "20,000,000 random bytes: the same bytes"
echo "$compared frames compared in all"
