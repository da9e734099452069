#!/usr/bin/env bash
# measure.sh: plays three inputs with the proved engine and with the second implementation, five times in turn, and prints the frames per
# second of the best run of each: one random list, a long sitting of a wide job, and many short sittings in one process; then the memory
# of the proved program on an input of 100 MB and on one line of 10 MB.
set -euo pipefail
. "$(dirname "$0")/programs.sh"
[ -f "${SATUPHIR_LIB:-$root/target/staticlib}/libsatuphir.a" ] || "$root/tools/library.sh" >&2
cargo build --release --offline --quiet --manifest-path "$root/reference/Cargo.toml" --features engine --bin short
short=$root/reference/target/release/short
nanoseconds() { # PROGRAM LIST: of one run
  local from to
  from=$(date +%s%N); "$1" <"$2" >"$work/out"; to=$(date +%s%N)
  echo $((to - from))
}
speed() { # LIST
  local frames t best_proved=0 best_second=0
  frames=$(wc -l <"$1")
  for _ in 1 2 3 4 5; do
    t=$(nanoseconds "$proved" "$1"); if [ $best_proved -eq 0 ] || [ "$t" -lt $best_proved ]; then best_proved=$t; fi
    t=$(nanoseconds "$second" "$1"); if [ $best_second -eq 0 ] || [ "$t" -lt $best_second ]; then best_second=$t; fi
  done
  echo "frames:                $frames"
  echo "proved program:        $((frames * 1000000000 / best_proved)) frames a second"
  echo "second implementation: $((frames * 1000000000 / best_second)) frames a second"
  awk "BEGIN { printf \"proved / second:       %.2f\n\", $best_second / $best_proved }"
}
echo "one random list"
# of the seeds from 1 on, the first whose list is not cut short by a lost run
"$lists" 924 1000000 >"$work/list"; speed "$work/list"
echo "a long sitting of a wide job"
# the first seed; with these options no list is cut short
"$lists" --machines 6 --chares 12 --frames 1000000 --clean 1 >"$work/wide"; speed "$work/wide"
echo "many short sittings"
# in one process, so that starting a program does not count
"$short"
resident() { # NAME: the most memory that the program holds while it plays that input
  local peak=0 now
  "$proved" <"$work/$1" >/dev/null & local pid=$!
  while now=$(awk '/VmHWM/ { print $2 }' "/proc/$pid/status" 2>/dev/null) && [ -n "$now" ]; do peak=$now; done
  wait "$pid"
  echo "memory on $1: $peak KB resident"
}
while [ "$(wc -c <"$work/list")" -lt 100000000 ]; do cat "$work/list" "$work/list" >"$work/more"; mv "$work/more" "$work/list"; done
mv "$work/list" "$work/100-MB"; resident 100-MB
head -c 10000000 /dev/zero | tr '\0' '1' >"$work/one-line-of-10-MB"; resident one-line-of-10-MB
