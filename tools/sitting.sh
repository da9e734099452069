#!/usr/bin/env bash
# sitting.sh LIST: plays a list of digits, - for standard input, with the proved program `sitting`. The first time the program is proved
# and built, which takes minutes. The program cannot say that reading or writing failed: it passes over that, and ends with status 0.
# `tools/satuphir play` can.
set -euo pipefail
root=$(cd "$(dirname "$(readlink -f -- "${BASH_SOURCE[0]}")")/.." && pwd)
say() { echo "sitting.sh: $*" >&2; }
[ $# -eq 1 ] || { echo "usage: sitting.sh LIST" >&2; exit 2; }
# Looked at first, before minutes of proving.
if [ "$1" = - ]; then
  { : 9<&0; } 2>/dev/null || { say "standard input: it is closed"; exit 2; }
else
  [ -e "$1" ] || { say "$1: there is no such file"; exit 2; }
  [ ! -d "$1" ] || { say "$1: it is a directory"; exit 2; }
  [ -r "$1" ] || { say "$1: it cannot be read"; exit 2; }
fi
program=$root/target/bin/sitting
if [ ! -x "$program" ]; then
  command -v rt >/dev/null || { say "rt, the Rattle toolchain, is not found: it proves the program; \`tools/satuphir play --quick\` does without"; exit 2; }
  echo "proving and building the program, once ..." >&2
  "$root/tools/prove.sh" sitting </dev/null >&2
fi
if [ "$1" = - ]; then "$program"; else "$program" <"$1"; fi
