#!/usr/bin/env bash
# definitions-give-vectors.sh DIR [NN..]: computes the lists DIR/NN.in with the definitions of crates/protocol and compares with
# DIR/NN.out, as theorems of a scratch crate in a temporary folder. Without numbers, every list of DIR.
set -euo pipefail
root=$(cd "$(dirname "$0")/.." && pwd)
. "$root/tools/crates.sh"
[ $# -gt 0 ] || { echo "usage: definitions-give-vectors.sh DIR [NN..]" >&2; exit 2; }
[ -d "$1" ] || { echo "definitions-give-vectors.sh: $1: there is no such folder" >&2; exit 2; }
dir=$(cd "$1" && pwd); shift
scratch=$(mktemp -d); trap 'rm -rf "$scratch"' EXIT
copy_crates "$scratch" lists protocol
copy_built "$scratch" protocol
mkdir -p "$scratch/crates/given/proofs" "$scratch/crates/given/src"
echo 'given: lists protocol' >>"$scratch/crates.txt"
printf '// Nothing but theorems in proofs/.\n#![tactic(auto)]\n' >"$scratch/crates/given/src/lib.rt"
proofs=$scratch/crates/given/proofs
# a text literal: every byte that is no plain character as an escape; lists with bytes above 7F are left out
quoted() { od -An -v -tu1 "$1" | awk '{ for (i = 1; i <= NF; i++) { b = $i; if (b > 127) exit 3; if (b == 34 || b == 92 || b < 32 || b == 127) printf "\\u{%x}", b; else printf "%c", b } }'; }
count=0
: >"$proofs/Lib.antt"
for in in "$dir"/*.in; do
  n=$(basename "$in" .in)
  if [ $# -gt 0 ] && [[ " $* " != *" $n "* ]]; then continue; fi
  if ! given=$(quoted "$in"); then echo "left out: $n"; continue; fi
  wanted=$(quoted "$dir/$n.out")
  cat >"$proofs/V$n.antt" <<T
use Rattle.std.specs.Prelude.{◌≡◌, refl}
use Rattle.protocol.specs.Cases.Computing.{text, opened}
use Rattle.protocol.specs.Step.{answers}

pub list : answers (text "$given") ≡ text "$wanted"
unfolding opened
list = refl
T
  echo "pub mod V$n" >>"$proofs/Lib.antt"
  count=$((count + 1))
done
cd "$scratch/crates/given"
rt check >log 2>&1 && ok=yes || ok=no
grep -a -e 'error' -e '^logic=' -e '^rt:' log | cut -c1-400 || true
[ $ok = yes ] && echo "$count lists: the definitions give every line"
