#!/usr/bin/env bash
# library.sh: writes the engine's static library, target/staticlib/libsatuphir.a, for callers in C and for the tests in Rust. What of the
# engine is not proved is proved first.
set -euo pipefail
root=$(cd "$(dirname "$(readlink -f -- "${BASH_SOURCE[0]}")")/.." && pwd)
[ $# -eq 0 ] || { echo "usage: library.sh" >&2; exit 2; }
command -v rt >/dev/null || { echo "library.sh: rt, the Rattle toolchain, is needed, and not found" >&2; exit 2; }
(cd "$root/crates/satuphir" && rt lib) </dev/null
library=$root/target/staticlib
mkdir -p "$library"
# Whoever links it meanwhile has the one before, or this one whole.
cp "$root/crates/satuphir/out/libsatuphir.a" "$library/new"
mv "$library/new" "$library/libsatuphir.a"
