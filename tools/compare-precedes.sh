#!/usr/bin/env bash
# compare-precedes.sh [COUNT] [SEED]: asks what came before what, in COUNT random rows, the proved engine through its library and the
# second implementation, and compares every answer. Prints how many rows and answers of each kind were compared.
set -euo pipefail
count=${1:-100000}
seed=${2:-1}
root=$(cd "$(dirname "$0")/.." && pwd)
library=${SATUPHIR_LIB:-$root/target/staticlib}/libsatuphir.a
[ -f "$library" ] || "$root/tools/library.sh" >&2
cargo build --release --offline --quiet --manifest-path "$root/reference/Cargo.toml" --features engine --bin compare-precedes
"$root/reference/target/release/compare-precedes" "$count" "$seed"
