#!/usr/bin/env bash
# measure-precedes.sh: how long the proved engine takes, through its library, to answer what came before what in the rows that take
# longest. Fails if the median of a question is above a millisecond; a single longer time may be the machine's.
set -euo pipefail
root=$(cd "$(dirname "$0")/.." && pwd)
library=${SATUPHIR_LIB:-$root/target/staticlib}/libsatuphir.a
[ -f "$library" ] || "$root/tools/library.sh" >&2
cargo build --release --offline --quiet --manifest-path "$root/reference/Cargo.toml" --features engine --bin measure-precedes
"$root/reference/target/release/measure-precedes"
