#!/usr/bin/env bash
# selfcheck.sh [SEED] [FRAMES]: plays random lists with the second implementation and checks demand 3 at every quiet moment, against a
# crash-free run; prints how often each answer, letter and event was seen. Fails at the first moment that is not as demanded.
set -euo pipefail
root=$(cd "$(dirname "$0")/.." && pwd)
cargo build --release --offline --quiet --manifest-path "$root/reference/Cargo.toml" --bin selfcheck
"$root/reference/target/release/selfcheck" "${1:-1}" "${2:-1000000}"
