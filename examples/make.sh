#!/bin/sh
# Writes .out, .txt and .svg of every example anew. The lines come from the second implementation, never from the engine that they are
# compared with: the gate plays each list with the proved engine too (explained/tests/examples.rs), and `explain` here, which links it
# (`tools/library.sh` writes its library), stops where a line of the two differs.
set -eu
cd "$(dirname "$0")"
run() { package=$1; shift; cargo run --quiet --offline --manifest-path "../$package/Cargo.toml" "$@"; }
for list in *.in; do
    name=${list%.in}
    run reference --bin sitting < "$list" > "$name.out"
    run explained --bin satuphir -- explain "$list" --picture "$name.svg" > "$name.txt"
done
