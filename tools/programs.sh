# For the other scripts to read: `proved`, `second` and `lists` are the proved program, the second implementation and the writer of random
# lists, built where they are not there yet; `work` is a folder that goes at the end.
root=$(cd "$(dirname "${BASH_SOURCE[0]}")/.." && pwd)
proved=$root/target/bin/sitting
[ -x "$proved" ] || "$root/tools/prove.sh" sitting >&2
cargo build --release --offline --quiet --manifest-path "$root/reference/Cargo.toml"
second=$root/reference/target/release/sitting
"$root/tools/lists" --help >/dev/null # builds it
lists=$root/explained/target/quick/release/lists
work=$(mktemp -d); trap 'rm -rf "$work"' EXIT
