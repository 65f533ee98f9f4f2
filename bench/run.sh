#!/bin/sh
# Builds both, compares their answers on random scripts, and prints the table and the instructions of the fixed script.
set -eu
cd "$(dirname "$0")"
[ -f ../crates/ffi/out/libffi.a ] || { echo "run 'rt lib' in the repository's folder crates/ffi first" >&2; exit 1; }
[ -d ../oracle/src ] || { echo "there is no oracle/ in the repository" >&2; exit 1; }
cargo build --release --offline --quiet
./target/release/compare 1
./target/release/compare 2
./target/release/bench
for who in ours theirs; do
    valgrind --tool=callgrind --callgrind-out-file=target/callgrind.$who --toggle-collect=fixed_$who ./target/release/bench $who 2>&1 |
        sed -n "s/.*Collected : /instructions, fixed script, $who: /p"
done
