#!/bin/sh
# Runs every check of this folder, and compares another make's replay and
# lister with the ones here if their paths are given.
set -eu
replay=$(realpath "${1:-/}")
lister=$(realpath "${2:-/}")
cd "$(dirname "$0")"
cargo fmt --check
cargo clippy -j1 --workspace --all-targets -- -D warnings
cargo test -j1 --workspace --quiet
cargo build -j1 --workspace --release
programs=target/release
[ $# -ge 2 ] || replay=$programs/replay lister=$programs/lister
$programs/compare replay $programs/replay "$replay"
$programs/compare lister $programs/lister "$lister"
for bits in 12 15 18; do
    $programs/ramp "$replay" --bits $bits \
        --report target/ramp-$bits.txt --chart target/ramp-$bits.svg --force
done
