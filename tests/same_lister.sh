#!/usr/bin/env bash
# The proved lister and the independent Rust one on 1,000,000 frames: valid, damaged and random ones of all types.
set -u
cd "$(dirname "$0")/.."
[ -x crates/lister/out/lister ] || scripts/native.sh lister >/dev/null
(cd rust && cargo build --workspace --exclude bench --release --quiet) || { echo "0 passed, 1 failed"; exit 1; }
if rust/target/release/compare lister rust/target/release/lister scripts/lister; then
  echo "1 passed, 0 failed"
else
  echo "0 passed, 1 failed"
  exit 1
fi
