#!/usr/bin/env bash
# Property tests of the product beside the independent Rust implementation: codec and keeper through the C boundary, both ends
# through replay, demand 3 on the product's own traces. Built for this machine's own processor it carries the million frames and
# the million calls; replay by its command 100,000 more.
set -u
cd "$(dirname "$0")/.."
broken() { echo "property: $1"; echo "0 passed, 1 failed"; exit 1; }
scripts/archive.sh >/dev/null || broken "the archive doesn't build"
scripts/native.sh replay >/dev/null || broken "replay doesn't build"
(cd rust && cargo build -p programs --release --quiet &&
  X2U_ARCHIVES=$(cd ../target/native && pwd) cargo build -p property --features product --release --quiet) || broken "the tests don't build"
exec rust/target/release/property --library rust/target/release/replay --product target/native/replay --shipped scripts/replay "$@"
