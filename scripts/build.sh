#!/usr/bin/env bash
# build.sh: builds what the tests run beside the proved programs: the archives for C, replay for this machine's own processor, and the
# Rust side.
#
# The first time takes some minutes, since it proves what it builds; with nothing changed some seconds. It prints the paths of what it
# made, all in target/ but for the Rust side's, in rust/target/release.
# Exit status: 0 built, 1 or more something isn't built, 2 a wrong call too.
set -eu
. "$(dirname "$(readlink -f "$0")")/help.sh"
help_asked "$@"
takes_nothing "$@"
cd "$(dirname "$(readlink -f "$0")")/.."
scripts/archive.sh x86-64
scripts/archive.sh aarch64
scripts/native.sh replay
cd rust && cargo build --workspace --exclude bench --release --quiet
