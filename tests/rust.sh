#!/usr/bin/env bash
# The independent Rust side: its own tests, and its programs built for the comparisons.
set -u
cd "$(dirname "$0")/../rust"
log=$(mktemp)
cargo test --workspace --exclude bench --no-fail-fast 2>&1 | tee "$log" | grep -E '^test result|FAILED|panicked|error' 
passed=$(sed -n 's/^test result: .* \([0-9]*\) passed; .*/\1/p' "$log" | awk '{n += $1} END {print n + 0}')
failed=$(sed -n 's/^test result: .* \([0-9]*\) failed; .*/\1/p' "$log" | awk '{n += $1} END {print n + 0}')
grep -q '^error' "$log" && failed=$((failed + 1))
[ "$passed" -gt 0 ] || failed=$((failed + 1))
rm -f "$log"
if cargo build --workspace --exclude bench --release --quiet; then passed=$((passed + 1)); else failed=$((failed + 1)); echo "rust: the programs don't build"; fi
echo "$passed passed, $failed failed"
[ "$failed" -eq 0 ]
