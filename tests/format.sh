#!/usr/bin/env bash
# Every file of Rattle and antt is laid out as the formatter lays it out: rt fmt changes nothing in a copy of any crate.
set -u
cd "$(dirname "$0")/.."
work=$(mktemp -d)
trap 'rm -rf "$work"' EXIT
passed=0
failed=0
for crate in crates/*/; do
  name=$(basename "$crate")
  mkdir "$work/$name"
  for part in src specs proofs; do
    if [ -d "$crate$part" ]; then cp -r "$crate$part" "$work/$name/"; fi
  done
  if (cd "$work/$name" && rt fmt) >"$work/said" 2>&1 && ! grep -q '^rt: formatted ' "$work/said"; then
    passed=$((passed + 1))
  else
    failed=$((failed + 1))
    echo "format: $name is not as rt fmt lays it out"
    head -n 10 "$work/said"
  fi
done
echo "$passed passed, $failed failed"
[ "$failed" -eq 0 ] && [ "$passed" -gt 0 ]
