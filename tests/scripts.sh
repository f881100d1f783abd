#!/usr/bin/env bash
# Every script answers --help at once and refuses words that it doesn't know, from any folder, before it does anything: they are tried
# in a copy of scripts/ that stands alone, with nothing to build and nothing built.
set -u
root=$(cd "$(dirname "$0")/.." && pwd)
passed=0
failed=0
work=$(mktemp -d)
trap 'rm -rf "$work"' EXIT
mkdir "$work/copy"
cp -r "$root/scripts" "$work/copy/scripts"
cd "$work" || exit 1

# holds WHAT COMMAND..: counts whether it succeeds
holds() {
  local what=$1
  shift
  if "$@"; then passed=$((passed + 1)); else failed=$((failed + 1)); echo "scripts: $what: not so"; head -n 5 out err; fi
}

# call SCRIPT WORD..: runs it, and leaves what it wrote, its status, and the processor time that it took, in milliseconds
call() {
  local TIMEFORMAT='%U %S'
  { time timeout 60 "$@" </dev/null >out 2>err; status=$?; } 2>took
  took=$(awk 'END {print int(1000 * ($1 + $2))}' took)
}

# helped NAME: what was called has answered with the help of NAME, at once
helped() {
  [ "$status" = 0 ] && [ ! -s err ] && [ "$took" -lt 500 ] && head -n 1 out | grep -q "^${1%.sh}" && grep -q '^Exit' out
}

# refused NAME: what was called was refused by NAME in words, at once
refused() { [ "$status" = 2 ] && [ ! -s out ] && [ "$took" -lt 500 ] && head -n 1 err | grep -q "^${1%.sh}.*: "; }

for script in copy/scripts/*; do
  name=$(basename "$script")
  if [ ! -x "$script" ]; then continue; fi
  call "$script" --help
  holds "$name --help" helped "$name"
  call "$work/$script" some words -h
  holds "$name .. -h, by its whole path" helped "$name"
  call "$script" --no-such-option
  holds "$name --no-such-option" refused "$name"
  case $name in lister) continue ;; esac # which takes any number of words
  call "$script" one two three
  holds "$name with words too many" refused "$name"
done
for name in archive.sh native.sh; do
  call "$root/scripts/$name" $([ $name = archive.sh ] || echo keeper) sparc
  holds "$name refuses a target, and names those it has" refused "$name"
  holds "$name names its targets" grep -q 'no target sparc; there are x86-64 and aarch64' err
done
holds "nothing was made" [ "$(ls copy)" = scripts ]

echo "$passed passed, $failed failed"
[ "$failed" -eq 0 ]
