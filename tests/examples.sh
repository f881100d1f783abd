#!/usr/bin/env bash
# The examples of README.md and docs/REPLAY.md, tried as they stand there, and REPLAY.md's refusals held to the code's and their order to
# the definitions'.
set -u
cd "$(dirname "$0")/.."
passed=0
failed=0
work=$(mktemp -d)
trap 'rm -rf "$work"' EXIT

# alike WHAT: the texts of $work/wanted and $work/found are the same, and there is one
alike() {
  if [ -s "$work/wanted" ] && diff "$work/wanted" "$work/found" >"$work/diff"; then
    passed=$((passed + 1))
  else
    failed=$((failed + 1))
    echo "examples: $1 (<: as it is written, >: as it is)"
    head -n 10 "$work/diff"
  fi
}
# block FILE LANGUAGE: the fenced block of a language
block() { sed -n "/^\`\`\`$2\$/,/^\`\`\`\$/{/^\`\`\`/d;p}" "$1"; }

# README's commands, `    $ ..`, and what is shown below each
grep -n '^    \$ ' README.md | cut -d : -f 1 >"$work/places"
while read -r place; do
  tail -n "+$((place + 1))" README.md | sed -n '/^    /!q;s/^    //p' >"$work/wanted"
  sed -n "${place}s/^    \$ //p" README.md >"$work/command"
  timeout 20 bash "$work/command" >"$work/found" 2>&1
  alike "README.md, line $place"
done <"$work/places"

# the demo, which lists the frames of README's first command
{
  sed -n "s/^    \$ printf '\([^']*\)' | scripts.lister\$/\1--/p" README.md | xargs -0 printf '%b'
  sed -n '/| scripts.lister$/,/^$/s/^    \([^$].*\)/\1/p' README.md
} >"$work/wanted"
scripts/demo.sh >"$work/found" 2>/dev/null
alike "demo.sh's output"

# its line for C, which makes its program here
sed -n 's/^    \(gcc .*\) -o secondary && .*/\1/p' README.md >"$work/line"
echo "Every outcome is the one wanted." >"$work/wanted"
{ bash -c "$(cat "$work/line") -o \"\$1\"" bash "$work/secondary" && "$work/secondary"; } 2>&1 | tail -n 1 >"$work/found"
alike "README.md, from C"

# REPLAY.md's bearer: rows of a call and its answer, with blanks for tabs
sed -n '/^## Both ends/,/^## /s/^| `\([^`]*\)` | `\([^`]*\)` .*/\1=\2/p' docs/REPLAY.md | tr ' ' '\t' >"$work/rows"
cut -d = -f 2 "$work/rows" >"$work/wanted"
cut -d = -f 1 "$work/rows" | scripts/replay >"$work/found" 2>&1
alike "REPLAY.md, both ends played together"

# its two programs
printf '%s\n' "['ok'] ['sent', '0'] ['lost', '0'] ['ok']" "['freed', '1', 'lost', '0', 'final', '0']" 'status 0' >"$work/wanted"
block docs/REPLAY.md python >"$work/host.py"
if command -v python3 >/dev/null; then timeout 20 python3 "$work/host.py" >"$work/found" 2>&1; alike "REPLAY.md, from Python"; fi
printf '%b\n' ok 'sent\t0' 'lost\t0' ok 'frame\t1000000001000000001000000000' 'freed\t1\tlost\t0\tfinal\t0' >"$work/wanted"
block docs/REPLAY.md bash >"$work/host.sh"
timeout 20 bash "$work/host.sh" >"$work/found" 2>&1
alike "REPLAY.md, from bash"

# its table of refusals has the code's numbers, and its calls the definitions' orders
sed -n 's/^| \([0-9]*\) | .*/\1/p' docs/REPLAY.md >"$work/wanted"
sed -n 's/^ *[A-Z][A-Za-z]* = \([0-9]*\),.*/\1/p' crates/refusal/src/lib.rt >"$work/found"
alike "REPLAY.md, the refusals"
sed -n '/^## The calls/,/^## The refusals/s/^| `.* | \([0-9].*\) |$/\1/p' docs/REPLAY.md >"$work/wanted"
said() { sed -n "s/^-- \"$1: \([^.]*\)\.\".*/\1/p" crates/bearer/specs/Refusals.antt; }
rows() { sed -n "/^$1 /,/\[\]/s/.*(\([0-9]*\) when .*/\1/p" crates/bearer/specs/Refusals.antt | paste -sd , | sed 's/,/, /g'; }
{
  said Open; said Arrival; rows expiry_refusals # request Six says its order among other words
  for call in Confirm Status Send 'Accepting a status' Take; do said "$call"; done
} >"$work/found"
alike "REPLAY.md, the order of refusals"

echo "$passed passed, $failed failed"
[ "$failed" -eq 0 ]
