#!/usr/bin/env bash
# docs/CONTRACTS.md names every public function under its crate, and every wrong version there is, and no other; README's map names every
# crate; no document names a crate's folder or a file of one that isn't there.
set -u
cd "$(dirname "$0")/.."
passed=0
failed=0
work=$(mktemp -d)
trap 'rm -rf "$work"' EXIT

# alike NAME: the lines of $work/wanted and of $work/found are the same
alike() {
  if diff <(LC_ALL=C sort -u "$work/wanted") <(LC_ALL=C sort -u "$work/found") >"$work/diff"; then
    passed=$((passed + 1))
  else
    failed=$((failed + 1))
    echo "docs: $1 (<: missing there, >: not so)"
    cat "$work/diff"
  fi
}

# lines 'crate function' of the source, and of CONTRACTS.md: `name(..)` or `name` at the front of a row, before its colon
for f in crates/*/src/*.rt; do
  crate=$(echo "$f" | cut -d / -f 2)
  sed -n 's/^ *pub \(extern "C" \)\{0,1\}fn \([a-z0-9_]*\).*/\2/p' "$f" | sed "s/^/$crate /"
done >"$work/wanted"
awk '
  /^### / { crate = $2 }
  /^- `/ { head = $0; while (head !~ /: / && (getline line) > 0) head = head " " line; sub(/: .*/, "", head)
    while (match(head, /`[a-z0-9_]+[(`]/)) { print crate, substr(head, RSTART + 1, RLENGTH - 2); head = substr(head, RSTART + RLENGTH) } }
' docs/CONTRACTS.md >"$work/found"
alike "CONTRACTS.md has the public functions"

# lines 'crate/edit'
ls crates/*/must-fail/*.edit | sed 's|crates/\(.*\)/must-fail/\(.*\)\.edit|\1/\2|' >"$work/wanted"
awk '
  /^### / { crate = $2 }
  crate { rest = $0; while (match(rest, /`\[[a-z0-9_\/]+\]`/)) { name = substr(rest, RSTART + 2, RLENGTH - 4); print (name ~ /\//) ? name : crate "/" name; rest = substr(rest, RSTART + RLENGTH) } }
' docs/CONTRACTS.md >"$work/found"
alike "CONTRACTS.md has the wrong versions"

ls crates >"$work/wanted"
sed -n '/^## Where things are/,$p' README.md | grep '^|' | cut -d '|' -f 3 | grep -o '`[a-z0-9_]*`' | tr -d '`' >"$work/found"
alike "README's map has the crates"

grep -oh '`crates/[A-Za-z0-9_/.]*`' README.md docs/*.md docs/changes/*.md rust/NOTES.md 2>/dev/null | tr -d '`' | LC_ALL=C sort -u >"$work/found"
while IFS= read -r path; do if [ -e "$path" ]; then echo "$path"; fi; done <"$work/found" >"$work/wanted"
alike "the documents name what is there"

echo "$passed passed, $failed failed"
[ "$failed" -eq 0 ]
