#!/usr/bin/env bash
# demo.sh: sets up, proves and builds the lister, and runs it on document 01's sample.
#
# It prints the sample, a line --, and the lister's answers; on standard error, which crate has just been proved. The first time takes
# about 2 minutes on two processors; with nothing changed some seconds. It leaves crates/lister/out/lister, which scripts/lister runs, and
# what rt said in target/demo.log.
# Exit status: 0 done, 1 not proved or not built (what rt said is shown), 2 a wrong call.
set -eu
. "$(dirname "$(readlink -f "$0")")/help.sh"
help_asked "$@"
takes_nothing "$@"
cd "$(dirname "$(readlink -f "$0")")/.."
. scripts/kit.sh
scripts/setup.sh
. scripts/built.sh

# stands_on CRATE: the crate behind those below it, one a line, as crates.txt has them
stands_on() {
  awk -F: -v of="$1" '
    !/^#/ {split($1, word, " "); below[word[1]] = $2}
    function visit(c, d, k, n) {
      if (!(c in below) || seen[c]++) return
      n = split(below[c], d, " ")
      for (k = 1; k <= n; k++) visit(d[k])
      print c
    }
    END {visit(of)}' crates.txt
}

# prove CRATE: has rt prove it and build it, the lister as a program, which then runs on nothing. What rt says goes into the log
prove() { (cd "crates/$1" && if [ "$1" = lister ]; then rt run; else rt lib; fi) </dev/null 2>&1 | tee -a target/demo.log >"$said"; }

crates=$(stands_on lister)
total=$(wc -l <<<"$crates")
echo "demo.sh: proving the lister's $total crates: about 2 minutes the first time, a few seconds where they were proved before" >&2
mkdir -p target
: >target/demo.log
said=$(mktemp)
trap 'rm -f "$said"' EXIT
set -o pipefail
n=0
now=0
is_built crates/lister/out/lister || for crate in $crates; do
  n=$((n + 1))
  began=$SECONDS
  if ! prove "$crate"; then
    cat target/demo.log >&2
    echo "demo.sh: the lister isn't proved or isn't built" >&2
    exit 1
  fi
  # a crate that was proved before is only counted
  if grep -q '^logic=proved' "$said"; then now=$((now + 1)) && echo "  $n/$total $crate proved ($((SECONDS - began)) s)" >&2; fi
done
if [ $now = 0 ]; then echo "  all $total were proved before, and nothing has changed since" >&2; fi
note crates/lister/out/lister
sample='001234000000
110078000100000000100001000700090000
400000000000'
printf '%s\n--\n' "$sample"
printf '%s\n' "$sample" | scripts/lister
