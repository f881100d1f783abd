#!/usr/bin/env bash
# times.sh [LOG]: prints the table of times of a run of scripts/test.sh, in seconds, from its log (target/test.log, that of the last one).
#
# Of each crate when its proof was there, counted from the beginning of the proofs, or that it was kept from an earlier run, and how many
# wrong versions of it were refused; of each suite how long it took. The kit says of no crate how long it took by itself.
# Exit status: 0 printed, 1 there is no such log, 2 a wrong call.
set -eu
. "$(dirname "$(readlink -f "$0")")/help.sh"
help_asked "$@"
case $#:${1--} in 0:* | 1:[!-]*) ;; *) refuse "takes one log" ;; esac
log=${1:-$(cd "$(dirname "$(readlink -f "$0")")/.." && pwd)/target/test.log}
[ -f "$log" ] || { echo "times.sh: no log $log; scripts/test.sh leaves one" >&2; exit 1; }
awk '
  /^-- [a-z0-9_]+ was there at [0-9]+ s$/ { note($2); if (!($2 in how)) how[$2] = $6; if ($6 > last) last = $6 }
  /^rt: [a-z0-9_]+ is kept: / { note($2); how[$2] = "kept"; kept++ }
  /^rt: must-fail [a-z0-9_]+\/[A-Za-z0-9_.-]+: refused/ { split($3, part, "/"); note(part[1]); edits[part[1]]++; e++ }
  /^-- [a-z_]+ took [0-9]+ s$/ { suites[++k] = sprintf("| %s | %d |", $2, $4) }
  function note(name) { if (!(name in seen)) { seen[name] = 1; order[++n] = name } }
  END {
    print "| Crate | proof there at, s | wrong versions |"; print "|---|---|---|"
    for (i = 1; i <= n; i++) { c = order[i]; printf "| %s | %s | %d |\n", c, how[c], edits[c] }
    printf "| all %d, %d of them kept | %d | %d |\n\n", n, kept, last, e
    print "| Suite | s |"; print "|---|---|"
    for (i = 1; i <= k; i++) print suites[i]
  }' "$log"
