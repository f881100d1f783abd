#!/usr/bin/env bash
# bench.sh: measures the product and the independent Rust implementation side by side, and prints the tables.
#
# Times by criterion, instructions by valgrind's callgrind, the listers as whole programs in turn; the product is built for this
# machine's own processor. It writes the tables into docs/PERFORMANCE.md, between its two marks, and leaves its figures in target/bench.
# Takes about 10 minutes once all is built; leave the machine alone meanwhile.
# Exit status: 0 measured, 1 or more something failed, 2 a wrong call too.
set -eu
. "$(dirname "$(readlink -f "$0")")/help.sh"
help_asked "$@"
takes_nothing "$@"
cd "$(dirname "$(readlink -f "$0")")/.."
. scripts/kit.sh
scripts/setup.sh
command -v valgrind >/dev/null || $([ "$(id -u)" = 0 ] || echo sudo) apt-get install -y -qq valgrind >&2
scripts/archive.sh >/dev/null
for name in ledger_probe lister; do scripts/native.sh $name >/dev/null; done
out=$PWD/target/bench
mkdir -p "$out"
export X2U_ARCHIVES=$PWD/target/native
(cd rust && cargo build -p programs --release --quiet && cargo build -p bench --features product --release --quiet)
programs=rust/target/release

# times, in rounds in which the sides take turns: what else runs on the machine may slow one side for the whole of a round
rm -rf "$out/rounds"
for round in 1 2 3 4 5 6; do
  (cd rust && cargo bench -p bench --features product) | tee "$out/criterion.log" | grep --line-buffered -o '^Benchmarking [^:]*: Analyzing' >&2
  mkdir -p "$out/rounds/$round"
  cp -r rust/target/criterion/. "$out/rounds/$round"
done

# instructions a call, within the batches: the first batch alone, or what 100 more turns of the ledger take
count() { # CASE SIDE COUNT: calls made, instructions
  valgrind --tool=callgrind --collect-atstart=no --toggle-collect='*measured_batch*' --callgrind-out-file=/dev/null \
    $programs/calls "$@" 2>&1 | awk '/^[0-9]+$/ {calls = $1} /Collected/ {n = $NF} END {print calls, n}'
}
: >"$out/counts.tsv"
for case in $($programs/calls); do
  for side in rust rattle; do
    read -r calls n <<<"$(count "$case" $side 1)"
    if [ "$calls" = 1 ]; then
      read -r more n2 <<<"$(count "$case" $side 101)"
      calls=$((more - calls)) n=$((n2 - n))
    fi
    awk -v case="$case" -v side=$side -v n="$n" -v calls="$calls" 'BEGIN {printf "%s\t%s\t%.1f\n", case, side, n / calls}' | tee -a "$out/counts.tsv" >&2
  done
done

# the listers
$programs/race "$out/frames.txt" $programs/lister target/native/lister | tee "$out/lister.tsv" >&2

{
  echo "Machine: $(uname -m), $(lscpu | sed -n 's/^Model name: *//p'), $(nproc) processors; load $(cut -d' ' -f1 /proc/loadavg) at the end."
  echo "Compilers: $(rustc --version | cut -d' ' -f1,2), $(head -n 1 "$kit/KIT-ID" | cut -d' ' -f1)."
  echo "Undefined symbols of the archive of codec and keeper, among which an allocator would be: $(nm -u target/native/libx2u.a | grep -c ' U ' || true)."
  echo
  $programs/tables "$out/rounds" "$out/counts.tsv" "$out/lister.tsv"
} >"$out/tables.md"
awk -v tables="$out/tables.md" '
  /<!-- measured: begin/ {print; print ""; while ((getline line < tables) > 0) print line; skip = 1}
  /<!-- measured: end/ {skip = 0}
  !skip {print}' docs/PERFORMANCE.md >"$out/new.md"
cp "$out/new.md" docs/PERFORMANCE.md
cat "$out/tables.md"
