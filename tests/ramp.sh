#!/usr/bin/env bash
# Twenty seconds of the ramp for each L, over both rollovers and some rests, with PDUs of all sizes, and what its report says; a lie in the
# middle of one, and programs that hang, end early or can't be started, which must fail it; files that are kept; and what is refused before
# anything is built.
set -u
cd "$(dirname "$0")/.."
passed=0
failed=0
out=target/ramp/test
rm -rf "$out"
mkdir -p "$out/elsewhere"
ramp=$PWD/rust/target/release/ramp

# holds NAME COMMAND..: counts whether it succeeds
holds() {
  local name=$1
  shift
  if "$@"; then passed=$((passed + 1)); else failed=$((failed + 1)); echo "ramp: $name: not so"; fi
}

# program NAME TEXT: makes a shell script to be tested
program() {
  printf '#!/bin/sh\n%s\n' "$2" >"$out/$1"
  chmod +x "$out/$1"
}

# plays NAME CODE WORDS..: the ramp program ends with that exit code; its report is NAME.txt
plays() {
  local name=$1 code=$2
  shift 2
  "$ramp" "$@" --report "$out/$name.txt" --chart "$out/$name.svg" >"$out/$name.log" 2>&1
  holds "$name ends with $code" [ $? -eq "$code" ]
}

for bits in 12 15 18; do
  scripts/ramp.sh --bits $bits --minutes 0.34 --report "$out/$bits.txt" --chart "$out/$bits.svg" >"$out/$bits.log" 2>&1
  holds "L $bits passes" [ $? -eq 0 ]
  holds "L $bits, its report" grep -q '^Result: PASSED at 2,000 packets a second, as asked for' "$out/$bits.txt"
  holds "L $bits, both circles rolled over" [ "$(sed -n '/^Rollovers met/,/^$/s/ numbers  *[1-9].*//p' "$out/$bits.txt" | wc -l)" -eq 2 ]
  holds "L $bits, its chart" grep -q '>PASSED</text>' "$out/$bits.svg"
  for rest in 'half of it' 'a whole turn'; do
    holds "L $bits, a rest of more than $rest" grep -qE "^  of more than $rest +[1-9]" "$out/$bits.txt"
  done
  holds "L $bits, sends that waited for the PDCP order" grep -qE '^  master, send +35 .* [0-9,]+$' "$out/$bits.txt"
  holds "L $bits, sends of a wrong size" grep -qE '^  master, send +39 .* [0-9,]+$' "$out/$bits.txt"
  holds "L $bits, good packets saved by the marks of expiries" grep -qE '^  arrived after all: good packets saved +[1-9][0-9,]*$' "$out/$bits.txt"
  holds "L $bits, marks past all that was accepted" grep -qE '^  secondary, expire +19 .* [0-9,]+$' "$out/$bits.txt"
  for room in '  times it was 0' 'least above 0'; do
    holds "L $bits, room: $room" grep -qE "^  $room +[1-9][0-9,]*$" "$out/$bits.txt"
  done
  # of the long form no half circle is sent in this time
  [ $bits = 18 ] || holds "L $bits, a copy opposite base" grep -qE '^  secondary, arrive +18 .* [0-9,]+$' "$out/$bits.txt"
done

# What is signed: where and on what it was made, and figures that add up
hash=$(sha256sum <target/native/replay | cut -d ' ' -f 1)
holds "the report has its date" grep -q "^Date  *$(date -u +%Y-%m-)" "$out/12.txt"
holds "the report has the program's hash" grep -q "^  SHA-256  *$hash, of target/native/replay" "$out/12.txt"
holds "the report knows the build" grep -q "^  build  *this processor's" "$out/12.txt"
holds "the report knows where it was made" [ "$(grep -cE '^(Host|Kit|Compilers)  .*unknown' "$out/12.txt")" -eq 0 ]
commit=unknown
[ "$(git rev-parse --show-toplevel 2>/dev/null)" != "$(pwd -P)" ] || commit="$(git rev-parse HEAD), the tree is"
holds "the report has the commit" grep -q "^Commit  *$commit" "$out/12.txt"
links=$(mktemp -d) # outside: rt ci refuses a link that is left here
ln -s "$PWD" "$links/root"
(cd "$links/root" && REPLAY=scripts/replay scripts/ramp.sh --minutes 0.02 --report "$out/link.txt" --chart "$out/link.svg") >"$out/link.log" 2>&1
rm -r "$links"
holds "the shipped build is known through a link" grep -q '^  build  *the shipped one' "$out/link.txt"
holds "the commit is known through a link" grep -q "^Commit  *$commit" "$out/link.txt"
for sum in offered 'that had to wait' 'declared lost' 'spared by a mark' dropped 'octets sent' rests 'PDCP numbers used'; do
  holds "the parts of what was $sum add up" [ "$(grep -c "^  together, all $sum " "$out/12.txt")" -eq 1 ]
done
declared() { sed -n "s/^  $1  *\([0-9,]*\)$/\1/p" "$out/12.txt" | head -n 1; }
holds "the causes add up to those declared lost" [ "$(declared 'declared lost')" = "$(declared 'together, all declared lost')" ]
holds "the chart has a panel for records" grep -q '>512: records full</text>' "$out/12.svg"
holds "the chart has a panel for the room" grep -qE '>0 in [1-9][0-9]? of 100</text>' "$out/12.svg"

# A rate that isn't reached is said, and is no plain pass
plays fast 3 target/native/replay --rate 100000 --minutes 0.05
holds "the rate not reached is in the result" grep -qE '^Result: PASSED at [0-9],[0-9]{3} packets a second; the 100,000 asked for were not reached' "$out/fast.txt"
holds "the rate not reached is in the chart" grep -q '>rate not reached</text>' "$out/fast.svg"

# Programs that fail it
program liar 'target/native/replay | sed "30000s/$/0/"'
REPLAY=$out/liar scripts/ramp.sh --minutes 0.34 --report "$out/liar.txt" --chart "$out/liar.svg" >"$out/liar.log" 2>&1
holds "a lie is told by the exit code" [ $? -eq 1 ]
holds "a lie is shown at its place" grep -q '^Call 30000:' "$out/liar.txt"
holds "another program is called so" grep -q '^  build  *neither' "$out/liar.txt"
program hangs "target/native/replay | head -n 30000; sleep 600 & echo \$! >$out/hangs.pid; wait"
plays hangs 1 "$out/hangs" --minutes 0.34 --patience 2
holds "a hang is told with its call" grep -q '^Result: FAILED: call 30001 got no answer' "$out/hangs.txt"
hung=$(cat "$out/hangs.pid")
holds "what hung is ended" [ "$hung" != "" -a "$(awk '/^State/ { print $2 }' "/proc/$hung/status" 2>/dev/null | tr -d Z)" = "" ]
program ends 'target/native/replay | head -n 20000; exit 7'
plays ends 1 "$out/ends" --minutes 0.34
holds "an early end is told" grep -q '^  program: nothing more, and ended: exit status: 7' "$out/ends.txt"
plays missing 1 "$out/no-such-program" --minutes 0.34
holds "a program that isn't there is told" grep -q "^Result: FAILED: the program under test can't be started" "$out/missing.txt"

# Reports are kept, and go where the user says
cp "$out/12.txt" "$out/kept"
scripts/ramp.sh --minutes 0.02 --report "$out/12.txt" >"$out/kept.log" 2>&1
holds "an existing report is refused" [ $? -eq 2 ]
"$ramp" target/native/replay --minutes 0.02 --report "$out/12.txt" --chart "$out/new.svg" >>"$out/kept.log" 2>&1
holds "the program refuses it too" [ $? -eq 2 ]
holds "an existing report stays" cmp -s "$out/12.txt" "$out/kept"
plays 12 0 target/native/replay --minutes 0.02 --force
(cd "$out/elsewhere" && ../../../../scripts/ramp.sh --minutes 0.02 --report mine.txt --chart mine.svg) >"$out/elsewhere.log" 2>&1
holds "a report goes where the user stands" [ -s "$out/elsewhere/mine.txt" -a -s "$out/elsewhere/mine.svg" ]
for _ in 1 2 3; do "$ramp" target/native/replay --minutes 0.02 --folder "$out/elsewhere" >/dev/null 2>&1; done
holds "three reports in a second are three files" [ "$(find "$out/elsewhere" -name 'ramp-*-L12-seed1*.txt' -size +4k | wc -l)" -eq 3 ]

# Every L and several seeds, in one table
mkdir "$out/all"
"$ramp" target/native/replay --all --seeds 4,5 --minutes 0.1 --folder "$out/all" >"$out/all.log" 2>&1
holds "--all passes" [ $? -eq 0 ]
holds "--all has a row a run" [ "$(grep -cE '^(12|15|18) +[45]  PASSED .* 0  '"$out"'/all/ramp-.*\.txt$' "$out/all.log")" -eq 6 ]
holds "--all ends with one line" [ "$(tail -n 1 "$out/all.log")" = "Result: PASSED, all of 6 runs" ]
holds "--all saves its table" grep -q '^Result: PASSED, all of 6 runs$' "$out"/all/ramp-*-all.txt
scripts/ramp.sh --all --seeds 987654321 --minutes 0.02 >"$out/all3.log" 2>&1
holds "--all passes by its script" [ "$(tail -n 1 "$out/all3.log")" = "Result: PASSED, all of 3 runs" ]
rm -f target/ramp/ramp-*-seed987654321*.* "$(sed -n 's/^This table is saved to //p' "$out/all3.log")"
program liar2 'target/native/replay | sed "3000s/$/0/"'
"$ramp" "$out/liar2" --all --seeds 4 --minutes 0.05 --folder "$out/all" >"$out/all2.log" 2>&1
holds "--all fails with a liar" [ $? -eq 1 ]
holds "--all says how many failed" [ "$(tail -n 1 "$out/all2.log")" = "Result: FAILED, 3 of 3 runs" ]

# Wrong use is refused, and help is given, before anything is built: a kit and a cargo that tell when they are called
mkdir "$out/tools"
for tool in rt cargo; do printf '#!/bin/sh\ntouch "%s"\n' "$PWD/$out/built" >"$out/tools/$tool"; chmod +x "$out/tools/$tool"; done
refused() { PATH=$PWD/$out/tools:$PATH scripts/ramp.sh "$@" >"$out/refused.log" 2>&1; [ $? -eq 2 ] && grep -q "^ramp.sh: .*$1" "$out/refused.log"; }
holds "an unknown option is refused" refused --frob 3
holds "a word is refused" refused word
holds "L of 13 is refused" refused --bits 13
holds "a rate of 0 is refused" refused --rate 0
holds "a missing value is refused" refused --minutes
holds "a seed of letters is refused" refused --seed x
holds "a missing folder is refused" refused --report no/such/folder/r.txt
holds "--all with one L is refused" refused --bits 12 --all
PATH=$PWD/$out/tools:$PATH scripts/ramp.sh --help >"$out/help.log" 2>&1
holds "--help is answered" [ $? -eq 0 -a "$(grep -c -- --patience "$out/help.log")" -ge 1 ]
holds "nothing was built for these" [ ! -e "$out/built" ]

echo "$passed passed, $failed failed"
[ "$failed" -eq 0 ]
