#!/usr/bin/env bash
# Document 01's bench sheet as requests One and Three to Six left it, played call by call on the proved engines by replay: the cases of
# tests/calls/, a bearer that rested, sizes, room, the sum of what waits, marks, and what docs/LIMITS.md says among them, 163 and 256 listed
# runs, half a circle of packets, a full ledger, also of the largest PDUs, and a hundred rests.
set -u
cd "$(dirname "$0")/.."
passed=0
failed=0
[ -x crates/replay/out/replay ] || scripts/native.sh replay >/dev/null
work=$(mktemp -d)
trap 'rm -rf "$work"' EXIT

# play NAME: plays the calls of $work/calls, lines 'call = answer', and holds the answers to what they should be
play() {
  sed -e 's/ = .*//' -e 's/ /\t/g' "$work/calls" >"$work/in"
  sed -e 's/.* = //' -e 's/ /\t/g' "$work/calls" >"$work/wanted"
  ${REPLAY:-scripts/replay} <"$work/in" >"$work/out"
  if [ -s "$work/in" ] && cmp -s "$work/wanted" "$work/out"; then
    passed=$((passed + 1))
  else
    failed=$((failed + 1))
    echo "bench sheet: $1: not what was wanted (left: wanted)"
    diff "$work/wanted" "$work/out" | head -n 6
  fi
  : >"$work/calls"
}

# entries FATE SIZE NUMBER..: entries of one fate and size as `ledger` lists them, each with its number as its PDCP number
entries() {
  local like="$1:$2" n
  shift 2
  for n; do echo "$n:$n:$like"; done | paste -sd ,
}

# the cases of each file, each behind its heading
name=
: >"$work/calls"
while IFS= read -r line; do
  case $line in
  '') [ ! -s "$work/calls" ] || play "$name" ;;
  '#'*) name=${line#\# } ;;
  *) printf '%s\n' "$line" >>"$work/calls" ;;
  esac
done < <(for file in tests/calls/*.txt; do cat "$file" && echo; done)

# 163 listed runs: every second packet is missing, and all that came is confirmed. A status carries 162 and holds the highest
# back before the run that it leaves out; with Final it is refused; the master frees what it may; the next status has the rest
{
  echo "open 15 0 0 = ok"
  for p in $(seq 0 326); do echo "send $p $((p + 1)) = sent $p"; done
  for p in $(seq 0 2 326); do echo "arrive $p $p = lost $((p > 256))"; done
  echo "expire 326 = lost 128"
  for p in $(seq 0 2 326); do echo "confirm $p = ok"; done
  ranges=$(for p in $(seq 1 2 323); do printf '%04x%04x' "$p" "$p"; done)
  echo "status 7 6 1 1018 = refused 22"
  echo "status 7 6 0 661 = refused 20"
  echo "status 7 6 0 662 = frame 1101440000000700000006a2${ranges}0000"
  echo "keeper = keeper 327 324 0 325-325 326:326:1"
  echo "accept 1101440000000700000006a2${ranges}0000 = freed 163 lost 162 final 0"
  echo "room = room 0"
  echo "status 7 6 1 18 = frame 130146000000070000000601014501450000"
  echo "keeper = keeper 327 326 1 none none"
  echo "accept 130146000000070000000601014501450000 = freed 1 lost 1 final 1"
  echo "room = room 7"
  for p in $(seq 1 2 325); do echo "take = taken $p $p $((p + 1))"; done
  echo "take = refused 38"
} >"$work/calls"
play "163 listed runs"

# 256 listed runs, the most there are, and three gaps behind them: 14 comes after 9, 10, 19 and 17, and counts no run past the mark. A status
# makes room, first for the gap before the mark, then for the others
{
  echo "open 12 65500 0 = ok"
  for i in $(seq 1 2 509); do echo "arrive $(((65500 + i) % 65536)) $i = lost $((i > 256))"; done
  echo "expire 473 = lost 128"
  for n in 475 477 479; do echo "arrive $n $n = lost 0"; done
  printf '%s\n' "expire 475 = lost 1" "expire 477 = refused 14" "expire 478 = refused 14" "expire 479 = refused 14"
  printf '%s\n' "expire 476 = refused 17" "expire 475 = refused 17" "expire 480 = refused 19" "expire 65536 = refused 10"
  ranges=$(for i in $(seq 0 2 322); do printf '%04x%04x' $(((65500 + i) % 65536)) $(((65500 + i) % 65536)); done)
  echo "status 7 6 0 1018 = frame 110fff0000000700000006a2${ranges}0000"
  printf '%s\n' "expire 476 = refused 17" "expire 477 = lost 1" "expire 477 = refused 17" "expire 479 = lost 1" "expire 479 = refused 17" "expire 480 = refused 19"
} >"$work/calls"
play "256 listed runs"

# Half a circle of packets, in batches of 256: each is sent, arrives, is confirmed, reported and freed. Then 32768 were sent, and base is the
# next. A copy of packet 0 has 32767 sent after it, fewer than M/2, so demand 3 allows it: it lies opposite base, and one of packet 1 behind
# it. A mark that was kept since packet 0 lies before base too, and one packet later ahead of it. After one more send demand 3 allows no copy of
# packet 0; one that comes all the same is taken for a packet to come, numbers that were never sent are given up, and the master refuses the
# status that says so (docs/LIMITS.md)
awk 'BEGIN {
  print "open 15 0 0 = ok"
  for (p = 0; p < 32768; p += 256) {
    for (i = p; i < p + 256; i++) printf "send %d %d = sent %d\narrive %d %d = lost 0\nconfirm %d = ok\n", i, 1 + i % 16384, i, i, i, i
    frame = sprintf("10%04x0000000700000006000000", i - 1)
    printf "room = room 0\nstatus 7 6 0 14 = frame %s\naccept %s = freed 256 lost 0 final 0\nroom = room 7\n", frame, frame
  }
  print "keeper = keeper 32768 32767 0 none none"
  print "ledger = ledger 32768 32767 32767 0 7 6 0 none"
  print "arrive 0 0 = refused 18"
  print "arrive 1 1 = refused 11"
  print "expire 0 = refused 17"
  print "send 0 6 = sent 32768\nroom = room 1\narrive 32768 0 = lost 0\nexpire 0 = refused 19\nconfirm 32768 = ok"
  print "status 7 6 0 14 = frame 1000000000000700000006000000\naccept 1000000000000700000006000000 = freed 1 lost 0 final 0"
  print "arrive 0 0 = lost 32512"
  print "status 7 6 0 18 = frame 1100000000000700000006018001ff000000\naccept 1100000000000700000006018001ff000000 = refused 33"
}' >"$work/calls"
play "half a circle of packets"

# A full ledger: the number is judged first, then the PDCP order, then the room. Where a burst dropped all of it nothing arrives behind it: nothing is
# given up, and no status frees anything (docs/LIMITS.md). With all of it lost and nothing waiting the order is the same
{
  echo "open 15 0 0 = ok"
  for p in $(seq 0 511); do echo "send $p 1 = sent $p"; done
  printf '%s\n' "send 32768 0 = refused 10" "send 511 1 = refused 35" "send 16384 1 = refused 35" "send 32767 1 = refused 35" "send 16383 1 = refused 36"
  printf '%s\n' "send 511 0 = refused 39" "send 16383 0 = refused 39" "send 16383 16385 = refused 39" "send 16383 16384 = refused 36"
  printf '%s\n' "expire 0 = refused 19" "expire 511 = refused 19" "expire 65535 = refused 17"
  echo "status 7 6 0 14 = frame 107fff0000000700000006000000"
  echo "accept 107fff0000000700000006000000 = freed 0 lost 0 final 0"
  echo "send 16383 1 = refused 36"
  echo "ledger = ledger 512 32767 511 0 7 6 512 $(entries w 1 $(seq 0 511))"
  echo "accept 117fff000000070000000601000001ff0000 = freed 0 lost 512 final 0"
  echo "ledger = ledger 512 32767 511 0 7 6 0 $(entries l 1 $(seq 0 511))"
  printf '%s\n' "send 32768 1 = refused 10" "send 32767 1 = refused 35" "send 16384 1 = refused 36" "send 16384 0 = refused 39"
  printf '%s\n' "room = room 7" "take = taken 0 0 1" "room = room 7" "send 16384 6 = sent 512" "room = room 1"
} >"$work/calls"
play "a full ledger"

# A full ledger of the largest PDUs, 8,388,608 octets: one less desired than waits, as much, one more, and the most; with every second one lost;
# with all but the last freed; and once a Final has closed it, what it gives out. The sum without the last send and with it, and of the closed end
{
  echo "open 15 0 0 = ok"
  for p in $(seq 0 510); do echo "send $p 16384 = sent $p"; done
  echo "ledger = ledger 511 32767 510 0 0 0 8372224 $(entries w 16384 $(seq 0 510))"
  echo "send 511 16384 = sent 511"
  echo "send 512 1 = refused 36"
  echo "ledger = ledger 512 32767 511 0 0 0 8388608 $(entries w 16384 $(seq 0 511))"
  for case in 7fffff=0 800000=0 800001=1; do echo "accept 107fff00${case%=*}00000006000000 = freed 0 lost 0 final 0"; echo "room = room ${case#*=}"; done
  echo "accept 107fffffffffff00000006000000 = freed 0 lost 0 final 0"
  echo "room = room 4286578687"
  ranges=$(for p in $(seq 0 2 322); do printf '%04x%04x' "$p" "$p"; done)
  echo "accept 117fffffffffff00000006a2${ranges}0000 = freed 0 lost 162 final 0"
  echo "room = room $((4286578687 + 162 * 16384))"
  echo "accept 1001fe0000400100000006000000 = freed 349 lost 0 final 0"
  echo "room = room 1"
  echo "accept 1201fe0000400000000006000000 = freed 0 lost 0 final 1"
  echo "room = room 0"
  echo "ledger = ledger 512 510 511 1 16384 6 16384 $(entries l 16384 $(seq 0 2 322)),$(entries w 16384 511)"
  for p in $(seq 0 2 322); do printf '%s\n' "take = taken $p $p 16384" "room = room 0"; done
  echo "ledger = ledger 512 510 511 1 16384 6 16384 $(entries w 16384 511)"
  printf '%s\n' "take = taken 511 511 16384" "room = room 16384" "take = refused 38" "room = room 16384"
  echo "ledger = ledger 512 510 511 1 16384 6 0 none"
} >"$work/calls"
play "a full ledger of the largest PDUs"

# The same, and one frame frees all of it
{
  echo "open 15 0 0 = ok"
  for p in $(seq 0 511); do echo "send $p 16384 = sent $p"; done
  echo "accept 1001ff0000000000000006000000 = freed 512 lost 0 final 0"
  echo "ledger = ledger 512 511 511 0 0 6 0 none"
  echo "room = room 0"
} >"$work/calls"
play "the largest PDUs, freed at once"

# A bearer that rests a hundred times: before each pair of packets over X2 a part of the PDCP circle goes over the master alone, from none of
# it to nearly twice around. The first of the pair is lost, reported, and left with the master. What bears H is refused, and goes there too
for bits in 12 15 18; do
  awk -v bits=$bits 'BEGIN {
    size = 2 ^ bits; m = bits == 18 ? 2 ^ 24 : 2 ^ 16
    frame = bits == 18 ? "21%06x000000070000000601%06x%06x000000" : "11%04x000000070000000601%04x%04x0000"
    n = m - 41; highest = size - 1; p = 0; lost = ""
    printf "open %d %d 0 = ok\n", bits, n
    for (i = 0; i < 100; i++) {
      z = 1 + n % 16384
      if (p == highest) { printf "send %d %d = refused 35\n", p, z; p = (p + 1) % size }
      printf "send %d %d = sent %d\nsend %d %d = refused 35\nsend %d %d = refused 35\n", p, z, n, p, z, (p + size / 2) % size, z
      lost = lost n ":" p ":l:" z; first = n; n = (n + 1) % m; p = (p + 1) % size
      if (p == highest) { printf "send %d 1 = refused 35\n", p; p = (p + 1) % size }
      printf "send %d 1 = sent %d\narrive %d %d = lost 0\nexpire %d = lost 1\nconfirm %d = ok\n", p, n, n, p, n, n
      printf "status 7 6 0 1018 = frame " frame "\naccept " frame " = freed 1 lost 1 final 0\nroom = room 7\n", p, first, first, p, first, first
      highest = p; n = (n + 1) % m
      printf "ledger = ledger %d %d %d 0 7 6 0 %s\n", n, highest, highest, lost
      lost = lost ","
      rest = i % 10 == 4 ? size - 2 : i % 10 == 9 ? size - 1 : int(i * size / 51)
      p = (p + 1 + rest) % size
    }
  }' >"$work/calls"
  play "a hundred rests, L $bits"
done

echo "$passed passed, $failed failed"
[ "$failed" -eq 0 ]
