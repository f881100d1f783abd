#!/usr/bin/env bash
# The lister on document 01's sample and the frames of its bench sheet, and on input that it must survive.
set -u
shopt -s lastpipe # so that a pipe's last command counts in this shell
cd "$(dirname "$0")/.."
passed=0
failed=0

# is NAME WANTED: holds standard input to what is wanted, to the octet
is() {
  if cmp -s <(printf '%b' "$2") -; then
    passed=$((passed + 1))
  else
    failed=$((failed + 1))
    echo "lister: $1: not what was wanted"
  fi
}

lister() { scripts/lister; }

[ -x crates/lister/out/lister ] || scripts/native.sh lister >/dev/null

# document 01's sample, and the bench sheet's frames
printf '001234000000\n110078000100000000100001000700090000\n400000000000\n' | lister | is sample '0\t4660\n1\t120\t65536\t4096\t0\t7-9\nrefused\t2\n'
printf '30000ABCD000\n' | lister | is 'odd letters are digits' '3\t2748\n'
printf '3000abcd0000\n' | lister | is 'type 3, 43981' '3\t43981\n'
printf '2203ffff00000000000000000000\n' | lister | is 'type 2, Final, no list' '2\t262143\t0\t0\t1\tnone\n'
printf '\n0000000000000000\n' | lister | is 'no octets; 8 octets' 'refused\t1\nrefused\t1\n'
printf '10000000000000000000\n1100000000000000000000010000\n110000000000000000000001\n' | lister | is 'type 1 of length 10; 14 with count 1; 12' 'refused\t3\nrefused\t6\nrefused\t1\n'
printf '110000000000000000000000000000000000\n' | lister | is 'count 0' 'refused\t5\n'
printf '108000000000000000000000000000\n1080000000000000000000000000\n' | lister | is 'highest 32768' 'refused\t1\nrefused\t4\n'
printf '1d0001000000020000000302ffff000100030003000000000000\n' | lister | is 'spare bits, two ranges, an extension' '1\t1\t2\t3\t0\t65535-1,3-3\n'

# what is no frame
printf '0012340000\r\n 001234000000\n00123400000\n0g\n' | lister | is 'unreadable lines' 'unreadable\nunreadable\nunreadable\nunreadable\n'
printf '001234000000' | lister | is 'no last line end' '0\t4660\n'
printf '' | lister | is 'no input' ''
printf '\n\n\n' | lister | is 'line ends alone' 'refused\t1\nrefused\t1\nrefused\t1\n'
printf '0%.0s' $(seq 2036) | lister | is '2,036 digits' '0\t0\n'
printf '0%.0s' $(seq 2038) | lister | is '2,038 digits' 'unreadable\n'
{ head -c 3000000 /dev/zero | tr '\0' 'a'; printf '\n001234000000\n'; head -c 2000000 /dev/zero; } | lister | is 'lines of megabytes' 'unreadable\n0\t4660\nunreadable\n'

# 2,000 lines over several blocks
want=$(for _ in $(seq 1000); do printf '0\\t4660\\n1\\t120\\t65536\\t4096\\t0\\t7-9\\n'; done)
for _ in $(seq 1000); do printf '001234000000\n110078000100000000100001000700090000\n'; done | lister | is 'many blocks' "$want"

# garbage: an answer a line, and nothing else
garbage=$(mktemp)
lines=$(head -c 300000 /dev/urandom | tee "$garbage" | lister | wc -l)
ends=$(tr -cd '\n' <"$garbage" | wc -c)
[ "$(tail -c 1 "$garbage" | od -An -tx1 | tr -d ' ')" = 0a ] || ends=$((ends + 1))
rm -f "$garbage"
if [ "$lines" = "$ends" ]; then passed=$((passed + 1)); else failed=$((failed + 1)); echo "lister: garbage: $lines answers to $ends lines"; fi

echo "$passed passed, $failed failed"
[ "$failed" -eq 0 ]
