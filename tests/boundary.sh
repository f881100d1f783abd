#!/usr/bin/env bash
# The C boundary: include/x2u.h says what the code says, and the C example and the hostile calls run against the archive for x86-64,
# by themselves and with C checked; that for aarch64 is built.
set -u
cd "$(dirname "$0")/.."
passed=0
failed=0
work=$(mktemp -d)
trap 'rm -rf "$work"' EXIT

# check NAME COMMAND..: one counted check, which shows what the command said where it fails
check() {
  local name=$1
  shift
  if "$@" >"$work/said" 2>&1; then passed=$((passed + 1)); echo "PASS  $name"; else failed=$((failed + 1)); echo "FAIL  $name"; head -n 20 "$work/said"; fi
}

# program NAME COMMAND..: a program that prints its own checks, a line each; one that breaks off counts as a failure
program() {
  local name=$1 good bad status
  shift
  "$@" >"$work/said" 2>&1
  status=$?
  good=$(grep -c '^PASS' "$work/said")
  bad=$(grep -c '^FAIL' "$work/said")
  if [ "$bad" -eq 0 ] && { [ "$status" -ne 0 ] || [ "$good" -eq 0 ]; }; then bad=1; fi
  if [ "$bad" -eq 0 ]; then echo "PASS  $name: $good checks"; else echo "FAIL  $name: $bad of its checks, status $status"; grep -v '^PASS' "$work/said" | head -n 30; fi
  passed=$((passed + good))
  failed=$((failed + bad))
}

# ---- the header says what the code says

# number CRATE WORDS: the number that the source's words say in a crate, which may name consts of this crate and of others
number() {
  local words=$2 name
  while [[ $words =~ ([a-z_]+::)?[A-Z][A-Z_]* ]]; do
    name=${BASH_REMATCH[0]}
    case $name in *::*) words=${words/$name/$(const "${name%::*}" "${name#*::}")} ;; *) words=${words/$name/$(const "$1" "$name")} ;; esac
  done
  echo $((${words% as *}))
}
const() { # CRATE NAME
  local words
  words=$(sed -n "s/^\(pub \)*const $2: [a-z0-9]* = \([^;]*\);.*/\2/p" crates/"$1"/src/*.rt)
  number "$1" "${words:?no const $2 in $1}"
}
# size CRATE TYPE: how many numbers an array of that name has, in the crate that declares it or one that it passes it on from
size() {
  local words from
  words=$(sed -n "s/^\(pub \)*type $2 = \([^;]*\(; [^;]*\)*\);\$/\2/p" crates/"$1"/src/*.rt)
  from=$(sed -n "s/^pub use \([a-z_]*\)::.*[{ ]$2[,};].*/\1/p" crates/"$1"/src/*.rt)
  case ${words:-${from:?no type $2 in $1}} in
  '[u32; '*']') words=${words#'[u32; '} && number "$1" "${words%]}" ;;
  *::*) size "${words%::*}" "${words#*::}" ;;
  "$from") size "$from" "$2" ;;
  *) size "$1" "$words" ;;
  esac
}

# stored STRUCT: where the source stores each field of a struct of the header, as C's words, by the arrays that it stores there; Final is
# `last` there, and the ranges are its count
stored() {
  tr '\n' ' ' <crates/c_calls/src/lib.rt | grep -o "\*$1 = \[[^]]*\]" | sed 's/.*\[ *//; s/,* *\]//' | while IFS= read -r fields; do
    local place=0 field
    for field in ${fields//,/ }; do
      field=${field##*.} field=${field%)}
      if [ "$field" != 0 ]; then
        case $field in last) field=final ;; count) field=ranges ;; esac
        echo "offsetof(x2u_$1, $field) == 4 * $place"
      fi
      place=$((place + 1))
    done
  done
}

# the exported functions of a crate's source, as C declares them
declared() {
  local text array lent of
  text=$(tr '\n' ' ' <crates/"$1"/src/lib.rt | grep -o '#\[unsafe(no_mangle)\] *pub extern "C" fn [a-z0-9_]*([^)]*) -> i64' |
    sed -E -e 's/[a-z]+: &mut (c_calls::)?FieldArray/x2u_fields */g' -e 's/[a-z]+: &mut (c_calls::)?CursorArray/x2u_cursor */g' -e 's/[a-z]+: &mut (c_calls::)?EndArray/x2u_range */g')
  while [[ $text =~ \&(mut\ )?(([a-z_]+)::)?([A-Z][A-Za-z]*) ]]; do
    array=${BASH_REMATCH[0]} lent=${BASH_REMATCH[1]:-const } of=${BASH_REMATCH[3]:-$1}
    text=${text/"$array"/"${lent#mut }[u32; $(size "$of" "${BASH_REMATCH[4]}")]"}
  done
  sed -e 's/.* fn \([a-z0-9_]*\)(\(.*\)) -> i64$/int64_t \1(\2);/' \
    -e 's/[a-z]*: \(const \)*\[u32; \([0-9]*\)\]/\1uint32_t[\2]/g' -e 's/[a-z]*: &\[u\([0-9]*\)\]/const uint\1_t *, size_t/g' \
    -e 's/[a-z]*: &mut \[u8\]/uint8_t *, size_t/g' -e 's/[a-z]*: u32/uint32_t/g' -e 's/, *);/);/' <<<"$text"
}
{ declared c_calls_c && declared c_frames; } >"$work/declared"
{ printf '#include "x2u.h"\n#ifdef __cplusplus\nextern "C" {\n#endif\n'; cat "$work/declared"; printf '#ifdef __cplusplus\n}\n#endif\n'; } >"$work/declared.c"
cp "$work/declared.c" "$work/declared.cc"
flags="-Iinclude -Wall -Wextra -Werror -pedantic"
check "x2u.h declares the functions as the source has them (C)" gcc -std=c99 $flags -fsyntax-only "$work/declared.c"
check "x2u.h declares the functions as the source has them (C++)" g++ -std=c++11 $flags -fsyntax-only "$work/declared.cc"
grep -o 'x2u_[a-z_]*(' "$work/declared" | sort >"$work/source"
sed -n 's/^int64_t \(x2u_[a-z_]*(\).*/\1/p' include/x2u.h | sort >"$work/header"
check "x2u.h declares no other function, and every one" diff "$work/source" "$work/header"
sed -n '/---- refusals/,/^};/s/^    X2U_\([A-Z_]*\) = \([0-9]*\),* .*/\1 \2/p' include/x2u.h | sort >"$work/named"
sed -n 's/^    \([A-Z][A-Za-z]*\) = \([0-9]*\),.*/\1 \2/p' crates/refusal/src/lib.rt | sed 's/\([a-z]\)\([A-Z]\)/\1_\2/g' | tr a-z A-Z | sort >"$work/refusals"
check "x2u.h names refusals as document 01's table does" sh -c '[ -s "$1" ] && [ -z "$(comm -23 "$1" "$2")" ]' sh "$work/named" "$work/refusals"

# each size of the header is the source's, and each field stands where the source stores it: a compiler that isn't told so doesn't compare
# the lengths of two parameters
{
  printf '#include "x2u.h"\n'
  n=0
  while read -r words; do n=$((n + 1)) && printf 'extern char same_%s[%s ? 1 : -1];\n' "$n" "$words"; done <<END
X2U_MOST_OCTETS == $(const frame_layout MOST_OCTETS)
X2U_MOST_RANGES == $(size frame_layout RangeArray)
X2U_MOST_RECORDS == $(size keeper_state RecordArray)
X2U_MOST_RUNS == $(size keeper_state RunArray)
X2U_WORDS == $(size keeper_state WordArray)
X2U_KEEPER == 3 * $(size keeper_state RecordArray) + 2 * $(size keeper_state RunArray) + $(size keeper_state WordArray)
sizeof(x2u_cursor) == 4 * $(size c_calls CursorArray)
sizeof(x2u_fields) == 4 * $(size c_calls FieldArray) && $(size c_calls FieldArray) == $(stored fields | wc -l)
sizeof(x2u_range) == 4 * $(size c_calls EndArray) && $(size c_calls EndArray) == $(stored range | wc -l)
$(stored fields)
$(stored range)
END
} >"$work/sizes.c"
check "x2u.h has the sizes and places of the source" gcc -std=c99 $flags -fsyntax-only "$work/sizes.c"

# the header by itself, for processors that there is an archive for and for some that there is none for; clang takes gcc's own headers
printf '#include "x2u.h"\n' >"$work/only.c"
alone() { "$@" -Iinclude -ffreestanding -nostdinc -isystem "$(gcc -print-file-name=include)" -fsyntax-only -x c "$work/only.c"; } # COMPILER..
refuses() { ! alone "$@" && grep -q 'error: .*x2u.h: size_t is to be 64 bits wide' "$work/said"; }                              # COMPILER..
. scripts/kit.sh
clang=$tools/clang
for target in x86_64 aarch64; do check "x2u.h compiles for $target" alone "$clang" --target=$target-unknown-linux-gnu; done
for target in i386-unknown-linux-gnu x86_64-unknown-linux-gnux32 armv7-unknown-linux-gnueabihf; do
  check "x2u.h refuses $target" refuses "$clang" --target=$target
done
if command -v x86_64-linux-gnu-gcc >"$work/said"; then
  for width in -m32 -mx32; do check "x2u.h refuses gcc $width" refuses x86_64-linux-gnu-gcc $width; done
fi

# the version, by its two names
newest=$(sed -n 's/^## \([0-9]*\)\.\([0-9]*\)\.\([0-9]*\)\( .*\)*$/\1 \2 \3/p' CHANGELOG.md | head -n 1)
read -r major minor patch <<<"${newest:-0 0 0}"
check "x2u.h has the newest version of CHANGELOG.md" grep -q "^#define X2U_VERSION $((major * 10000 + minor * 100 + patch)) /\* $major\.$minor\.$patch," include/x2u.h

# the example at the head of the header, as a program
sed -n '1,/\*\/$/{s/^ \*     //p;}' include/x2u.h | grep -v '^gcc ' >"$work/example.c"
cp "$work/example.c" "$work/example.cc"
check "x2u.h's example compiles (C)" gcc -std=c99 $flags -fsyntax-only "$work/example.c"
check "x2u.h's example compiles (C++)" g++ -std=c++11 $flags -fsyntax-only "$work/example.cc"

# ---- the archives: that for x86-64, which is this machine's own, and that for aarch64

. scripts/target.sh
for target in $targets native; do
  check "the archive for $target is built" scripts/archive.sh $target
  nm -g --defined-only target/$target/libx2u.a | sed -n 's/.* T \(.*\)/\1(/p' | sort >"$work/symbols"
  check "target/$target/libx2u.a has these functions, each once" diff "$work/source" "$work/symbols"
  readelf -h target/$target/libx2u.a | awk '/Machine:/ {print tolower($NF)}' | sort -u >"$work/machines"
  check "target/$target/libx2u.a is for that processor" diff "$work/machines" <(echo "${target/native/$own}")
done

for source in examples/secondary.c tests/hostile.c; do
  name=$(basename "$source" .c)
  check "$name compiles for x86-64" gcc -std=c11 -O2 $flags "$source" target/x86-64/libx2u.a -o "$work/$name.x86-64"
  program "$name on x86-64" "$work/$name.x86-64"
  check "$name compiles for this processor, C checked" gcc -std=c11 -O1 -g $flags -fsanitize=address,undefined -fno-sanitize-recover=all "$source" target/native/libx2u.a -o "$work/$name"
  program "$name on this processor, C checked" "$work/$name"
done
check "x2u.h's example is linked" gcc -std=c99 $flags "$work/example.c" target/native/libx2u.a -o "$work/example"
check "x2u.h's example runs" "$work/example"
seed=$(od -An -N4 -tu4 /dev/urandom | tr -d ' ')
program "hostile on this processor, seed $seed" "$work/hostile" "$seed"

echo "$passed passed, $failed failed"
[ "$failed" -eq 0 ]
