#!/usr/bin/env bash
# archive.sh [TARGET]: the one archive that a program in C links, for a processor. Prints its path, as its only standard output.
#
# TARGET is one of these; without it, or as `native`, it is this machine's own:
#   x86-64    target/x86-64/libx2u.a, the shipped build
#   aarch64   target/aarch64/libx2u.a, of the same code compiled for 64-bit Arm
# So   gcc -Iinclude examples/secondary.c "$(scripts/archive.sh)" -o secondary && ./secondary
# Of this machine's own there is a copy in target/native.
#
# It proves the crates c_calls_c and c_frames by rt, joins their objects and checks the whole. The first time takes about 5 minutes; with
# nothing changed a second, and nothing is proved or built again. Says on standard error what it is doing.
# Exit status: 0 built, 1 not proved or not built, 2 a wrong call.
set -eu
. "$(dirname "$(readlink -f "$0")")/help.sh"
help_asked "$@"
cd "$(dirname "$(readlink -f "$0")")/.."
. scripts/target.sh
[ $# -le 1 ] || refuse "takes one target"
target=$(target_named "${1-native}")
. scripts/kit.sh
out=target/$target/libx2u.a
work=$(mktemp -d)
trap 'rm -rf "$work"' EXIT
broken() { echo "archive.sh: $1" >&2; exit 1; }

# objects_of CRATE: its objects, each named for its crate and its place there, so no two in the whole have one name
objects_of() {
  local part o n=0
  part=$(scripts/native.sh "$1" "$target")
  mkdir "$work/$1"
  (cd "$work/$1" && "$tools/llvm-ar" x "$part")
  for o in "$work/$1"/*; do n=$((n + 1)) && mv "$o" "$work/$1-$n.o"; done
  [ "$n" = "$("$tools/llvm-ar" t "$part" | wc -l)" ] || broken "two objects of $part have one name"
}
objects_of c_calls_c
objects_of c_frames
"$tools/llvm-ar" rcsD "$work/libx2u.a" "$work"/*.o # the kit's, since it makes an index of any processor's objects

# It defines each function of the header once and no other global symbol, and needs none from elsewhere
sed -n 's/^int64_t \(x2u_[a-z_]*\)(.*/\1/p' include/x2u.h | LC_ALL=C sort >"$work/header"
nm -g --defined-only "$work/libx2u.a" | sed -n 's/^[0-9a-f]* [A-Za-z] //p' | LC_ALL=C sort >"$work/defined"
nm -u "$work/libx2u.a" | sed -n 's/^ *[A-Za-z] //p' >"$work/undefined"
[ -s "$work/header" ] || broken "x2u.h declares nothing"
diff "$work/header" "$work/defined" >&2 || broken "the header's functions (<) and the archive's global symbols (>) are not the same"
[ ! -s "$work/undefined" ] || broken "the archive leaves undefined: $(tr '\n' ' ' <"$work/undefined")"

put "$work/libx2u.a" "$out"
if [ "$target" = "$own" ]; then native "$out"; fi
echo "$PWD/$out"
