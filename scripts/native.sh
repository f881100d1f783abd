#!/usr/bin/env bash
# native.sh NAME [TARGET]: proves a crate by rt, builds it for a processor, and prints the path of what it made.
#
# TARGET is x86-64 or aarch64; without it, or as `native`, it is this machine's own, of which target/native has copies.
#   a static library   target/TARGET/staticlib/libNAME.a
#   a program          target/TARGET/NAME, for this machine's own processor alone
# The first time takes as long as the proofs, up to some minutes; with nothing changed a second, and nothing is proved or built again.
# Exit status: 0 built, 1 not proved or not built (what rt said is shown), 2 a wrong call.
#
# What is shipped is for x86-64: a program is the kit's own crates/NAME/out/NAME, of which target/x86-64/NAME is a copy. The kit compiles a
# static library for either processor; its own place for it, crates/NAME/out/libNAME.a, has the one that was built last.
set -eu
. "$(dirname "$(readlink -f "$0")")/help.sh"
help_asked "$@"
cd "$(dirname "$(readlink -f "$0")")/.."
. scripts/target.sh
[ $# -ge 1 ] && [ $# -le 2 ] || refuse "takes the name of a crate and a target"
name=$1
target=$(target_named "${2:-native}")
[ -d "crates/$name/src" ] || refuse "no crate $name"
if [ -f "crates/$name/src/main.rt" ]; then
  [ "$target" = "$own" ] || refuse "a program is built for this machine's own processor alone, $own"
  made=target/$target/$name shipped=crates/$name/out/$name
else
  grep -qE "^$name +staticlib( |:|\$)" crates.txt || refuse "$name is neither a program nor, by crates.txt, a static library"
  made=target/$target/staticlib/lib$name.a shipped=crates/$name/out/lib$name.a
fi
. scripts/kit.sh
mkdir -p target "$(dirname "$made")"
# One build at a time: all of a crate's have one place
exec 8>target/native.lock
flock 8
. scripts/built.sh
broken() { echo "native.sh: $1" >&2; exit 1; }

# by_rt WORD..: has rt prove the crate and build it. A program is run by that too, on nothing
by_rt() {
  local log=target/$target/$name.log
  echo "native.sh: proving $name and building it (the first time, with what it stands on, up to some minutes)" >&2
  (cd "crates/$name" && rt "$@") </dev/null >"$log" 2>&1 8<&- || { cat "$log" >&2; broken "$name isn't proved or isn't built"; }
  [ -f "$shipped" ] || { cat "$log" >&2; broken "rt built no $shipped"; }
}

case $made in
*.a)
  if ! is_built "$made"; then
    # any processor of its kind, since an archive can't look which one it runs on
    case $target in
    x86-64) by_rt lib --target x86_64-unknown-linux-gnu --cpu x86-64 ;;
    *) by_rt lib --target "$target-unknown-linux-gnu" ;;
    esac
    put "$shipped" "$made"
    note "$made"
  fi
  ;;
*)
  # the kit's own is looked for, and not its copy: rt ci takes it away, and makes it only where all is proved
  if ! is_built "$shipped"; then
    by_rt run
    note "$shipped"
  fi
  put "$shipped" "$made"
  ;;
esac
if [ "$target" = "$own" ]; then native "$made"; fi
echo "$PWD/$made"
