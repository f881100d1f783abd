#!/usr/bin/env bash
# ramp.sh [OPTION..]: the ramp soak, the eleven minutes between cold and hot on one bearer, at 2,000 packets a second with L = 12,
# played on the proved replay beside the independent Rust one. Prints a report to be signed, and leaves it and a chart in target/ramp.
#
#     scripts/ramp.sh [--bits 12|15|18] [--seed N] [--rate N] [--minutes N] [--patience SECONDS]
#                     [--report FILE] [--chart FILE] [--force]
#     scripts/ramp.sh --all [--seeds N,N,..] [--rate N] [--minutes N] [--patience SECONDS]
#
#     --rate N            packets a second asked for, 100 to 100000 (2000); troubles are counted in packets, so with fewer they'd last minutes
#     --minutes N         how long, in simulated time, at most 1000 (11)
#     --seed N            where chance begins (1)
#     --patience SECONDS  a program that neither reads nor answers for so long fails the ramp (60)
#     --report FILE, --chart FILE
#                         where they go, from where you stand, in place of target/ramp/ramp-DATE-L12-seed1.txt and .svg
#     --force             lets them overwrite a file; nothing else is ever overwritten
#     --all               plays L = 12, 15 and 18 with each seed (--seeds 1,2,3) and ends with one table, which is saved too
#
# Time is simulated: a ramp takes 1 to 2 seconds and --all about 15. The first one proves and builds replay before, which takes minutes.
#
# REPLAY names another program to be tested, from where you stand. REPLAY=scripts/replay is the shipped build, by its command.
#
# Exit status: 0 passed, 1 failed, 2 wrong use, 3 passed, but fewer packets a second were sent than were asked for.
set -eu
. "$(dirname "$(readlink -f "$0")")/help.sh"
help_asked "$@"
root=$(cd "$(dirname "$(readlink -f "$0")")/.." && pwd -P) # without links, as git and readlink have it

# fits OPTION VALUE: whether it can have that value; wants says which it can
fits() {
  case $1 in
    --bits) wants="12, 15 or 18" && [[ $2 =~ ^(12|15|18)$ ]] ;;
    --rate) wants="100 to 100000" && [[ $2 =~ ^[1-9][0-9]{0,5}$ ]] && [ "$2" -ge 100 ] && [ "$2" -le 100000 ] ;;
    --minutes) wants="a second (0.017) to 1000" && [[ $2 =~ ^[0-9]{1,4}(\.[0-9]{1,9})?$ ]] && awk -v m="$2" 'BEGIN { exit !(m * 60 >= 1 && m <= 1000) }' >/dev/null ;;
    --seed) wants="a number of at most 19 digits" && [[ $2 =~ ^[0-9]{1,19}$ ]] ;;
    --seeds) wants="numbers of at most 19 digits, parted by commas" && [[ $2 =~ ^[0-9]{1,19}(,[0-9]{1,19})*$ ]] ;;
    --patience) wants="1 to 86400 seconds" && [[ $2 =~ ^[1-9][0-9]{0,4}$ ]] && [ "$2" -le 86400 ] ;;
    --report | --chart) wants="a file's name" && [ -n "$2" ] ;;
  esac
}

# here PATH: as a user would type it where he stands, if it lies below, and else whole
here() { realpath -m -s --relative-to=. --relative-base=. "$1"; }

# Everything that can be refused is refused before anything is built; the program looks again.
declare -A given=()
words=("$@")
while [ $# -gt 0 ]; do
  case $1 in
    --all | --force) given[$1]=1 ;;
    --bits | --rate | --minutes | --seed | --seeds | --patience | --report | --chart)
      case ${2---} in --*) refuse "$1 needs a value" ;; esac
      fits "$1" "$2" || refuse "$1 can't be '$2': $wants"
      given[$1]=$2
      shift
      ;;
    *) refuse "there is no option $1" ;;
  esac
  shift
done
for option in --bits --seed --report --chart --force; do
  if [ -n "${given[--all]-}" ] && [ -n "${given[$option]-}" ]; then refuse "$option doesn't go with --all"; fi
done
if [ -n "${given[--seeds]-}" ] && [ -z "${given[--all]-}" ]; then refuse "--seeds goes with --all"; fi
if [ -n "${given[--report]-}" ] && [ "$(readlink -m -- "${given[--report]}")" = "$(readlink -m -- "${given[--chart]-/dev/null}")" ]; then
  refuse "--report and --chart are one file"
fi
for option in --report --chart; do
  file=${given[$option]-}
  [ -n "$file" ] || continue
  [ -d "$(dirname -- "$file")" ] || refuse "$option $file: there is no folder $(dirname -- "$file")"
  [ ! -e "$file" ] || [ -n "${given[--force]-}" ] || refuse "$option $file: it is there already; --force overwrites it"
done

# The program under test. Both builds of our own are made from the tree as it stands.
program=${REPLAY:-$(here "$root/target/native")/replay}
case $(readlink -m -- "$(command -v -- "$program" || echo "$program")") in
  "$root/scripts/replay") build=shipped hashed=$root/crates/replay/out/replay ;;
  "$(readlink -m "$root/target/native")/replay") build=native hashed=$root/target/native/replay ;;
  *) build=other hashed=$(command -v -- "$program" || true) ;;
esac
if [ -z "$hashed" ]; then refuse "REPLAY=$program: there is no such program"; fi
if [ $build != other ]; then
  [ -f "$root/target/native/replay" ] || echo "ramp.sh: replay is proved and built first, which takes some minutes" >&2
  "$root/scripts/native.sh" replay >/dev/null
fi
(cd "$root/rust" && cargo build -p soak --release --quiet) >&2

# What the report says of where it was made. What can't be had stays unknown.
kit=$(dirname "$(rt doc 2>/dev/null)" 2>/dev/null) || kit=
processor=$(lscpu 2>/dev/null | sed -n 's/^Model name: *//p' | head -n 1)
export RAMP_HOST="$(uname -n), ${processor:-processor unknown} ($(uname -m)), $(nproc) cores, $(uname -sr)"
export RAMP_KIT=$(head -n 1 "$kit/KIT-ID" 2>/dev/null || true)
clang=$("$kit/toolchain/bin/clang" --version 2>/dev/null | head -n 1 || true)
lld=$("$kit/toolchain/bin/ld.lld" --version 2>/dev/null | sed -n "1s/ (.*//p" || true)
export RAMP_COMPILERS="$(rustc --version 2>/dev/null || echo 'rustc unknown') for ramp and library, ${clang:-clang unknown} (the kit's) for replay, ${lld:-lld unknown} (the kit's) links it"
export RAMP_COMMIT= RAMP_BUILD=$build RAMP_HASH=
if [ "$(git -C "$root" rev-parse --show-toplevel 2>/dev/null)" = "$root" ]; then
  changed=$(git -C "$root" status --porcelain | wc -l)
  case $changed in 0) tree="the tree is clean" ;; *) tree="the tree is NOT clean: files changed or new: $changed" ;; esac
  RAMP_COMMIT="$(git -C "$root" rev-parse HEAD), $tree"
fi
if [ -f "$hashed" ]; then RAMP_HASH="$(sha256sum <"$hashed" | cut -d ' ' -f 1), of ${hashed#"$root/"}"; fi

mkdir -p "$root/target/ramp"
exec "$root/rust/target/release/ramp" "$program" --folder "$(here "$root/target/ramp")" ${words[@]+"${words[@]}"}
