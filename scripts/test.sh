#!/usr/bin/env bash
# test.sh: sets up and runs every test there is. Each suite ends in a line 'N passed, M failed', and so does the whole.
#
# First all proofs and the wrong versions that the prover must refuse (rt ci, which proves from nothing all that it hasn't passed on this
# machine yet); then each tests/*.sh. Suites run side by side where they need nothing of each other; what one printed comes whole, once it
# ended. Takes about half an hour on two processors. All that was printed stays in target/test.log, of which scripts/times.sh makes the table of times.
# Exit status: 0 all passed, 1 something failed, 2 a wrong call.
set -u
. "$(dirname "$(readlink -f "$0")")/help.sh"
help_asked "$@"
takes_nothing "$@"
cd "$(dirname "$(readlink -f "$0")")/.."
exec 9<scripts/test.sh
flock -n 9 || { echo "test.sh: the tests are running in this folder already"; echo "0 passed, 1 failed"; exit 1; }
work=$(mktemp -d)
trap 'rm -rf "$work"' EXIT
jobs=$(nproc)
passed=0
failed=0
SECONDS=0

# run NAME COMMAND..: runs a suite, and leaves what it printed, how it ended and how long it took
run() {
  local name=$1 began=$SECONDS
  shift
  "$@" 2>&1 | tee "$work/$name.log"
  echo "${PIPESTATUS[0]}" >"$work/$name.status"
  echo "-- $name took $((SECONDS - began)) s" >"$work/$name.took"
}

# count NAME: adds up an ended suite's last line; a suite that broke off counts as one failure
count() {
  local name=$1 last status
  status=$(cat "$work/$name.status")
  last=$(tail -n 1 "$work/$name.log")
  if [[ $last =~ ^([0-9]+)\ passed,\ ([0-9]+)\ failed(\ .*)?$ ]]; then
    passed=$((passed + BASH_REMATCH[1]))
    failed=$((failed + BASH_REMATCH[2]))
    [ "$status" -eq 0 ] || [ "${BASH_REMATCH[2]}" -gt 0 ] || failed=$((failed + 1))
  else
    echo "$name broke off"
    failed=$((failed + 1))
  fi
  cat "$work/$name.took"
}

# Suites in the background, at most as many as there are processors; `ended` shows and counts those that have ended
waiting=()
behind() { run "$1" "$2" >/dev/null 9<&- & waiting+=("$1"); }
ended() {
  local name left=()
  for name in "${waiting[@]}"; do
    if [ -f "$work/$name.took" ]; then echo "== $name"; cat "$work/$name.log"; count "$name"; else left+=("$name"); fi
  done
  waiting=("${left[@]}")
}

# proofs: the kit's gate, on the files as they stand here. A wrong version that can't be tried shows nothing, which the kit only notes: it fails
# here. What passed is noted for the scripts that build: the programs that rt ci made are those of these files.
proofs() {
  local name sources before ended
  . scripts/kit.sh
  . scripts/built.sh
  before=$sources
  rt ci 2>&1 | told
  ended=("${PIPESTATUS[@]}")
  [ "${ended[0]}" = 0 ] || return 1
  . scripts/built.sh
  if [ "$sources" = "$before" ]; then
    for name in crates/*/src/main.rt; do
      name=$(basename "${name%/src/main.rt}")
      note "crates/$name/out/$name"
    done
  fi
  return "${ended[1]}"
}

# told: what rt ci says, as it comes, with the time behind each crate that is done; fails where it says of wrong versions that they are bad,
# or doesn't say that all is well
told() {
  local line began=$SECONDS well=1
  while IFS= read -r line; do
    printf '%s\n' "$line"
    if [[ $line =~ ^rt:\ ([a-z0-9_]+)\ (proved|is\ kept:.*)$ ]]; then echo "-- ${BASH_REMATCH[1]} was there at $((SECONDS - began)) s"; fi
    if [[ $line == 'rt: ok;'* ]]; then
      well=0
      if [[ $line =~ ,\ ([1-9][0-9]*)\ bad ]]; then well=1 && echo "proofs: wrong versions that can't be tried: ${BASH_REMATCH[1]}"; fi
    fi
  done
  return $well
}

all() {
  scripts/setup.sh || { echo "0 passed, 1 failed"; return 1; }

  # The Rust side needs nothing of the proofs
  behind rust tests/rust.sh
  echo "== proofs"
  run proofs proofs
  count proofs
  while [ ${#waiting[@]} -gt 0 ]; do wait -n; ended; done

  # What several suites build is built once; where that fails they say so. Then all other suites, the long ones first
  run builds scripts/build.sh >/dev/null
  cat "$work/builds.took"
  local name t
  local -A begun=([rust]=yes)
  for t in tests/property.sh tests/ramp.sh tests/*.sh; do
    name=$(basename "$t" .sh)
    if [ "${begun[$name]:-no}" = yes ]; then continue; fi
    begun[$name]=yes
    while [ ${#waiting[@]} -ge "$jobs" ]; do wait -n; ended; done
    behind "$name" "$t"
  done
  while [ ${#waiting[@]} -gt 0 ]; do wait -n; ended; done

  echo "-- all took $SECONDS s"
  echo "$passed passed, $failed failed"
  [ "$failed" -eq 0 ]
}

all > >(tee "$work/test.log")
status=$?
wait
mkdir -p target
cp "$work/test.log" target/test.log
exit $status
