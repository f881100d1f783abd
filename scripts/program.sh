# Sourced by lister and replay behind help.sh: runs the built program of the script's name on files, and gives it the exit status that it
# has none of, as it always ends with 0. A program says on standard error what failed, in one line, and nothing else ever: what comes there is a failure.
program=crates/$script/out/$script
files=()
failed=0
trap '' PIPE # a closed pipe is a failed write then, which the program tells

# fails WHY: a line on standard error, and status 1 in the end
fails() { failed=1; echo "$script: $1" >&2; }

# take_files WORD..: the files among the words; -- ends the options, of which there are none
take_files() {
  while [ $# -gt 0 ]; do
    case $1 in
    --) shift && files+=("$@") && return ;;
    -?*) refuse "no option $1" ;;
    *) files+=("$1") && shift ;;
    esac
  done
}

# can_run BUILDER: ends the script where the program isn't built, naming what builds it, or where its answers have nowhere to go
can_run() {
  if [ ! -x "$here/../$program" ]; then fails "$program isn't built; $1"; fi
  if ! { : 3>&1; } 2>/dev/null; then fails "standard output is closed"; fi
  [ "$failed" = 0 ] || exit 1
}

# stop SIGNAL: ends the program, if it runs, and this script by the signal that came
stop() { kill "${!:-}" 2>/dev/null || true; trap - "$1"; kill -s "$1" $$; }

# run IN FILE: runs the program on the open file IN; its answers go straight out, and what it says is told, with the file's name if any.
# Where it was killed, or answers can't be written, there is nothing more to do.
run() {
  local said='' status=0 answers errors signal
  for signal in INT TERM HUP; do trap "stop $signal" $signal; done
  exec {answers}>&1
  exec {errors}< <(exec "$here/../$program" 2>&1 >&"$answers" <&"$1" {answers}>&-)
  IFS= read -r -d '' said <&"$errors" || true
  wait $! || status=$?
  exec {answers}>&- {errors}<&-
  said=${said%$'\n'}
  if [ -n "$said" ]; then fails "${2:+$2: }${said#"$script: "}"; fi
  if [ "$status" -ge 128 ]; then
    fails "${2:+$2: }ended by signal $((status - 128)) ($(kill -l "$status")): its answers aren't whole"
  elif [ "$status" -gt 0 ] && [ -z "$said" ]; then
    fails "${2:+$2: }ended with status $status"
  fi
  if [ "$status" -ge 128 ] || [[ $said == *'; writing failed,'* ]]; then exit 1; fi
}

# run_file FILE: runs the program on a file, - being standard input
run_file() {
  local opened why
  if [ "$1" = - ]; then
    if { : 3<&0; } 2>/dev/null; then run 0 ''; else fails "standard input is closed"; fi
  elif { exec {opened}<"$1"; } 2>/dev/null; then
    run "$opened" "$1"
    exec {opened}<&-
  else
    why=$({ : <"$1"; } 2>&1 || true)
    fails "${1:-''}: ${why##*: }"
  fi
}

# run_files: runs it on each, or on standard input where none is named
run_files() {
  local file
  [ ${#files[@]} -gt 0 ] || files=(-)
  for file in "${files[@]}"; do run_file "$file"; done
  exit "$failed"
}
