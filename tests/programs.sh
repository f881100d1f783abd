#!/usr/bin/env bash
# The commands lister and replay as a user meets them: files and wrong words, what they say when reading or writing fails, and talking
# to them through two pipes. First with a stand-in for the program, whatever it does; then as they are.
set -u
root=$(cd "$(dirname "$0")/.." && pwd)
passed=0
failed=0
work=$(mktemp -d)
trap 'rm -rf "$work"' EXIT
for name in lister replay; do [ -x "$root/crates/$name/out/$name" ] || "$root/scripts/native.sh" "$name" >/dev/null; done
cd "$work" || exit 1

# ends STATUS WHAT COMMAND..: runs it, and holds its status to that one
ends() {
  local wanted=$1 status
  what=$2
  shift 2
  timeout 60 "$@" >out 2>err
  status=$?
  if [ "$status" = "$wanted" ]; then passed=$((passed + 1)) && return; fi
  failed=$((failed + 1))
  echo "programs: $what: status $status, wanted $wanted"
  cat err
}

# wrote TEXT and said TEXT: hold what came on standard output, and on standard error, to a text
wrote() { same "wrote" "$1" out; }
said() { same "said" "$1" err; }
same() {
  if cmp -s <(printf '%b' "$2") "$3"; then passed=$((passed + 1)); else failed=$((failed + 1)); echo "programs: $what: $1"; head -n 5 "$3"; fi
}

# ---- the commands, with stand-ins: programs that run the text of STAND_IN, and a kit whose rt says RT_SAYS in crates, beside a copy of scripts/

mkdir -p copy kit/bin
cp -r "$root/scripts" copy/scripts
cat >kit/bin/rt <<END
#!/bin/sh
case \$1 in
doc) echo "$work/kit/START-HERE.md" ;;
lib | run) printf '%b' "\$RT_SAYS"; exit "\$RT_STATUS" ;;
esac
END
touch kit/KIT-ID kit/WHAT
printf '#!/usr/bin/env bash\nPATH=%q:$PATH STAND_IN=$1 exec "${@:2}"\n' "$work/kit/bin" >with
chmod +x with kit/bin/rt
lister=copy/scripts/lister
replay=copy/scripts/replay

ends 1 "not built: lister" ./with cat $lister
said 'lister: crates/lister/out/lister isn'"'"'t built; "scripts/demo.sh" builds it (about 2 minutes the first time)\n'
ends 1 "not built: replay" ./with cat $replay
said 'replay: crates/replay/out/replay isn'"'"'t built; "scripts/native.sh replay" builds it (about 5 minutes the first time)\n'
for name in lister replay; do
  mkdir -p copy/crates/$name/out
  printf '#!/usr/bin/env bash\neval "$STAND_IN"\n' >copy/crates/$name/out/$name
done
chmod +x copy/crates/*/out/*

echo one >1
echo two >2
ln -s "$work/$lister" listing
mkdir folder
ends 0 "files" ./with cat $lister 1 2 <1
wrote 'one\ntwo\n'
said ''
ends 0 "standard input" ./with cat $lister <1
wrote 'one\n'
ends 0 "standard input among files" ./with cat $lister 2 - 2 <1
wrote 'two\none\ntwo\n'
ends 0 "through a link, from another folder" env -C folder ../with cat ../listing ../1
wrote 'one\n'
ends 1 "a file that isn't there" ./with cat $lister 1 none 2
wrote 'one\ntwo\n'
said 'lister: none: No such file or directory\n'
ends 1 "a file without a name" ./with cat $lister "" <1
wrote ''
said "lister: '': No such file or directory\n"
ends 0 "a file behind --" ./with cat $replay -- 1
wrote 'one\n'
ends 1 "a file named as an option is" ./with cat $lister -- --help
said 'lister: --help: No such file or directory\n'
ends 2 "an option" ./with cat $lister 1 --all
wrote ''
said 'lister: no option --all; scripts/lister --help says more\n'
ends 2 "two scripts" ./with cat $replay 1 2
wrote ''
said 'replay: plays one file, on one bearer; scripts/replay --help says more\n'
ends 1 "closed standard input" ./with cat $lister <&-
said 'lister: standard input is closed\n'
ends 0 "closed standard input, which isn't read" ./with cat $lister 1 <&-
wrote 'one\n'
ends 1 "closed standard output" sh -c '"$@" >&-' sh ./with cat $lister 1
said 'lister: standard output is closed\n'
reads='cat; echo "lister: lines answered: 3; reading failed, error 5: Input/output error" >&2'
ends 1 "a failed read" ./with "$reads" $lister <1
wrote 'one\n'
said 'lister: lines answered: 3; reading failed, error 5: Input/output error\n'
ends 1 "failed reads of files" ./with "$reads" $lister 1 2
wrote 'one\ntwo\n'
why='lines answered: 3; reading failed, error 5: Input/output error'
said "lister: 1: $why\nlister: 2: $why\n"
writes='cat; echo "replay: lines answered: 1; writing failed, error 28: No space left on device" >&2'
ends 1 "nothing is listed behind a failed write" ./with "${writes/replay/lister}" $lister 1 2
wrote 'one\n'
ends 1 "a failed write" ./with "$writes" $replay 1
said 'replay: 1: lines answered: 1; writing failed, error 28: No space left on device\n'
ends 1 "killed" ./with 'cat; kill -9 $$' $lister 1 2
wrote 'one\n'
said 'lister: 1: ended by signal 9 (KILL): its answers aren'"'"'t whole\n'
ends 1 "a status of its own" ./with 'exit 3' $lister none 1
said 'lister: none: No such file or directory\nlister: 1: ended with status 3\n'
ends 0 "a closed pipe doesn't kill the program" ./with 'trap -p PIPE; kill -s PIPE $$; echo lives' $lister <1
wrote "trap -- '' SIGPIPE\nlives\n"

# the demo: what it has proved as it goes, lowest first, and where it isn't proved what rt says
sample='001234000000\n110078000100000000100001000700090000\n400000000000\n'
printf '# a note\nlister: below io\nbeside:\nbelow: io\n' >copy/crates.txt
mkdir -p copy/crates/below/src
touch copy/crates/below/src/lib.rt
demo() { RT_STATUS=$1 RT_SAYS=$2 ./with cat copy/scripts/demo.sh; }
export -f demo
ends 0 "the demo" bash -c 'demo "$@"' demo 0 'a line\nlogic=proved functions=2\n'
wrote "$sample--\n$sample"
sed -i -e 1d -e 's/([0-9]* s)/(N s)/' err
said '  1/2 below proved (N s)\n  2/2 lister proved (N s)\n'
ends 0 "the demo again" bash -c 'demo "$@"' demo 1 'not asked\n'
wrote "$sample--\n$sample"
sed -i 1d err
said '  all 2 were proved before, and nothing has changed since\n'
echo changed >copy/crates/below/src/lib.rt
ends 0 "the demo of what rt knows" bash -c 'demo "$@"' demo 0 'rt: nothing has changed since the last proved build\n'
sed -i 1d err
said '  all 2 were proved before, and nothing has changed since\n'
echo changed again >copy/crates/below/src/lib.rt
ends 1 "a demo that isn't proved" bash -c 'demo "$@"' demo 1 'why not\nlogic=not-proved\n'
wrote ''
sed -i 1d err
said "why not\nlogic=not-proved\ndemo.sh: the lister isn't proved or isn't built\n"

# a signal that comes to the command, or to it and the program, ends both
for whom in command both; do
  what="a signal to $whom"
  rm -f program
  setsid ./with 'echo $$ >program; exec sleep 60' $lister <1 >out 2>err &
  for _ in $(seq 400); do [ ! -s program ] || break; sleep 0.05; done
  kill -- $([ $whom = command ] || echo -)$!
  wait $!
  echo "status $?" >out
  # a process that has ended may be there still, as Z, until somebody asks how
  for _ in $(seq 100); do grep -q '^State:.[^Z]' "/proc/$(cat program)/status" 2>/dev/null || { echo gone >>out; break; }; sleep 0.1; done
  wrote 'status 143\ngone\n'
done

# ---- as they are

# child PID: the process that this one has started
child() { tr ' ' '\n' <"/proc/$1/task/$1/children" | tail -n 1; }

lister=$root/scripts/lister
replay=$root/scripts/replay
printf '001234000000\n400000000000' >frames
printf 'open\t12\t0\t0\nsend\t0\t40' >calls
{ head -n 1 frames && yes "$(head -n 1 frames)" | head -n 29999; } >frames.many
{ head -n 1 calls && yes take | head -n 29999; } >calls.many
ends 0 "frames of files" "$lister" frames frames
wrote '0\t4660\nrefused\t2\n0\t4660\nrefused\t2\n'
said ''
ends 0 "calls of a file" "$replay" calls
wrote 'ok\nsent\t0\n'
said ''
for name in lister replay; do
  input=$([ $name = lister ] && echo frames || echo calls)
  answer=$([ $name = lister ] && echo '0\t4660' || echo 'ok')
  command=$root/scripts/$name
  ends 1 "$name: a full disk" sh -c '"$1" "$2" >/dev/full' sh "$command" $input
  said "$name: $input: lines answered: 0; writing failed, error 28: No space left on device\n"
  ends 1 "$name: a full disk, from standard input" sh -c '"$1" <"$2" >/dev/full' sh "$command" $input
  said "$name: lines answered: 0; writing failed, error 28: No space left on device\n"
  ends 1 "$name: a folder" "$command" folder
  wrote ''
  said "$name: folder: lines answered: 0; reading failed, error 21: Is a directory\n"
  ends 1 "$name: a folder as standard input" "$command" <folder
  said "$name: lines answered: 0; reading failed, error 21: Is a directory\n"

  ends 0 "$name: the program itself, with an argument" "$root/crates/$name/out/$name" $input
  wrote ''
  said "$name: takes no arguments; it reads standard input\n"

  # a write that is taken in part and then fails, at a limit of 1,024 octets: the answers that went out whole count
  ends 1 "$name: a file that may not grow" bash -c 'trap "" XFSZ; ulimit -f 1; exec "$@"' bash "$command" $input.many
  said "$name: $input.many: lines answered: $(tr -cd '\n' <out | wc -c); writing failed, error 27: File too large\n"
  wc -c <out >count && mv count out
  wrote '1024\n'

  # a write that is taken in part since the program was stopped and goes on: the rest is written, and nothing twice
  what="$name: stopped within a write"
  rm -f from
  mkfifo from
  timeout 60 "$command" $input.many >from 2>err &
  running=$!
  exec {from}<from
  # it is stopped once it waits in a write, the pipe being full
  for _ in $(seq 100); do
    sleep 0.1
    program=$(child "$(child $running)")
    if grep -qs pipe_write "/proc/$program/wchan"; then break; fi
  done
  kill -STOP "$program" && sleep 0.2 && kill -CONT "$program"
  { uniq -c <&$from | sed 's/^ *//'; wait $running; echo "status $?"; } >out
  exec {from}<&-
  wrote "$([ $name = lister ] && echo '30000 0\t4660' || echo '1 ok\n29999 refused\t38')\nstatus 0\n"
  said ''

  # an input that fails behind a line and a half: a pipe that is never waited for, and so can't be read once it is empty
  rm -f pipe
  mkfifo pipe
  exec {keep}<>pipe
  { head -n 1 $input; printf 00; } >&$keep
  ends 1 "$name: a failed read behind an answer" perl -MFcntl -e 'fcntl(STDIN, F_SETFL, O_NONBLOCK); exec @ARGV' "$command" <pipe
  exec {keep}>&-
  wrote "$answer\n"
  said "$name: lines answered: 1; reading failed, error 11: Resource temporarily unavailable\n"
done
ends 1 "a folder among files" "$lister" frames folder frames
wrote '0\t4660\nrefused\t2\n0\t4660\nrefused\t2\n'

# ---- through two pipes

# begin COMMAND..: runs it with a pipe to it and one from it
begin() {
  rm -f to from
  mkfifo to from
  timeout 60 "$@" <to >from 2>err &
  running=$!
  exec {to}>to {from}<from
}
# tell TEXT: a part of its input. hear: the next line that comes within 20 s, or nothing
tell() { printf '%b' "$1" >&$to; }
hear() { local line=; IFS= read -r -t "${1:-20}" line <&$from; printf '%s\n' "$line"; }
# ended: what it ended with, once its input has
ended() { exec {to}>&-; wait $running; echo "status $?"; }

what="lister, live"
begin "$lister"
{ tell '001234000000\n'; hear; tell '4000'; hear 0.3; tell '00000000\n'; hear; tell '3000abcd0000'; ended; hear; } >out
wrote '0\t4660\n\nrefused\t2\nstatus 0\n3\t43981\n'
said ''
exec {from}<&-

what="lister, octet by octet"
begin "$lister"
{ for c in 0 0 1 2 3 4 0 0 0 0 0 0 '\n'; do tell "$c"; sleep 0.05; done; hear; ended; } >out
wrote '0\t4660\nstatus 0\n'
exec {from}<&-

what="replay, live"
begin "$replay"
{
  tell 'open\t12\t0\t0\n'; hear
  tell 'send\t0\t40\narrive\t0\t0\n'; hear; hear
  tell 'exp'; hear 0.3
  tell 'ire\t0\nconfirm\t0\nroom\n'; hear; hear; hear
  tell 'take'; ended; hear
} >out
wrote 'ok\nsent\t0\nlost\t0\n\nrefused\t17\nok\nroom\t0\nstatus 0\nrefused\t38\n'
said ''
exec {from}<&-

# a reader that goes away after so many answers: exactly those were answered
for count in 1 1000; do
  what="lister, whose reader takes $count"
  begin "$lister"
  { for ((i = 0; i < count; i++)); do echo 001234000000; done >&$to; timeout 20 head -n $count <&$from | uniq -c | sed 's/^ *//'; } >out
  wrote "$count 0\t4660\n"
  exec {from}<&-
  { tell '001234000000\n'; ended; } >out
  wrote 'status 1\n'
  said "lister: lines answered: $count; writing failed, error 32: Broken pipe\n"
done
# one that goes away before the answer to a last line without its end
what="lister, whose reader doesn't wait for the last"
begin "$lister"
{ tell '001234000000\n'; hear; tell 4000; } >out
exec {from}<&-
ended >out
wrote 'status 1\n'
said 'lister: lines answered: 1; writing failed, error 32: Broken pipe\n'
what="replay, whose reader doesn't wait for the last"
begin "$replay"
{ tell 'open\t12\t0\t0\n'; hear; tell take; } >out
exec {from}<&-
ended >out
wrote 'status 1\n'
said 'replay: lines answered: 1; writing failed, error 32: Broken pipe\n'

what="replay, whose reader takes 2"
begin "$replay"
{ tell 'open\t12\t0\t0\nledger\n'; hear; hear; } >out
exec {from}<&-
{ tell 'take\n'; ended; } >out
wrote 'status 1\n'
said 'replay: lines answered: 2; writing failed, error 32: Broken pipe\n'

echo "$passed passed, $failed failed"
[ "$failed" -eq 0 ]
