#!/bin/sh
# Tests several processes with one FILE:
# - While a run uses FILE, a second run, a format, a check and a play end with status 5 and a message, under any name of
#   FILE, also after a sync has replaced it. Nothing that the first run does is lost.
# - While a play reads FILE, a check succeeds, and a run ends with status 5.
# - Six processes run scripts at once, each again and again until it succeeds. All their files are in the image.
#
# Usage: examples/two-processes.sh PROGRAM
#
# PROGRAM is a built bpfs, such as crates/bpfs/out/bpfs. The exit status is 1 if a test fails.
set -u
program=$(realpath "${1:?the path of the program}")
work=$(mktemp -d)
first=
trap '[ -z "$first" ] || kill "$first" 2> /dev/null; rm -rf "$work"' EXIT
cd "$work" || exit 1
failed=0
: > nothing

# expect NAME WANTED GOT: GOT has to be WANTED.
expect() {
  if [ "$2" = "$3" ]; then echo "ok: $1: $3"; else echo "FAILED: $1: $3, not $2"; failed=1; fi
}

# refused ARGUMENT..: the program with these arguments has to end with status 5, no reply, and the message.
refused() {
  "$program" "$@" < script > out 2> err
  expect "$* during the other" 5 $?
  cmp -s out nothing || { echo "FAILED: $* replied"; failed=1; }
  [ "$(cat err)" = "bpfs: $2: in use by another process" ] || { echo "FAILED: $*: standard error is: $(cat err)"; failed=1; }
}

# answered COUNT: waits until the first run has printed COUNT replies.
answered() {
  turns=0
  while [ "$(wc -l < replies)" -lt "$1" ] && [ $turns -lt 500 ]; do sleep 0.02; turns=$((turns + 1)); done
}

"$program" format FILE --blocks 16 > out || exit 1
ln -s FILE LINK
echo 'create /lost' > script
mkfifo lines
: > replies
"$program" run FILE < lines > replies 2> errors &
first=$!
exec 3> lines
echo 'create /a' >&3
answered 1
refused run FILE
refused run LINK
refused format FILE --blocks 8
refused check FILE
refused play FILE --seed 1 --count 1
printf 'sync\ncreate /b\n' >&3
answered 3
refused run FILE
refused check LINK
printf 'sync\ncreate /c\n' >&3
answered 5
refused format FILE --blocks 8
exec 3>&-
wait "$first"
expect 'the first run' 0 $?
first=
"$program" check FILE > out; expect 'check after it' 0 $?
echo 'list /' | "$program" run FILE > out 2> err; expect 'run after it' 0 $?
expect 'what the first run made' 'entry f a entry f b entry f c end' "$(tr '\n' ' ' < out | sed 's/ $//')"

# A play that starts during one of these runs is refused itself, and is started again.
turns=0
while [ $turns -lt 50 ]; do
    turns=$((turns + 1))
    "$program" play FILE --seed 1 --count 1000000 > played 2> errors &
    first=$!
    sleep 0.3
    "$program" run FILE < nothing > out 2> err || break
    kill "$first" 2> /dev/null || true
    wait "$first" 2> /dev/null || true
done
refused run FILE
"$program" check FILE > out 2> err; expect 'check during a play' 0 $?
kill "$first"
wait "$first" 2> /dev/null
first=
"$program" run FILE < nothing > out 2> err; expect 'run after the play was killed' 0 $?

"$program" format FILE --blocks 256 > out
for member in 1 2 3 4 5 6; do
  for turn in 1 2 3 4 5 6 7 8; do
    until echo "create /m$member-$turn" | "$program" run FILE > "out$member" 2> "err$member" || [ "$(cat "err$member")" != \
      'bpfs: FILE: in use by another process' ]; do :; done
    cat "out$member" >> "served$member"
  done &
done
wait
expect 'replies to six processes' 48 "$(cat served? | grep -c '^ok$')"
"$program" check FILE > out 2> err; expect 'check after them' 0 $?
expect 'their files' 48 "$(echo 'list /' | "$program" run FILE | grep -c '^entry f m')"
[ "$(echo FILE*)" = FILE ] || { echo 'FAILED: a second file remains'; failed=1; }
exit $failed
