#!/bin/sh
# Tests bpfs with unusual standard streams: each one closed, standard output on a full device, and standard output on the
# image itself. After each run it compares the exit status, FILE byte for byte, and, if standard output could not be
# written, the message on standard error.
#
# Usage: examples/closed-streams.sh PROGRAM
#
# PROGRAM is a built bpfs, such as crates/bpfs/out/bpfs. The exit status is 1 if a test fails.
set -u
program=$(realpath "${1:?the path of the program}")
work=$(mktemp -d)
trap 'rm -rf "$work"' EXIT
cd "$work" || exit 1
failed=0

# The expected contents of FILE: after a format, before each run, and after the script.
printf 'create /a\ncreate /b\n' > script
"$program" format formatted --blocks 8 > line || exit 1
cp formatted old
echo 'create /old' | "$program" run old > replies || exit 1
cp old scripted
"$program" run scripted < script > replies || exit 1
if cmp -s formatted old || cmp -s old scripted; then echo 'FAILED: no run changed FILE'; exit 1; fi

# expect NAME WANTED STATUSES GOT: GOT has to be one of STATUSES, and FILE has to equal the file WANTED.
expect() {
  name=$1 wanted=$2 statuses=$3 got=$4
  case " $statuses " in
    *" $got "*) ;;
    *) echo "FAILED: $name: status $got, not one of $statuses"; failed=1 ;;
  esac
  if cmp -s FILE "$wanted"; then
    echo "ok: $name: status $got"
  else
    echo "FAILED: $name: FILE has other contents than expected"; failed=1
  fi
}

# said NAME MESSAGE: standard error has to be the one line `bpfs: MESSAGE`.
said() {
  if [ "$(cat err)" = "bpfs: $2" ]; then echo "ok: $1: $(cat err)"; else echo "FAILED: $1: standard error is: $(cat err)"; failed=1; fi
}

cp old FILE; "$program" check FILE <&- > out 2> err; expect 'check <&-' old '0' $?
cp old FILE; "$program" check FILE >&- 2> err; expect 'check >&-' old '4' $?
cp old FILE; "$program" check FILE > out 2>&-; expect 'check 2>&-' old '0' $?
cp old FILE; "$program" check FILE <&- >&- 2>&-; expect 'check <&- >&- 2>&-' old '4' $?

cp old FILE; "$program" format FILE --blocks 8 <&- > out 2> err; expect 'format <&-' formatted '0' $?
cp old FILE; "$program" format FILE --blocks 8 >&- 2> err; expect 'format >&-' formatted '4' $?
cp old FILE; "$program" format FILE --blocks 8 > out 2>&-; expect 'format 2>&-' formatted '0' $?
cp old FILE; "$program" format FILE --blocks 8 <&- >&- 2>&-; expect 'format <&- >&- 2>&-' formatted '4' $?

cp old FILE; "$program" run FILE <&- > out 2> err; expect 'run <&-' old '3' $?
cp old FILE; "$program" run FILE < script >&- 2> err; expect 'run >&-' old '4' $?
cp old FILE; "$program" run FILE < script > out 2>&-; expect 'run 2>&-' scripted '0' $?
cp old FILE; "$program" run FILE <&- >&- 2>&-; expect 'run <&- >&- 2>&-' old '3' $?

# If the reply of a status cannot be written to standard output, standard error has a message in its place.
head -c 32768 /dev/zero > zeros
for word in check run export; do
  "$program" $word missing < script >&- 2> err; expect "$word missing >&-" old '1' $?; said "$word missing >&-" 'missing: no such file'
  "$program" $word zeros < script > /dev/full 2> err; expect "$word zeros >/dev/full" old '7' $?
  said "$word zeros >/dev/full" 'zeros: not a file system'
  "$program" $word missing < script > out 2> err; expect "$word missing" old '1' $?
  [ -s err ] && { echo "FAILED: $word missing: standard error is: $(cat err)"; failed=1; }
done
# Two chains of nested directories. One is moved below the other, so the path of the last is too long for any call.
name=$(printf '%0240d' 0)
"$program" format deep --blocks 64 > line || exit 1
for first in /first ''; do
  way=
  for depth in 1 2 3 4 5 6 7 8 9 10; do way=$way/$name; echo "mkdir $way"; done
  if [ -n "$first" ]; then echo "rename /$name $first"; else echo "rename /first $way/first"; fi
done > rows
"$program" run deep < rows > replies || exit 1
"$program" export deep > out; expect 'export deep' old '9' $?
"$program" export deep > /dev/full 2> err; expect 'export deep >/dev/full' old '9' $?
said 'export deep >/dev/full' 'deep: a path is too long to be exported'

# FILE has to be a regular file.
mkdir folder
for word in 'run folder' 'check folder' 'export folder' 'play folder --seed 1 --count 9' 'format folder --blocks 8'; do
  cp old FILE; "$program" $word < script > out 2> err; expect "$word" old '5' $?; said "$word" 'folder: is a directory'
done
for word in run check; do
  cp old FILE; "$program" $word /dev/null < script > out 2> err; expect "$word /dev/null" old '5' $?
  said "$word /dev/null" '/dev/null: not a regular file'
done

# Standard output is FILE, under either name.
ln -s FILE LINK
own='standard output is the image itself'
cp old FILE; "$program" run FILE < script 1<> FILE 2> err; expect 'run 1<>FILE' old '5' $?; said 'run 1<>FILE' "FILE: $own"
cp old FILE; "$program" run FILE < script >> LINK 2> err; expect 'run >>LINK' old '5' $?; said 'run >>LINK' "FILE: $own"
cp old FILE; "$program" run LINK < script 1<> FILE 2> err; expect 'run LINK 1<>FILE' old '5' $?; said 'run LINK 1<>FILE' "LINK: $own"
cp old FILE; "$program" check FILE 1<> FILE 2> err; expect 'check 1<>FILE' old '5' $?; said 'check 1<>FILE' "FILE: $own"
cp old FILE; "$program" export FILE 1<> FILE 2> err; expect 'export 1<>FILE' old '5' $?; said 'export 1<>FILE' "FILE: $own"
cp old FILE; "$program" play FILE --seed 1 --count 9 1<> FILE 2> err; expect 'play 1<>FILE' old '5' $?; said 'play 1<>FILE' "FILE: $own"
cp old FILE; "$program" format FILE --blocks 8 1<> FILE 2> err; expect 'format 1<>FILE' old '5' $?; said 'format 1<>FILE' "FILE: $own"
cp old FILE; "$program" run FILE < FILE > replies 2> err; expect 'run <FILE' old '0' $?
exit $failed
