#!/bin/sh
# Tests how a save replaces FILE by a second file (docs/saving.md):
# - FILE keeps its symbolic link, owner, group, permissions and hard links; some of them need a save in place;
# - files that a killed run left, and other things under the reserved names, are handled;
# - the replaced file is reused by the next save, unless something else changed it;
# - a run that is killed, or whose system calls fail, at each step of a save leaves a clean FILE (needs strace);
# - a save fails and writes nothing if FILE was replaced, removed, or resized meanwhile.
#
# Usage: examples/second-file.sh PROGRAM
#
# PROGRAM is a built bpfs, such as crates/bpfs/out/bpfs. Tests of owners need root and setpriv, those of steps need
# strace; without them they are skipped. The exit status is 1 if a test fails.
set -u
program=$(realpath "${1:?the path of the program}")
work=$(mktemp -d)
first=
trap '[ -z "$first" ] || kill "$first" 2> /dev/null; rm -rf "$work"' EXIT
cd "$work" || exit 1
failed=0
second=FILE.bpfs-sync
old=$second-old

# expect NAME WANTED GOT: GOT has to be WANTED.
expect() {
  if [ "$2" = "$3" ]; then echo "ok: $1: $3"; else echo "FAILED: $1: $3, not $2"; failed=1; fi
}

# saved NAME HOW [FILE]: a run that creates a file in the image has to end with status 0 and to save it. HOW is `replaced`
# or `in place`.
made=0
saved() {
  file=${3:-FILE}
  made=$((made + 1))
  was=$(stat -Lc %i "$file")
  echo "create /made$made" | $as "$program" run "$file" > out 2> err
  expect "$1: run" 0 $?
  if [ "$(stat -Lc %i "$file")" = "$was" ]; then how='in place'; else how=replaced; fi
  expect "$1" "$2" "$how"
  "$program" run "$file" < listing > out
  grep -q "^entry f made$made\$" out || { echo "FAILED: $1: nothing was saved"; failed=1; }
}

# none_left [NAME]: no second file remains, nor any other, except NAME.
none_left() {
  left=$(ls -d FILE.* 2> /dev/null)
  [ "$left" = "${1:-}" ] || { echo "FAILED: files remain: $left"; failed=1; }
}

# began: starts a run that gets its lines one by one.
began() {
  : > replies
  sent=0
  "$program" run FILE < lines > replies 2> errors &
  first=$!
  exec 3> lines
}

# did LINE..: sends these lines to the run, and waits for its replies.
did() {
  for line; do echo "$line" >&3; sent=$((sent + 1)); done
  turns=0
  while [ "$(wc -l < replies)" -lt $sent ] && [ $turns -lt 500 ]; do sleep 0.02; turns=$((turns + 1)); done
}

# ended STATUS: ends the script; the run has to end with this status.
ended() {
  exec 3>&-
  wait "$first"
  expect 'its status' "$1" $?
  first=
}

as=
echo 'list /' > listing
mkfifo lines
"$program" format FILE --blocks 16 > out || exit 1
saved 'a plain file' replaced

"$program" format SPARSE --blocks 4096 > out || exit 1
saved 'a file with holes' replaced SPARSE
expect 'less than a tenth of it is allocated' yes "$([ "$(stat -c %b SPARSE)" -lt 3276 ] && echo yes)"
cp --sparse=never SPARSE WHOLE
saved 'a file without holes' replaced WHOLE
expect 'all of it is allocated' yes "$([ "$(stat -c %b WHOLE)" -ge 32768 ] && echo yes)"
rm SPARSE WHOLE

ln -s FILE LINK
saved 'through a symbolic link' replaced LINK
expect 'the link' FILE "$(readlink LINK)"

chmod 640 FILE
saved 'with permissions' replaced
expect 'the permissions' 640 "$(stat -c %a FILE)"

ln FILE HARD
saved 'with a hard link' 'in place'
cmp FILE HARD || failed=1
rm HARD

echo old > $second
saved 'with the second file of a killed run' replaced
none_left
cp FILE $second
ln FILE $old
saved 'with the second link of a killed run' replaced
none_left
cp FILE $old
saved 'with the file that a killed run replaced' replaced
none_left
mkdir $old
saved 'with a directory under the third name' replaced
none_left $old
rmdir $old
mkdir $second
saved 'with a directory under the second name' 'in place'
[ -d $second ] || { echo 'FAILED: the directory is gone'; failed=1; }
rmdir $second
ln -s nowhere $second
saved 'with a symbolic link under the second name' 'in place'
expect 'that link' nowhere "$(readlink $second)"
rm $second
long=$(printf '%0250d' 0)
cp FILE "$long"
saved 'with a name of 250 bytes' 'in place' "$long"

if [ "$(id -u)" = 0 ] && command -v setpriv > /dev/null; then
  chown 65534:65534 FILE
  saved 'of another owner, by root' replaced
  expect 'the owner' 65534:65534 "$(stat -c %u:%g FILE)"
  as='setpriv --reuid=65534 --regid=65534 --clear-groups'
  chmod 755 .
  saved 'by its owner, in a directory that only others may write' 'in place'
  chmod 777 .
  saved 'by its owner' replaced
  chown 0:0 FILE
  chmod 666 FILE
  saved 'of another owner' 'in place'
  as=
fi

began
was=$(stat -c %i FILE)
did 'create /once' sync
expect 'the replaced file has the second name' "$was" "$(stat -c %i $second)"
did 'create /twice' sync
expect 'it is FILE again after the next save' "$was" "$(stat -c %i FILE)"
none_left $second
printf X | dd of=$second conv=notrunc bs=1 seek=$(($(stat -c %s FILE) - 1)) 2> /dev/null
expect 'the last byte of a replaced file that was written meanwhile' X "$(tail -c 1 $second)"
did 'create /written' sync
expect 'the last byte of FILE' 0 "$(tail -c 1 FILE | od -An -tu1 | tr -d ' ')"
none_left $second
ln $second KEPT
cp KEPT copy
did 'create /kept' sync 'create /later' sync
cmp KEPT copy || { echo 'FAILED: a file that has another name too was written'; failed=1; }
rm $second
did 'create /gone' sync
ln -sf FILE $second
did 'create /link' sync
expect 'a symbolic link under the second name' FILE "$(readlink $second)"
rm $second
was=$(stat -c %i FILE)
did 'create /again' sync
[ "$(stat -c %i FILE)" = "$was" ] && { echo 'FAILED: FILE was written in place'; failed=1; }
ln FILE HARD
was=$(stat -c %i FILE)
did 'create /hard' sync
expect 'a hard link that was made meanwhile' "$was" "$(stat -c %i FILE)"
none_left
rm HARD
did 'create /alone' sync 'create /end'
ended 0
none_left
"$program" run FILE < listing > out
expect 'files of that run' 11 "$(grep -c 'entry f [a-z]*$' out)"
began
did 'create /mine' sync
rm $second
echo mine > $second
ended 0
expect 'another file under the second name' mine "$(cat $second)"
rm $second
began
did 'create /linked' sync
ln $second LINKED
ended 0
none_left

if command -v strace > /dev/null; then
  printf 'create /k\nsync\nunlink /k\nsync\n' > script

  # fails MADE RENAMED CALL:WHICH: a run of two syncs in which these system calls fail has to save FILE, with MADE new
  # second files and RENAMED renames to FILE.
  fails() {
    strace -f -o trace -e trace=openat,link,rename,fsync -e inject="${3%%:*}:${3#*:}" "$program" run FILE < script > out 2> err
    expect "with $3: run" 0 $?
    expect "with $3: second files" "$1" "$(grep -c 'bpfs-sync", O_RDWR|O_CREAT' trace)"
    expect "with $3: renames" "$2" "$(grep -c '/FILE") = 0$' trace)"
    expect 'its links' 1 "$(stat -c %h FILE)"
    none_left
  }
  fails 1 2 mkdir:error=EPERM # a run never calls mkdir
  fails 2 2 link:error=EPERM
  fails 2 2 fsync:error=EINVAL:when=2+2
  fails 2 2 rename:error=EIO:when=2+2
  fails 2 0 rename:error=EACCES
  strace -f -o trace -e trace=link -e inject=link:delay_enter=900000:when=2 "$program" run FILE < script > out 2> err &
  first=$!
  turns=0
  while ! [ "$(grep -c ^ok out)" = 3 ] && [ $turns -lt 500 ]; do sleep 0.01; turns=$((turns + 1)); done
  sleep 0.3
  ln FILE HARD
  wait "$first"
  expect 'with a hard link to FILE made during a sync: run' 0 $?
  first=
  none_left
  rm HARD

  # Kills the run before each step of its second sync.
  for step in link:1 rename:1 rename:2 fsync:2 ftruncate:2 pwrite64:2 fsync:3 link:2 rename:3 rename:4 fsync:4 unlink:1; do
    strace -f -o trace -e trace="${step%:*}" -e inject="${step%:*}:signal=KILL:when=${step#*:}" "$program" run FILE < script > out 2> err
    [ $? -gt 128 ] || { echo "FAILED: not killed at $step"; failed=1; }
    "$program" check FILE > out || { echo "FAILED: killed at $step: $(cat out)"; failed=1; }
    saved "after a kill at $step" replaced
    none_left
    echo 'unlink /k' | "$program" run FILE > out
  done
fi

began
did 'create /lost'
cp FILE other
mv other FILE
cp FILE copy
ended 5
expect 'its reason' 'bpfs: FILE: not saved: it was replaced by another file meanwhile' "$(cat errors)"
cmp FILE copy || failed=1
none_left
began
did 'create /found' sync
cp FILE other
mv other FILE
cp FILE copy
did 'create /lost' sync
ended 5
cmp FILE copy || failed=1
none_left

# unnamed LINE..: if FILE is moved away after a run did these lines, the run has to end with status 5 and to write nothing.
unnamed() {
  began
  did "$@"
  mv FILE moved
  cp moved copy
  ended 5
  expect "its reason after $*" 'bpfs: FILE: not saved: it was renamed or removed meanwhile' "$(cat errors)"
  [ -e FILE ] && { echo 'FAILED: FILE is there again'; failed=1; }
  cmp moved copy || { echo 'FAILED: the moved file was written'; failed=1; }
  none_left
  cp moved FILE
}

unnamed 'stat /'
unnamed 'create /lost'
unnamed 'create /found' sync
ln FILE HARD
unnamed 'create /lost'
rm HARD

# resized SIZE LINE..: if FILE is resized after a run did these lines, the run has to end with status 5 at the next sync
# and to write nothing.
resized() {
  size=$1
  shift
  began
  did "$@"
  truncate -s "$size" FILE
  cp FILE copy
  echo sync >&3
  ended 5
  expect "replies before a sync with FILE of $size bytes" $# "$(grep -c '^[a-z]' replies)"
  expect 'its reason' 'bpfs: FILE: not saved: another program changed its size' "$(cat errors)"
  cmp FILE copy || { echo "FAILED: FILE of $size bytes was written"; failed=1; }
  none_left
}

for size in 0 4096 65535 65537 131072; do
  cp moved FILE
  resized $size 'stat /'
  cp moved FILE
  resized $size 'create /lost'
  cp moved FILE
  resized $size 'create /found' sync 'create /lost'
  cp moved FILE
  ln FILE HARD
  resized $size 'create /lost'
  rm HARD
done
exit $failed
