#!/bin/sh
# Tests saves on a full disk, and on one that becomes full during the save:
# - If all blocks of FILE are allocated on the disk, FILE is written in place.
# - Otherwise the save fails with status 5, and FILE is unchanged.
# - No second file remains.
# It also tests saves beyond the limit on the size of a file (ulimit -f), with its signal ignored and not ignored.
#
# Usage: examples/full-disk.sh PROGRAM
#
# PROGRAM is a built bpfs, such as crates/bpfs/out/bpfs. Mounting a small tmpfs needs root; without root only the limit
# on the size of a file is tested. The exit status is 1 if a test fails.
set -u
program=$(realpath "${1:?the path of the program}")
work=$(mktemp -d)
mounted=
trap '[ -z "$mounted" ] || umount "$work/disk"; rm -rf "$work"' EXIT
cd "$work" || exit 1
mkdir disk
failed=0
printf 'create /new\nsync\n' > script
echo 'list /' > listing

# expect NAME STATUS GOT WANTED: GOT has to be STATUS, and FILE has to equal the file WANTED (unless WANTED is empty).
expect() {
  if [ "$2" != "$3" ]; then echo "FAILED: $1: status $3, not $2: $(cat err)"; failed=1; fi
  if [ -e disk/FILE.bpfs-sync ] || [ -e disk/FILE.bpfs-sync-old ]; then echo "FAILED: $1: a second file remains"; failed=1; fi
  if [ -n "$4" ] && ! cmp -s disk/FILE "$4"; then echo "FAILED: $1: FILE has other contents than expected"; failed=1; fi
  echo "done: $1: status $3 $(cat err)"
}

# fill COUNT: leaves room for COUNT blocks on the disk.
fill() {
  rm -f disk/filler
  free=$(df -k --output=avail disk | tail -1)
  head -c "$(((free - 4 * $1) * 1024))" /dev/zero > disk/filler
}

"$program" format old --blocks 1024 > out || exit 1
"$program" format twice --blocks 2048 > out || exit 1
echo 'create /old' | "$program" run old > out || exit 1
cp old new
"$program" run new < script > out || exit 1

cp old disk/FILE
(
  trap '' XFSZ
  ulimit -f 2048
  "$program" run disk/FILE < script > out 2> err
)
expect 'a sync beyond the limit on the size of a file' 5 $? old
(
  ulimit -f 2048
  "$program" run disk/FILE < script > out 2> err
)
status=$?
rm -f disk/FILE.bpfs-sync
expect 'the same, if its signal ends the process' 153 $status old

mount -t tmpfs -o size=9m none disk 2> /dev/null || { echo 'no tmpfs could be mounted: the remaining tests are skipped'; exit $failed; }
mounted=yes
cp --sparse=never old disk/FILE
was=$(stat -c %i disk/FILE)
"$program" run disk/FILE < script > out 2> err; expect 'a disk with room' 0 $? new
[ "$(stat -c %i disk/FILE)" != "$was" ] || { echo 'FAILED: FILE was not replaced by a second file'; failed=1; }
for room in 0 1 500; do
  cp --sparse=never old disk/FILE
  fill $room
  was=$(stat -c %i disk/FILE)
  "$program" run disk/FILE < script > out 2> err; expect "room for $room blocks, FILE is allocated" 0 $? new
  [ "$(stat -c %i disk/FILE)" = "$was" ] || { echo 'FAILED: FILE was not written in place'; failed=1; }
  rm disk/filler disk/FILE
  cp --sparse=always old disk/FILE
  fill $room
  # A save keeps the holes of FILE, so the second file needs three blocks.
  if [ $room -lt 3 ]; then status=5 wanted=old; else status=0 wanted=new; fi
  "$program" run disk/FILE < script > out 2> err; expect "room for $room blocks, FILE has holes" $status $? $wanted
  # A new image needs two blocks; its zeros get theirs with the first save.
  if [ $room -lt 2 ]; then status=5 wanted=old; else status=0 wanted=twice; fi
  "$program" format disk/FILE --blocks 2048 > out 2> err; expect "room for $room blocks, a format to twice the size" $status $? $wanted
  rm disk/filler disk/FILE
done
cp --sparse=never old disk/FILE
fill 0
"$program" format disk/FILE --blocks 2048 > out 2> err; expect 'a full disk, a format to twice the size' 5 $? old
"$program" format disk/FILE --blocks 512 > out 2> err; expect 'a full disk, a format to half the size' 0 $? ''
"$program" check disk/FILE > out 2> err; expect 'a check of it' 0 $? ''
exit $failed
