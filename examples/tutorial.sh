#!/bin/sh
# Runs the examples of docs/tutorial.md, docs/bpfs.1 and the quick start of README.md, and compares the replies with those
# of the pages.
#
# Usage: examples/tutorial.sh PROGRAM
#
# PROGRAM is a built bpfs, such as crates/bpfs/out/bpfs. The exit status is 1 if a reply differs.
set -u
program=$(realpath "${1:?the path of the program}")
examples=$(cd "$(dirname "$0")" && pwd)
rows=$examples/../crates/bp_rows/stdin
work=$(mktemp -d)
trap 'rm -rf "$work"' EXIT
cd "$work" || exit 1
failed=0

# expect NAME WANTED GOT: the status GOT has to be WANTED, and the file `found` has to equal the file `wanted`.
expect() {
  case=$1 wanted=$2 got=$3
  if [ "$wanted" != "$got" ]; then echo "FAILED: $case: status $got, not $wanted"; failed=1; fi
  if diff wanted found; then echo "ok: $case"; else echo "FAILED: $case: other replies"; failed=1; fi
}

# row NAME BEGIN: prints the lines that begin with BEGIN of the row `tutorial: NAME` of bp_rows, up to its first run,
# without BEGIN. CI runs the row, which has the same script.
row() {
  sed -n "/^row tutorial: $1\$/,/^go\$/s/^$2//p" "$rows"
}

for script in "$examples"/*.bpfs; do
  name=$(basename "$script" .bpfs)
  version=$(row "$name" 'versions ')
  "$program" format disk.img --blocks 8 --version "${version:-1}" > formatted || exit 1
  cp "$examples/$name.replies" wanted
  "$program" run disk.img < "$script" > found; expect "$name" 0 $?
  "$program" check disk.img > found; got=$?
  grep '^clean ' found > wanted; expect "$name, and then a check" 0 $got
  row "$name" '> ' > found; cp "$script" wanted; expect "$name, as a row" 0 0
done

# The README runs the row `first` over an image of version 2.
"$program" format disk.img --blocks 8 --version 2 > formatted || exit 1
cp "$examples/first.replies" wanted
"$program" run disk.img < "$examples/first.bpfs" > found; expect 'first, in version 2' 0 $?
echo 'clean 1 2 5 4 3' > wanted
"$program" check disk.img > found; expect 'first in version 2, and then a check' 0 $?

"$program" format disk.img --blocks 8 > formatted || exit 1
"$program" run disk.img < "$examples/export.bpfs" > replies
"$program" export disk.img > wanted
"$program" format larger.img --blocks 64 > formatted || exit 1
"$program" export disk.img | "$program" run larger.img > replies
"$program" export larger.img > found; expect 'the export of a copy' 0 $?

# Word 520 is the kind of inode 1.
printf '\003' | dd of=disk.img bs=1 seek=$((8 * 520)) conv=notrunc 2> dd
echo 'err 32 damaged 9 520' > wanted
for word in run export 'play --seed 1 --count 1'; do
  # shellcheck disable=SC2086
  echo 'list /' | "$program" $word disk.img > found; expect "$word over a damaged image" 7 $?
done

python3 "$examples/run_blocks.py" "$program" || failed=1
python3 "$examples/terminal.py" "$program" || failed=1
exit $failed
