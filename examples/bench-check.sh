#!/bin/sh
# Times `bpfs check` on two images of 64 MiB: one full of files, and one with a single large directory. Each image is
# checked three times.
#
# Usage: examples/bench-check.sh
#
# Needs the built program crates/bpfs/out/bpfs; examples/first-run.sh builds it.
set -eu
here=$(cd "$(dirname "$0")" && pwd)
bpfs=$here/../crates/bpfs/out/bpfs
[ -x "$bpfs" ] || { echo "bpfs is not built: run examples/first-run.sh" >&2; exit 1; }
work=$(mktemp -d)
trap 'rm -rf "$work"' EXIT
for kind in full directory; do
    python3 "$here/make_image.py" "$kind" "$work/$kind"
    for turn in 1 2 3; do
        python3 - "$bpfs" "$work/$kind" "$kind" <<'PYTHON'
import subprocess, sys, time
bpfs, image, kind = sys.argv[1:]
words = 64 * 1024 * 1024 // 8
start = time.perf_counter()
said = subprocess.run([bpfs, "check", image], capture_output=True, text=True)
took = time.perf_counter() - start
print(f"{kind}: {took:.3f} s, {words / took / 1e6:.0f} million words per second: {said.stdout.strip()} (status {said.returncode})")
PYTHON
    done
done
