#!/bin/bash
# The long tests of the mount, which are not part of `make test`. `make long` calls this.
#
#     long.sh FOLDER CALLS SEEDS SWEEPS TRIALS [CHECKER]
#
# - SEEDS times CALLS pseudo-random calls on the mount and on tmpfs, with the same results (fsx_test)
# - a rename over an open file, killed at each system call, SWEEPS times (killed_test; needs root)
# - the time of 3,000 files that tar unpacks, beside tmpfs: the minimum of TRIALS
# - ordinary programs (programs.sh)
#
# FOLDER is for images and mounts, and should be in memory. The status is 1 if something differs.
set -u
calls=$2 seeds=$3 sweeps=$4 trials=$5 checker=${6:-}
here=$(cd "$(dirname "$0")" && pwd)
work=$(mktemp -d "$1/bpfs-long-XXXXXX")
image=$work/image at=$work/mount own=$work/own daemon=
mkdir "$at" "$own"

cleanup() {
    [ -n "$daemon" ] && kill -9 "$daemon" 2> /dev/null
    umount -l "$at" 2> /dev/null
    umount "$own" 2> /dev/null
    rm -rf "$work"
}
trap cleanup EXIT

fail() {
    echo "FAILED: $*"
    exit 1
}

# mounts PROGRAM OPTIONS
mounts() {
    "$here/build/$1" "$image" "$at" -f -o "$2" &
    daemon=$!
    for _ in $(seq 200); do
        mountpoint -q "$at" && return
        sleep 0.05
    done
    fail "no mount"
}

unmounts() {
    umount "$at" && wait $daemon || fail "the mount ended with $?"
    daemon=
    [ -z "$checker" ] || "$checker" check "$image" > "$work/output" || fail "bpfs check: $(cat "$work/output")"
}

# ---- pseudo-random calls

compares_calls() {
    mounts san-bpfs_fuse cached,format=65536
    for seed in $(seq "$seeds"); do
        mkdir "$at/$seed" "$own/$seed" || fail "no folder"
        "$here/build/fsx_test" "$at/$seed" "$own/$seed" "$seed" "$calls" "$at" || fail "seed $seed"
    done
    find "$at" -type f -printf '%P %i %n %b %s\n' | sort > "$work/list"
    unmounts
    mounts san-bpfs_fuse cached
    find "$at" -type f -printf '%P %i %n %b %s\n' | sort | diff "$work/list" - || fail "another list"
    diff -r --no-dereference "$own" "$at" || fail "the next mount has other files"
    unmounts
    rm -rf "${own:?}"/* "$image"*
    echo "fsx: $seeds seeds of $calls calls: no difference, also after the next mount"
}

# ---- the time of tar

# processor: seconds of processor time of the mount so far
processor() {
    awk '{ print $1 / 1e9 }' "/proc/$daemon/schedstat"
}

# unpacks FOLDER: prints seconds of wall and of processor time of tar
unpacks() {
    mkdir "$1" || fail "no folder"
    TIMEFORMAT='%R %U %S'
    { time tar -C "$1" -xf "$work/files.tar"; } 2>&1 | awk '{ print $1, $2 + $3 }'
}

# times NAME FOLDER: the least times of tar there; the processor time includes that of the mount
times() {
    for i in $(seq "$trials"); do
        before=$([ -z "$daemon" ] || processor)
        spent=$(unpacks "$2/$i")
        after=$([ -z "$daemon" ] || processor)
        echo "$spent ${before:-0} ${after:-0}"
        rm -rf "${2:?}/$i"
    done | awk -v name="$1" -v trials="$trials" '
        { used = $2 + $4 - $3 }
        NR == 1 || $1 < wall { wall = $1 }
        NR == 1 || used < processor { processor = used }
        END { printf "tar, 3,000 files, %s: %.3f s, of the processor %.3f s (least of %d)\n", name, wall, processor, trials }'
}

measures_tar() {
    mkdir "$work/files"
    for i in $(seq 3000); do head -c $((i * 7919 % 8000 + 200)) /dev/urandom > "$work/files/f$i"; done
    tar -C "$work/files" -cf "$work/files.tar" .
    [ "$(id -u)" = 0 ] && mount -t tmpfs tmpfs "$own"
    times tmpfs "$own"
    mounts bpfs_fuse quiet,format=65536
    times 'the mount' "$at"
    unmounts
    rm -rf "$work/files" "$image"*
}

# ---- all of it

compares_calls
if [ "$(id -u)" = 0 ]; then
    "$here/build/killed_test" "$here/build/bpfs_fuse" "$image" "$at" "$sweeps" || fail "a rename over an open file"
    rm -f "$image"*
else
    echo "left out: kills at each system call (they need root)"
fi
measures_tar
bash "$here/programs.sh" "$here/build/bpfs_fuse" "$1" ${checker:+"$checker"} > "$work/programs" || { cat "$work/programs"; fail programs.sh; }
tail -1 "$work/programs"
