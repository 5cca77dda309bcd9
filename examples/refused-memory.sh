#!/bin/sh
# Tests bpfs with too little memory: lets each of the first 250 allocations fail in turn, in `format`, `check`, `play`,
# and in `run` with a script of all calls. Each run has to end in one of these ways:
# - with the status and the replies of a run without a failure;
# - with status 8 and no reply;
# - for `list` and `cache` in a script: with `err 12 memory` in place of that reply.
# The script also searches directories of 40 and 70 names often. Without memory, a volume remembers no names or makes no
# index of them, which changes no reply.
#
# Usage: examples/refused-memory.sh [PROGRAM]
#
# PROGRAM is a built bpfs (crates/bpfs/out/bpfs). Needs a C compiler, for a malloc that fails once, and a dynamically
# linked C library. The exit status is 1 if a run ends in another way.
set -eu
here=$(cd "$(dirname "$0")" && pwd)
bpfs=${1:-$here/../crates/bpfs/out/bpfs}
[ -x "$bpfs" ] || { echo "bpfs is not built: run examples/first-run.sh" >&2; exit 1; }
work=$(mktemp -d)
trap 'rm -rf "$work"' EXIT
cat > "$work/refuse.c" <<'C'
#define _GNU_SOURCE
#include <dlfcn.h>
#include <errno.h>
#include <stdlib.h>
static long until = -1;
static void *(*real)(size_t);
void *malloc(size_t size)
{
    if (!real) {
        const char *number = getenv("REFUSED_CALL");
        until = number ? atol(number) : 0;
        real = (void *(*)(size_t))dlsym(RTLD_NEXT, "malloc");
    }
    if (until > 0 && --until == 0) {
        errno = ENOMEM;
        return NULL;
    }
    return real(size);
}
C
cc -shared -fPIC -O1 -o "$work/refuse.so" "$work/refuse.c" -ldl
"$bpfs" format "$work/image" --blocks 64 > /dev/null
{
    printf 'mkdir /m\nmkdir /n\n'
    for i in $(seq 10 49); do echo "create /m/$i"; done
    for i in $(seq 10 79); do echo "create /n/$i"; done
    for i in $(seq 20 49); do printf 'stat /m/%s\nstat /n/%s\n' "$i" "$i"; done
    printf 'unlink /m/40\nunlink /n/40\nrename /m/41 /n/40\nrename /n/41 /n/x\nstat /m/40\nstat /n/40\nstat /n/x\ncreate /n/41\nrmdir /n\n'
} > "$work/script"
printf 'create /a\nmkdir /d\nwrite /a 0 6869\ntruncate /a 5000\nrename /a /d/b\nread /d/b 0 8\nlist /d\nstat /d\nspace\nlog\nstorm 7\ncrash all\nsync\ncache 7\nlist /\n' >> "$work/script"

# run CALL ARGUMENTS FILE: runs the program while call number CALL of malloc fails (0: none), and writes its replies and
# its status to FILE.
run() {
    cp "$work/image" "$work/f"
    status=0
    # shellcheck disable=SC2086
    (cd "$work" && REFUSED_CALL=$1 LD_PRELOAD="$work/refuse.so" "$bpfs" $2 < "$work/script" > "$3" 2> /dev/null) || status=$?
    echo "status $status" >> "$3"
}

for words in "format g --blocks 8" "check f" "play f --seed 9 --count 200" "run f"; do
    run 0 "$words" "$work/whole"
    same=0 none=0 listed=0 call=1
    while [ "$call" -le 250 ]; do
        run "$call" "$words" "$work/told"
        if cmp -s "$work/whole" "$work/told"; then
            same=$((same + 1))
        elif [ "$(cat "$work/told")" = "status 8" ]; then
            none=$((none + 1))
        elif [ "$words" = "run f" ] && grep -q '^err 12 memory$' "$work/told"; then
            listed=$((listed + 1))
        else
            echo "FAILED: bpfs $words, with allocation $call failing:"
            cat "$work/told"
            exit 1
        fi
        call=$((call + 1))
    done
    echo "ok: bpfs $words: of 250 failing allocations, $none end the run with status 8, $listed give err 12, $same change nothing or do not occur"
done
