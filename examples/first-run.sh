#!/bin/sh
# Runs a sample script with bpfs, then proves and builds bpfs.
#
# Usage: examples/first-run.sh                    all steps
#        examples/first-run.sh --unproved         step 1 only
#        examples/first-run.sh --unproved OUT     builds the program as OUT without proofs, and runs the script with it
#        examples/first-run.sh --proved           steps 2 and 3 only
#
# 1. Compiles bpfs without proofs and runs the script (1 to 2 minutes).
# 2. Proves all crates (the first time half an hour on four cores).
# 3. Builds the proved program crates/bpfs/out/bpfs, and runs the script on an image file.
set -eu
top=$(cd "$(dirname "$0")/.." && pwd)

if ! command -v rt > /dev/null; then
    cat >&2 << 'END'
first-run: `rt` is not in PATH.
bpfs is proved and compiled by `rt`, the command of the toolchain rattle-kit-13f. Add its directory to PATH:
    PATH=/path/of/the/kit/bin:$PATH sh examples/first-run.sh
`rt version` then prints a line that begins with rattle-kit-13f.
END
    exit 1
fi

work=$(mktemp -d)
script=$top/examples/first.bpfs

# Prints an empty file system of 8 blocks, as docs/format.md describes it: words 0 to 3 are the magic number, 8, 0x1000
# and 4096, word 520 is 2, and all others are 0.
empty_image() {
    printf 'BPFSRS01\010\0\0\0\0\0\0\0\0\020\0\0\0\0\0\0\0\020\0\0\0\0\0\0'
    head -c 4128 /dev/zero
    printf '\002'
    head -c 28607 /dev/zero
}

# watch WHAT COMMAND..: runs a command, prints its time every five seconds, and returns its status.
watch() {
    what=$1
    shift
    (
        seconds=0
        while sleep 5 > /dev/null 2>&1 && kill -0 $$ 2> /dev/null; do
            seconds=$((seconds + 5))
            echo "   $what: $seconds s"
        done
    ) &
    ticker=$!
    status=0
    "$@" || status=$?
    kill "$ticker" 2> /dev/null || true
    wait "$ticker" 2> /dev/null || true
    ticker=
    return "$status"
}

ticker=
trap '[ -z "$ticker" ] || kill "$ticker" 2> /dev/null || true; rm -rf "$work"' EXIT
trap 'exit 130' INT

# beside FILE: prints each line of the script with its reply from FILE. The reply to `list` has several lines.
beside() {
    awk -v replies="$1" '{
        printf "  %-32s", $0
        gap = ""
        do {
            more = (getline reply < replies) > 0
            if (more) print gap reply; else print gap "(no reply)"
            gap = sprintf("  %-32s", "")
        } while (more && reply ~ /^entry /)
    }' "$script"
}

try_script() {
    (cd "$top/crates/bpfs" && rt try --data f="$work/try" -- run f) < "$script" > "$work/log" 2>&1
}

prove() {
    goal=lib
    [ -f "$top/crates/$1/src/main.rt" ] && goal=check
    (cd "$top/crates/$1" && rt "$goal") > "$work/log" 2>&1
}

# Builds the program. The run itself fails, since there is no image.
compile() {
    (cd "$top/crates/bpfs" && rt run -- run /nonexistent/image) < /dev/null > "$work/log" 2>&1
}

unproved_run() {
    echo "== Compiling bpfs without proofs and running a sample script (1 to 2 minutes)"
    empty_image > "$work/try"
    watch "compiling" try_script || true
    sed '/^run=/,$d;/^logic/d' "$work/log" > "$work/replies"
    if [ ! -s "$work/replies" ]; then
        echo "   \`rt try\` printed no reply. The end of its output:"
        tail -20 "$work/log"
        return
    fi
    beside "$work/replies"
    echo "   (\`sync\` makes the five bytes durable; \`crash none\` is a power failure that undoes the write after it)"
}

build_unproved() {
    python3 "$top/examples/unproved_build.py" "$1" > "$work/log" 2>&1
}

# run_commands PROGRAM: formats an image, runs the script over it, and checks it.
run_commands() {
    echo "\$ bpfs format $work/f --blocks 8 --version 2"
    "$1" format "$work/f" --blocks 8 --version 2
    echo "\$ bpfs run $work/f    # each line with its reply"
    "$1" run "$work/f" < "$script" > "$work/replies"
    beside "$work/replies"
    echo "\$ bpfs check $work/f"
    "$1" check "$work/f"
}

# leave_unproved OUT: builds the program without proofs as OUT, and runs it.
leave_unproved() {
    if ! command -v python3 > /dev/null; then
        echo "first-run: \`python3\` is not in PATH" >&2
        exit 1
    elif [ -d "$1" ] || [ ! -d "$(dirname "$1")" ]; then
        echo "first-run: $1: give the path of a file, in a directory that exists" >&2
        exit 1
    fi
    echo "== Building bpfs without proofs (1 to 2 minutes)"
    watch "building" build_unproved "$1" ||
        { echo "first-run: bpfs was not built. The end of the output:" >&2; tail -20 "$work/log" >&2; exit 1; }
    program=$(realpath "$1")
    run_commands "$program"
    cat << END
== The program is $program
   It is NOT PROVED: the code of bpfs, compiled without its proofs. Next, with an image of your own:
       $program format my.img --blocks 256 --version 2
       $program run my.img < $top/examples/first.bpfs
       $program check my.img
       $program run my.img      # with lines that you type; the line \`help\` lists them
       $program --help
END
}

prove_all() {
    crates=$(sed -n 's/^\([a-z_]*\)\( [a-z_=0-9]*\)*:.*/\1/p' "$top/crates.txt" | grep -v '^bp_rows$')
    count=$(echo "$crates" | wc -l)
    at=0
    for crate in $crates; do
        at=$((at + 1))
        began=$(date +%s)
        echo "== Proving $crate ($at of $count)"
        watch "$crate" prove "$crate" || { echo "   $crate is not proved. The end of the output:"; tail -20 "$work/log"; exit 1; }
        echo "   proved in $(($(date +%s) - began)) s"
    done
}

proved_run() {
    echo "== Compiling the proved program"
    watch "compiling" compile || true
    bpfs=$top/crates/bpfs/out/bpfs
    [ -x "$bpfs" ] || { echo "first-run: bpfs was not built; run \`rt check\` in crates/bpfs. The end of the output:" >&2; tail -20 "$work/log" >&2; exit 1; }

    run_commands "$bpfs"
    echo "The program is $bpfs"
}

case "${1:-}" in
    --unproved) if [ -n "${2:-}" ]; then leave_unproved "$2"; else unproved_run; fi ;;
    --proved) prove_all; proved_run ;;
    "") unproved_run; prove_all; proved_run ;;
    *) sed -n '2,11s/^# \{0,1\}//p' "$0" >&2; exit 1 ;;
esac
