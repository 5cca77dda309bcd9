#!/bin/sh
# Runs the tests that make has built, in the folder of the Makefile. test.sh ROUNDS CUTS FOLDER LARGE [CHECKER]: ROUNDS kills of each kind, CUTS simulated ends of
# each carrier, images in FOLDER, LARGE blocks of the large one, and the program bpfs. The environment has CALLS, how many calls are compared with
# a model, and SEED.
set -u
rounds=$1 cuts=$2 folder=$(mktemp -d "$3/bpfs-c-XXXXXX") large=$4 checker=${5:-}
trap 'rm -rf "$folder"' EXIT
passed=0
if [ "${HAS_PMEM:-}" = yes ]; then
    PMEM_IS_PMEM_FORCE=1
    export PMEM_IS_PMEM_FORCE
fi

fail() {
    echo "FAILED: $*"
    exit 1
}

# compiles STANDARD FILE: without a warning, by each compiler that is there
compiles() {
    case $1 in
    c++*) language=c++ compilers="${CXX:-c++} g++ clang++" ;;
    *) language=c compilers="${CC:-cc} gcc clang" ;;
    esac
    for compiler in $(printf '%s\n' $compilers | sort -u); do
        [ -n "$(command -v "$compiler")" ] || continue
        printf '#include "%s"\n' "$2" | "$compiler" -std="$1" $strict -x $language - || fail "$compiler -std=$1: $2"
        passed=$((passed + 1))
    done
}

run() {
    "$@" || fail "$*"
    passed=$((passed + 1))
}

# Each header compiles by itself, those of the package also in C99 and C++.
strict='-Wall -Wextra -Wpedantic -Werror -fsyntax-only -I. -Iinclude'
for header in include/*.h include/bpfs/*.h examples/*.h test/*.h; do
    standards='c11 c++17'
    case $header in
    include/bpfs/pmem.h) [ "${HAS_PMEM:-}" = yes ] || continue ;;
    examples/redis.h) [ "${HAS_REDIS:-}" = yes ] || continue ;;
    include/*) standards='c99 c11 c++17' ;;
    esac
    for standard in $standards; do compiles $standard "$header"; done
done
for standard in c99 c11 c++17; do compiles $standard test/layout_test.c; done
run sh test/package_test.sh "$folder"
run build/san-texts_test "$(cat ../VERSION)"
run build/san-link_test "$folder"
build/san-example "$folder/image" > "$folder/printed" && diff examples/example.expected "$folder/printed" || fail example
rm "$folder/image"
passed=$((passed + 1))
for program in header documented; do
    here=$PWD
    [ "$(cd "$folder" && "$here/build/san-$program")" = hello ] || fail "the program of $program"
    rm "$folder/image"
    passed=$((passed + 1))
done
run build/san-calls_test
run build/san-differential_test "${CALLS:-30000}" "${SEED:-1}"
build/san-differential_test 2000 1 1000 2> "$folder/printed" && fail "a wrong byte passes"
echo "a wrong byte: found: $(cat "$folder/printed")"
passed=$((passed + 1))
run build/san-carriers_test "$folder"
run build/san-restart_test file "$cuts" 1
run build/san-restart_test redo "$cuts" 1
for order in ordered shuffled redo; do
    for group in 1 20 200; do
        run build/san-kill_test "$folder/image" "$rounds" "$group" "$order" "$group" $checker
    done
done
if [ "${HAS_PMEM:-}" = yes ]; then
    run build/san-kill_test "$folder/image" "$rounds" 5 mapped 20 $checker
    run build/san-restart_test pmem "$cuts" 1
fi
# A carrier that ignores barriers has to be found, with each of three seeds.
for seed in 1 2 3; do
    build/san-kill_test "$folder/image" 200 $seed careless 20 2> "$folder/printed"
    [ $? = 1 ] || fail "a careless carrier passes"
    echo "careless, by 20: found: $(cat "$folder/printed")"
    passed=$((passed + 1))
done
run build/san-stream_test
run build/san-large_test "$folder" "$large"
run build/san-follow_test "$folder" "$rounds" 1
run build/san-follower_test "$folder"
run build/san-follower_restart_test $((cuts / 6)) 1
if [ "${HAS_REDIS:-}" = yes ]; then
    run build/san-redis_test "$folder" $((rounds / 4 + 1)) 1
fi
[ -n "$checker" ] || echo "left out: bpfs check of each image (the program is not built)"
echo "$passed passed, 0 failed"
