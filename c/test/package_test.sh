#!/bin/sh
# Installs the package into a new folder, uses it from another one, and removes it. It runs in the folder of the Makefile, after
# `make all`, and compares the symbols of the archives with test/symbols.txt.
#
#     package_test.sh FOLDER
#
# LIBRARY, KIT, CC and CXX are those of the Makefile. HAS_PMEM=yes: there is libbpfs_pmem.a.
set -u
work=$(mktemp -d "$1/package-XXXXXX") version=$(cat ../VERSION)
trap 'rm -rf "$work"' EXIT
unset MAKEFLAGS MFLAGS

fail() {
    echo "FAILED: $*"
    exit 1
}

# Symbols: those of the list and no others. The follower has prefixes of its own.
for archive in libbpfs.a libbpfs_follow.a libbpfs_pmem.a; do
    [ $archive != libbpfs_pmem.a ] || [ "${HAS_PMEM:-}" = yes ] || continue
    nm -g --defined-only build/$archive 2> /dev/null | awk -v archive=$archive 'NF == 3 { print archive, $3 }' | LC_ALL=C sort > "$work/found"
    grep "^$archive " test/symbols.txt | diff - "$work/found" || fail "symbols of $archive: < is test/symbols.txt"
done
grep '^libbpfs_follow.a' test/symbols.txt | grep -v ' bpfs_\(follow\|stream_\)' && fail "a prefix of libbpfs_follow.a"
grep '^libbpfs_pmem.a' test/symbols.txt | grep -v ' bpfs_pmem_' && fail "a prefix of libbpfs_pmem.a"
grep '^libbpfs.a' test/symbols.txt | grep -v ' bpfs_\| rattle_\(alloc\|dealloc\|realloc\)$' && fail "a prefix of libbpfs.a"
grep '^libbpfs.a' test/symbols.txt | grep ' bpfs_\(follow\|stream_\|pmem_\)' && fail "libbpfs.a has a symbol of another archive"
# Each export is declared, each function that is declared is there, and each has a manual page.
for header in include/bpfs.h include/bpfs/*.h; do
    sed -n '/^#define/d; /^static/d; /^typedef/d; s/^[a-z][a-z0-9_ ]* \**\(bpfs_[a-z_]*\)(.*/\1/p' "$header"
done | LC_ALL=C sort -u > "$work/declared"
sed -n 's/^[a-z_]*\.a \(bpfs_.*\)/\1/p' test/symbols.txt | LC_ALL=C sort > "$work/defined"
diff "$work/declared" "$work/defined" || fail "< is declared, > is defined"

# What is installed is the same with DESTDIR, and uninstall leaves nothing.
install_to() {
    ${MAKE:-make} -s "$@" LIBRARY="$LIBRARY" KIT="$KIT" CC="${CC:-cc}" > "$work/printed" 2>&1 || { cat "$work/printed"; fail "make $*"; }
}
prefix=$work/installed
install_to install PREFIX="$prefix" DESTDIR=
install_to install PREFIX=/usr/local DESTDIR="$work/staged"
(cd "$prefix" && find . -type f | sort) > "$work/files"
(cd "$work/staged/usr/local" && find . -type f | sort) | diff "$work/files" - || fail "DESTDIR"
for file in include/bpfs.h include/bpfs/carry.h include/bpfs/file.h include/bpfs/redo.h include/bpfs/pmem.h include/bpfs/stream.h \
    include/bpfs/follow.h lib/libbpfs.a lib/libbpfs_follow.a lib/pkgconfig/bpfs.pc share/man/man3/bpfs.3 share/man/man5/bpfs.5; do
    grep -qx "./$file" "$work/files" || fail "$file is not installed"
done
grep -q '^prefix=/usr/local$' "$work/staged/usr/local/lib/pkgconfig/bpfs.pc" || fail "bpfs.pc has DESTDIR"
install_to uninstall PREFIX=/usr/local DESTDIR="$work/staged"
[ -z "$(find "$work/staged" ! -type d)" ] && [ ! -e "$work/staged/usr/local/include/bpfs" ] || fail "uninstall leaves files"

# The versions of the header, of the archive and of the package are that of the file VERSION.
mkdir "$work/program"
cp build/header.c "$work/program/program.c"
cat > "$work/program/version.c" << 'END'
#include <bpfs.h>
#include <stdio.h>
int main(void) {
    printf("%d.%d.%d %s\n", BPFS_VERSION_MAJOR, BPFS_VERSION_MINOR, BPFS_VERSION_PATCH, bpfs_version());
    return 0;
}
END
cat > "$work/program/follows.cpp" << 'END'
#include <bpfs/file.h>
#include <bpfs/follow.h>
int main() {
    bpfs fs = BPFS_CLOSED;
    bpfs_file file;
    bpfs_follower follower;
    if (bpfs_file_create(&file, "followed", 16, 2, BPFS_FILE_CACHED)) return 1;
    bpfs_follower_of(&follower, &file.carrier, 16, 0);
    bpfs_follower_close(&follower);
    return bpfs_file_mount(&fs, &file, nullptr) || bpfs_close(&fs) || bpfs_file_close(&file);
}
END

# A program elsewhere, as README.md says.
if [ -n "$(command -v pkg-config)" ]; then
    PKG_CONFIG_PATH=$prefix/lib/pkgconfig
    export PKG_CONFIG_PATH
    [ "$(pkg-config --modversion bpfs)" = "$version" ] || fail "the version of bpfs.pc"
    cd "$work/program" || exit 3
    ${CC:-cc} program.c $(pkg-config --cflags --libs bpfs) -o program && [ "$(./program)" = hello ] || fail "a program in another folder"
    ${CC:-cc} version.c $(pkg-config --cflags --libs bpfs) -o version && [ "$(./version)" = "$version $version" ] || fail "$(./version): not $version"
    if [ -x "$(command -v "${CXX:-c++}")" ]; then
        ${CXX:-c++} -std=c++17 follows.cpp $(pkg-config --cflags --libs bpfs_follow) -o follows && ./follows || fail "a follower in another folder"
    fi
    if [ "${HAS_PMEM:-}" = yes ]; then
        printf '#include <bpfs/pmem.h>\nint main(void) { bpfs_pmem it; return bpfs_pmem_open(&it, "none") != -1; }\n' > maps.c
        ${CC:-cc} maps.c $(pkg-config --cflags --libs bpfs_pmem) -o maps && ./maps || fail "a mapped image in another folder"
    fi
    cd "$OLDPWD" || exit 3
else
    echo "left out: a program that is built by pkg-config (it is not installed)"
fi

# The manual pages.
[ ! -x "$(command -v python3)" ] || python3 man/make.py --check || fail "man/make.py has to be run"
if [ -x "$(command -v man)" ] && man -M "$prefix/share/man" bpfs > /dev/null 2>&1; then
    for page in 3:bpfs 5:bpfs 3:bpfs_write 3:bpfs_carry 3:bpfs_redo_open 3:bpfs_follow; do
        MANWIDTH=80 man -M "$prefix/share/man" "${page%:*}" "${page#*:}" 2>&1 | grep -q "${page#*:}" || fail "man ${page%:*} ${page#*:}"
    done
    for page in man/*.[35]; do
        man --warnings -l "$page" 2>&1 > /dev/null | grep . && fail "a warning for $page"
    done
else
    echo "left out: manual pages (there is no man)"
fi
echo "the package: $(wc -l < "$work/files") files, version $version"
