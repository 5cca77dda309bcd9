#!/bin/bash
# Uses mounted volumes by programs, and kills mounts under load.
#
#     test.sh FOLDER DISK KILLS [CHECKER]
#
# Images and mounts are in FOLDER; an fsync is measured in DISK; KILLS mounts are killed in each journal mode of SQLite;
# CHECKER is the program bpfs.
set -u
kills=$3 checker=${4:-}
work=$(mktemp -d "$1/bpfs-fuse-XXXXXX") disk=$(mktemp -d "$2/bpfs-fuse-XXXXXX")
here=$(cd "$(dirname "$0")" && pwd)
image=$work/image at=$work/mount own=$work/own logs=$work/logs
load_at=$at/load # there is no such folder when the volume is gone
mkdir "$at" "$own" "$logs" "$work/small"
everyone=$([ "$(id -u)" != 0 ] || echo ,allow_other) # empty: other users can't use the mount
passed=0 daemon=

cleanup() {
    [ -n "$daemon" ] && kill -9 "$daemon" 2> /dev/null
    umount -l "$at" 2> /dev/null
    umount -l "$work/small" 2> /dev/null
    rm -rf "$work" "$disk"
}
trap cleanup EXIT

fail() {
    echo "FAILED: $*"
    exit 1
}

# step NAME COMMAND..: the command has to succeed
step() {
    name=$1
    shift
    "$@" > "$logs/output" 2>&1 || { cat "$logs/output"; fail "$name"; }
    passed=$((passed + 1))
    echo "$name: ok"
}

# mounts PROGRAM OPTIONS: starts it, and waits until the volume is there
mounts() {
    "$here/build/$1" "$image" "$at" -f -o "$2" 2> "$logs/messages" &
    daemon=$!
    for _ in $(seq 200); do
        mountpoint -q "$at" && return
        kill -0 $daemon 2> /dev/null || { cat "$logs/messages"; fail "$1 ends at once"; }
        sleep 0.05
    done
    fail "no mount"
}

# unmounts [STATUS]: the mount has to end with this status, 0 if nothing else is said
unmounts() {
    umount "$at" || fail "no unmount"
    wait $daemon
    status=$?
    daemon=
    [ $status = "${1:-0}" ] || { cat "$logs/messages"; fail "bpfs_fuse ended with $status"; }
    check
}

kills_it() {
    kill -9 $daemon
    wait $daemon 2> /dev/null
    daemon=
    umount -l "$at"
}

check() {
    [ -z "$checker" ] || "$checker" check "$image" > /dev/null || fail "bpfs check: $("$checker" check "$image")"
}

# has_message PATTERN: the mount printed a line like this
has_message() {
    grep -q "$1" "$logs/messages" || { cat "$logs/messages"; return 1; }
}

# ---- opening

# The files in FOLDER: their sizes, times and contents
files() {
    (cd "$work" && ls -l --time-style=full-iso | grep ^-; find . -maxdepth 1 -type f -exec cksum {} +)
}

# refuses STATUS PATTERN IMAGE OPTIONS: the mount ends with the status, prints such a line, and changes no file
refuses() {
    before=$(files)
    "$here/build/san-bpfs_fuse" "$3" "$at" -f -o "$4" 2> "$logs/messages"
    status=$?
    [ $status = "$1" ] || { echo "$3, $4: status $status"; return 1; }
    has_message "$2" || return 1
    [ "$(files)" = "$before" ] || { diff <(echo "$before") <(files); return 1; }
}

opens_what_is_there() {
    refuses 7 'no such image' "$work/none" quiet || return 1
    refuses 7 'no such image' "$work/none" ro || return 1
    refuses 2 'an image has 8 to 67108864 blocks' "$work/none" format=7 || return 1
    refuses 2 'an image has 8 to 67108864 blocks' "$work/none" format=67108865 || return 1
    refuses 2 'version 1 to 3' "$work/none" format=64,version=4 || return 1
    refuses 2 'version needs format' "$work/none" version=2 || return 1
    refuses 2 'ro excludes' "$work/none" ro,format=64 || return 1
    refuses 7 'no such folder' "$work/none/image" format=64 || return 1
    head -c 65536 /dev/urandom > "$work/bytes"
    refuses 7 'not an image' "$work/bytes" format=64 || return 1
    echo text > "$work/bytes"
    refuses 7 'it has 5 bytes' "$work/bytes" format=64 || return 1
    : > "$work/bytes"
    refuses 7 'it has 0 bytes' "$work/bytes" format=64 || return 1
    exec 9> "$work/bytes" && flock 9 || return 1
    refuses 7 'in use by another process' "$work/bytes" quiet
    status=$?
    exec 9>&-
    rm "$work/bytes"
    return $status
}

# ---- programs

copies() {
    mkdir "$own/tree" && cp -r "$here/../../docs" "$here/../../README.md" "$own/tree" || return 1
    mkdir "$own/tree/c" && cp "$here"/../src/*.c "$here"/../test/*.[ch] "$own/tree/c" || return 1
    chmod -R u=rwX,go=rX "$own/tree" && find "$own/tree" -type f -exec chmod 644 {} +
    cp -r "$own/tree" "$at/tree" && diff -r "$own/tree" "$at/tree"
}

moves() {
    mv "$at/tree/docs" "$at/docs" && diff -r "$own/tree/docs" "$at/docs" && mv "$at/docs" "$at/tree/docs" || return 1
    mv "$at/tree" "$at/moved" && diff -r "$own/tree" "$at/moved"
}

pieces() {
    head -c 5000000 /dev/urandom > "$own/bytes"
    dd if="$own/bytes" of="$at/bytes" bs=1M 2> /dev/null && cmp "$own/bytes" "$at/bytes" || return 1
    dd if="$own/bytes" of="$at/small" bs=777 count=200 conv=fsync 2> /dev/null && cmp -n 155400 "$own/bytes" "$at/small" || return 1
    truncate -s 1234567 "$at/bytes" && cmp -n 1234567 "$own/bytes" "$at/bytes" && [ "$(stat -c %s "$at/bytes")" = 1234567 ] || return 1
    truncate -s 9000000 "$at/bytes" && [ "$(tail -c 7000000 "$at/bytes" | tr -d '\0' | wc -c)" = 0 ]
}

removes_open_files() {
    exec 3< "$at/small"
    rm "$at/small"
    head -c 155400 <&3 | cmp -n 155400 - "$own/bytes" && [ ! -e "$at/small" ]
    status=$?
    exec 3<&-
    return $status
}

# A folder with an open file can be deleted, and the file is there until it is closed.
removes_a_folder() {
    mkdir -p "$at/folder/deeper" && cp "$own/bytes" "$at/folder/deeper/bytes" && exec 3< "$at/folder/deeper/bytes" || return 1
    rm -r "$at/folder" && [ ! -e "$at/folder" ] && cmp "$own/bytes" - <&3
    status=$?
    exec 3<&-
    return $status
}

# The mount keeps such files in a directory that programs can't find.
keeps_its_directory() {
    [ ! -e "$at/.bpfs_fuse" ] && [ -z "$(find "$at" -name .bpfs_fuse)" ] || return 1
    ! mkdir "$at/.bpfs_fuse" && ! touch "$at/.bpfs_fuse" && ! mv "$at/small" "$at/.bpfs_fuse" && ! ln "$at/small" "$at/.bpfs_fuse" &&
        ! rm -r "$at/.bpfs_fuse" && [ -e "$at/small" ]
}

# An old mount, by the path interface of libfuse, left such a name. It is a file like others.
keeps_old_names() {
    [ "$(cat "$at/.fuse_hidden0000000200000001")" = old ] && rm "$at/.fuse_hidden0000000200000001" &&
        [ ! -e "$at/.fuse_hidden0000000200000001" ]
}

# df -i counts the files that can be found, and no others.
counts_files() {
    [ "$(df --output=iused "$at" | tail -1)" -eq "$(find "$at" -printf '%i\n' | sort -u | wc -l)" ]
}

# What a readdir says of inodes is what stat says.
has_inodes() {
    [ "$(ls -1fi "$at/tree" | sort)" = "$(cd "$at/tree" && stat -c '%i %n' . .. * | sed 's/^ *//' | sort)" ] || return 1
    [ "$(stat -c %i "$at")" = 1 ] && counts_files
}

# Pseudo-random calls on the mount and on a normal folder
is_like_a_folder() {
    mkdir "$at/fsx" "$own/fsx" || return 1
    for seed in $(seq 20); do
        mkdir "$at/fsx/$seed" "$own/fsx/$seed" && "$here/build/fsx_test" "$at/fsx/$seed" "$own/fsx/$seed" "$seed" 10000 "$at" || return 1
    done
}

# The memory of the mount, in KiB
memory() {
    awk '/^VmRSS/ { print $2 }' /proc/$daemon/status
}

# The mount forgets the names that the kernel forgets. The log and the caches of the library take their memory in the first
# round.
forgets_files() {
    "$here/build/mounted_test" forgets "$at" 100000 || return 1
    before=$(memory)
    "$here/build/mounted_test" forgets "$at" 100000 || return 1
    after=$(memory)
    echo "memory: $before KiB, then $after KiB"
    [ $((after - before)) -lt 5000 ] && rm -f "$at"/f*
}

archives() {
    tar -C "$own/tree" -cf "$at/tree.tar" . && mkdir "$at/untarred" && tar -C "$at/untarred" -xf "$at/tree.tar" &&
        diff -r "$own/tree" "$at/untarred"
}

commits() {
    export GIT_CONFIG_GLOBAL=/dev/null GIT_AUTHOR_NAME=a GIT_AUTHOR_EMAIL=a@b GIT_COMMITTER_NAME=a GIT_COMMITTER_EMAIL=a@b
    git init -q "$at/repository" && cd "$at/repository" || return 1
    for i in 1 2 3 4 5; do
        cp "$own/tree/README.md" "file$i" && echo "$i" >> file1 && git add -A && git commit -qm "commit $i" || return 1
    done
    git gc -q && git fsck --strict && [ "$(git rev-list --count HEAD)" = 5 ] && git clone -q . ../clone &&
        diff -r -x .git . ../clone && [ -n "$(find ../clone/.git/objects -type f -links 2)" ]
    status=$?
    cd "$here" && return $status
}

writes_at_random() {
    fio --name=job --directory="$at" --size=8m --rw=randwrite --bs=4k --fsync=64 --verify=crc32c --verify_fatal=1 \
        --verify_state_save=0 --ioengine=psync --runtime=20 --minimal > /dev/null
}

# database JOURNAL: transactions, one rolled back, and a look at all of it
database() {
    rm -f "$at/base"
    sqlite3 -bail "$at/base" "pragma journal_mode=$1; pragma synchronous=full; create table t(n integer primary key, b blob);
        with recursive r(n) as (select 1 union all select n+1 from r where n<2000) insert into t select n, randomblob(n%700) from r;
        update t set b=zeroblob(10) where n%3=0; delete from t where n%5=0; vacuum;" > /dev/null || return 1
    [ "$1" = off ] || sqlite3 -bail "$at/base" "begin; delete from t; rollback;" || return 1
    [ "$(sqlite3 "$at/base" "pragma integrity_check; select count(*) from t;" | tr '\n' ' ')" = "ok 1600 " ]
}

# ---- modes, owners, times and symbolic links

# Files and directories whose modes, owners and times are not those of a new one, and symbolic links
make_sample() {
    mkdir -p "$own/sample/dir/deeper" "$own/sample/private" "$own/sample/shared" && cd "$own/sample" || return 1
    printf '#!/bin/sh\necho "ran with $1"\n' > script && echo secret > private/secret && echo text > dir/text && : > empty
    cp "$here"/*.c dir && ln -s text dir/link && ln -s ../script dir/up && ln -s /etc absolute && ln -s dir to-dir && ln -s nowhere dangling
    [ -z "$everyone" ] || { chown 1000:1001 dir/text && chown -h 65534:16777215 dangling && chown -R 7:8 shared; }
    chmod 755 script && chmod 600 private/secret && chmod 700 private && chmod 2775 shared && chmod 000 empty && chmod 4711 dir/text
    find . -exec touch -h -d '2015-05-05 05:05:05.5' {} + && touch -d '1999-12-31 23:59:59.123456789' script && touch -d '1960-01-01 00:00:00.1' dir/text && touch -d 2100-01-01 empty
    touch -h -d '2001-02-03 04:05:06.7' dangling && touch -d '2020-02-20 20:20' dir/deeper dir private/secret shared
    cd "$here"
}

# What is kept of all in a folder
list() {
    (cd "$1" && find . -type d -printf '%P %y %m %U %G %T@\n' -o -printf '%P %y %m %U %G %T@ %s %l\n') | sort
}

is_like() {
    diff <(list "$1") <(list "$2") && diff -r --no-dereference "$1" "$2"
}

copies_attributes() {
    cp -a "$own/sample" "$at/sample" && is_like "$own/sample" "$at/sample" || return 1
    cp -p "$own/sample/script" "$at/script" && [ "$(stat -c '%a %y' "$at/script")" = "$(stat -c '%a %y' "$own/sample/script")" ]
}

archives_attributes() {
    mkdir "$at/packed" "$own/unpacked" && tar -C "$own/sample" --format=posix -cpf - . | tar -C "$at/packed" -xpf - || return 1
    is_like "$own/sample" "$at/packed" || return 1
    tar -C "$at/packed" --format=posix -cpf - . | tar -C "$own/unpacked" -xpf - && is_like "$own/sample" "$own/unpacked"
}

# The second run finds nothing to copy.
mirrors() {
    rsync -a "$own/sample/" "$at/mirror" && is_like "$own/sample" "$at/mirror" && [ -z "$(rsync -ai "$own/sample/" "$at/mirror")" ]
}

runs_programs() {
    [ "$("$at/sample/script" words)" = 'ran with words' ] && cp -p "$(type -P true)" "$at/true" && "$at/true" || return 1
    chmod 644 "$at/script" && ! "$at/script" && chmod +x "$at/script" && "$at/script"
}

links_by_symbols() {
    cd "$at" && ln -s first symbol && ln -sf second symbol && [ "$(readlink symbol)" = second ] && ! cat symbol || return 1
    echo text > second && [ "$(cat symbol)" = text ] && echo more >> symbol && [ "$(cat second)" = "$(printf 'text\nmore')" ] || return 1
    ln -sfn sample/dir symbol && [ "$(cat symbol/text)" = text ] && cd symbol/deeper && [ "$(pwd -P)" = "$at/sample/dir/deeper" ] && cd "$at" || return 1
    ! ln -s other symbol/text && mv symbol symbol2 && [ "$(readlink symbol2)" = sample/dir ] && rm symbol2 && [ -e sample/dir/text ] || return 1
    [ "$(find sample -type l | wc -l)" = 5 ] && cd "$here"
}

makes_an_environment() {
    python3 -m venv --without-pip "$at/venv" && [ "$("$at/venv/bin/python3" -c 'import sys; print(sys.prefix)')" = "$at/venv" ]
}

# Before version 3, modes, owners and symbolic links are not kept. With `quiet`, changes succeed.
forgets_attributes() {
    echo text > "$at/file" && chmod 600 "$at/file" && chown 1:1 "$at/file" && touch -d 2001-02-03 "$at/file" || return 1
    [ "$(stat -c '%a %u' "$at/file")" = "644 $(id -u)" ] && ! ln -s file "$at/symbol" && [ "$(stat -c %y "$at/file" | cut -c1-10)" = 2001-02-03 ]
}

keeps_in_version_3() {
    [ "$(stat -c %a "$at/file")" = 600 ] && ln -s file "$at/symbol" && [ "$(cat "$at/symbol")" = text ]
}

keeps_what_was_synced() {
    cp -a "$own/sample" "$at/sample" && echo more >> "$at/sample/empty" && sync "$at/sample" && list "$at/sample" > "$own/list" || return 1
    kills_it
    mounts bpfs_fuse quiet
    list "$at/sample" | diff "$own/list" -
}

# ---- when calls are carried

# Each of these makes all calls so far durable, also those on other files (README.md).
carries_at_each() {
    echo x > "$at/other"
    for how in 'sync -d other' 'sync other' 'sync .' 'dd if=second of=other oflag=sync' 'dd if=second of=other oflag=dsync'; do
        echo first > "$at/first" && echo second > "$at/second" || return 1
        (cd "$at" && echo third > first && eval "$how" 2> "$logs/dd") || return 1
        kills_it
        mounts bpfs_fuse quiet
        [ "$(cat "$at/first")" = third ] || { echo "not durable: $how"; return 1; }
    done
}

# No call may run out of room in the log, however many come.
looks_often() {
    mkdir "$at/looked" && "$here/build/mounted_test" looks "$at/looked" 300000
}

# A file is durable a little more than a second after its write, also if calls come all the time.
is_carried_under_load() {
    echo bytes > "$at/late"
    for _ in $(seq 16); do
        "$here/build/mounted_test" looks "$at" 10
        sleep 0.1
    done
    kills_it
    mounts bpfs_fuse quiet
    [ "$(cat "$at/late")" = bytes ]
}

is_carried_when_idle() {
    echo bytes > "$at/idle"
    when=$(stat -c %y "$at/idle")
    sleep 1.6
    kills_it
    mounts bpfs_fuse quiet
    [ "$(cat "$at/idle")" = bytes ] && [ "$(stat -c %y "$at/idle")" = "$when" ]
}

# After a power failure IMAGE may lack what the journal has. An older copy of it has the same effect.
applies_the_journal() {
    echo first > "$at/first" && sync "$at/first" && cp "$image" "$own/older" || return 1
    echo second > "$at/second" && sync "$at/second" || return 1
    kills_it
    cat "$own/older" > "$image"
    mounts bpfs_fuse quiet
    [ "$(cat "$at/first")" = first ] && [ "$(cat "$at/second")" = second ] || return 1
    unmounts
    [ ! -s "$image-redo" ] && mounts bpfs_fuse ro && [ "$(cat "$at/second")" = second ]
}

# syncs_many: 3,000 new files and one fsync take at most 0.2 s on a disk, in one of three trials
syncs_many() {
    for i in 1 2 3; do
        mkdir "$at/many$i" && "$here/build/mounted_test" many "$at/many$i" 3000 || return 1
    done | tee "$disk/times"
    awk '$3 <= 5 && $6 <= 0.2 { found = 1 } END { exit !found }' "$disk/times"
}

# ---- failures

# The folder of the image is full: calls fail when the log is full, reads do not, and all go on when there is room again.
fills_the_folder() {
    head -c 3000000 /dev/urandom > "$own/many"
    head -c 20m /dev/zero > "$work/small/filler" 2> /dev/null
    cp "$own/many" "$at/first" && sync "$at/first" && return 1
    has_message "can't be saved now: No space left on device" || return 1
    for _ in $(seq 20); do cat "$own/many" > "$at/log" || break; done 2> "$logs/full"
    touch "$at/new" 2> "$logs/full" && return 1
    ls -lR "$at" > "$logs/full" && head -c 4096 "$at/first" | cmp -n 4096 - "$own/many" || return 1
    rm "$work/small/filler"
    cp "$own/many" "$at/first" && sync "$at/first" && kills_it && mounts san-bpfs_fuse quiet && cmp "$own/many" "$at/first"
}

# A follower that is gone: what is there can be read, and nothing is changed any more.
loses_the_follower() {
    echo bytes > "$at/before" && sync "$at/before" || return 1
    kill -9 "$(cat "$work/pid")" || return 1
    echo bytes > "$at/after" && sync "$at/after" && return 1
    has_message 'changes are refused from now on' || return 1
    [ "$(cat "$at/before")" = bytes ] && ! mkdir "$at/dir" && ! rm "$at/before"
}

reads_only() {
    [ "$(cat "$at/bytes")" = bytes ] || return 1
    ! touch "$at/new" && ! rm "$at/bytes" && "$here/build/mounted_test" looks "$at" 200 && return 1
    for _ in $(seq 10); do find "$at" -type f -exec cat {} + > /dev/null || return 1; done
}

# ---- kills

# An open file is replaced all the time: its name has the old bytes or the new ones.
kill_while_replaced() {
    mounts bpfs_fuse quiet
    "$here/build/mounted_test" replaces "$load_at" 20000 &
    other=$!
    sleep "0.$((RANDOM % 4))$((RANDOM % 10))"
    sync "$load_at" # there is a file
    sleep "0.$((RANDOM % 3))$((RANDOM % 10))"
    kills_it
    wait $other
    check
    mounts bpfs_fuse quiet
    "$here/build/mounted_test" whole "$load_at" 20000 || fail "the name of a file that was replaced has neither old nor new bytes"
    unmounts
    [ -z "$checker" ] || [ "$("$checker" check "$image" | cut -d' ' -f3)" = 2 ] || fail "the directory of the mount is left"
}

# Endless transactions on a database. A row has its number printed when its commit has come back. In mode delete, a file of
# the mount has to be readable then: a commit ends with the removal of the journal and a sync of its folder there, and
# sqlite3 (unixDelete) takes the commit for done if it cannot open the folder, as when the mount was killed. In the other
# modes the last step of a commit is a sync of an open file, and no such failure is passed over.
transactions() {
    base=$load_at/base-$1
    first=$(($(sqlite3 "$base" "select coalesce(max(n),0) from t" 2> /dev/null) + 1))
    awk -v first="$first" -v journal="$1" -v alive="$load_at/alive" 'BEGIN {
        if (journal == "delete") committed = "iif(readfile(\047" alive "\047) is null, \047unsure\047, \047committed\047)"
        else committed = "\047committed\047"
        print "pragma journal_mode=" journal "; pragma synchronous=extra;"
        for (n = first; ; n++)
            print "begin; insert into t values(" n ", randomblob(" (n * 37) % 3000 ")); update s set n=" n "; commit;",
                "select " committed ", " n ";"
    }' | stdbuf -oL sqlite3 -bail "$base" > "$logs/transactions" 2> /dev/null
}

# Endless new bytes for one file, each by a rename and without a sync.
replacements() {
    n=0
    while yes "$n" 2> /dev/null | head -c 20000 > "$load_at/new" && mv "$load_at/new" "$load_at/current"; do n=$((n + 1)); done 2> /dev/null
}

is_whole() {
    [ ! -e "$load_at/current" ] || { [ "$(stat -c %s "$load_at/current")" = 20000 ] && [ "$(head -c 19980 "$load_at/current" | sort -u | wc -l)" -le 2 ]; }
}

# look JOURNAL: ok, how many rows there are, how many there should be, the last one, and the number that changed with it
look() {
    sqlite3 "$load_at/base-$1" "pragma integrity_check; select count(*) from t; select coalesce(max(n)-min(n)+1,0) from t;
        select coalesce(max(n),0) from t; select n from s;" 2>&1 | tr '\n' ' '
}

# is_right LAST WORDS..: what look has found: all rows, up to the last one that was committed at least
is_right() {
    [ $# = 6 ] && [ "$2" = ok ] && [ "$3" = "$4" ] && [ "$5" = "$6" ] && [ "$5" -ge "$1" ]
}

last_committed() {
    last=$(grep -o '^committed|[0-9]*$' "$logs/transactions" | tail -1 | cut -d'|' -f2)
    echo "${last:-0}"
}

waits_for_a_commit() {
    for _ in $(seq 200); do
        [ "$(last_committed)" != 0 ] && return
        sleep 0.02
    done
    fail "no transaction"
}

# Keeps the database small.
forgets_rows() {
    sqlite3 "$load_at/base-$1" "delete from t where n <= (select max(n) from t) - 100" || fail "no delete"
}

kill_under_load() {
    mounts bpfs_fuse quiet
    : > "$logs/transactions"
    transactions "$1" &
    load=$!
    replacements &
    other=$!
    waits_for_a_commit
    sleep "0.$((RANDOM % 4))$((RANDOM % 10))"
    kills_it
    wait $load
    kill $other 2> /dev/null
    wait $other 2> /dev/null
    check
    mounts bpfs_fuse quiet
    is_whole || fail "a renamed file is neither the old nor the new one"
    last=$(last_committed) found=$(look "$1")
    is_right "$last" $found || fail "after a kill in mode $1: $found, and $last was committed"
    transactions_in_all=$(echo $found | cut -d' ' -f4)
    counts_files || fail "hidden files are left"
    forgets_rows "$1"
    unmounts
}

kill_in_mode() {
    for _ in $(seq "$kills"); do kill_under_load "$1"; done
    echo "journal $1: killed $kills times under load, $transactions_in_all transactions, all that were committed are there, integrity_check is ok"
    passed=$((passed + 1))
}

make_bases() {
    mkdir "$load_at" && echo alive > "$load_at/alive"
    for journal in $modes; do
        sqlite3 "$load_at/base-$journal" "create table t(n integer primary key, b blob); create table s(n); insert into s values(0);"
    done
}

# The leader is killed under load, and its image is deleted: the follower's has all that was committed.
lead_and_lose() {
    mounts bpfs_fuse "quiet,follower=exec '$here/build/san-follower' '$work/followed' 16384 cached 2> '$work/follower'"
    : > "$logs/transactions"
    transactions delete &
    load=$!
    waits_for_a_commit
    sleep 1
    kills_it
    wait $load
    for _ in $(seq 100); do
        grep -q epoch "$work/follower" && break
        sleep 0.05
    done
    cat "$work/follower"
    rm -f "$image" "$image-redo"
    flock "$work/followed" mv "$work/followed" "$image" # when the follower has closed it
    check
    mounts bpfs_fuse quiet
    last=$(last_committed) found=$(look delete)
    is_right "$last" $found || fail "at the follower: $found, and $last was committed"
    unmounts
    echo "the follower of a killed leader: ok, $last were committed, the last one there is $(echo $found | cut -d' ' -f4)"
    passed=$((passed + 1))
}

# ---- all of it

if [ -n "$everyone" ] && unshare -m true 2> "$logs/output"; then
    step "mount(8), fstab, other users, mounts that fail" bash mount_test.sh "$1"
else
    echo "left out: mount(8) (no mount namespace can be made)"
fi
modes='delete truncate persist wal' # a kill within a transaction of the modes off and memory leaves no database
step "images that can't be opened" opens_what_is_there

for version in 1 2; do
    mounts san-bpfs_fuse cached,format=16384,version=$version
    mkdir "$at/calls"
    step "system calls, version $version" build/mounted_test calls "$at/calls" $version
    unmounts
    mounts san-bpfs_fuse quiet
    step "modes, owners and times, version $version" forgets_attributes
    unmounts
    rm -f "$image" "$image-redo"
done

mounts san-bpfs_fuse "cached,format=16384$everyone"
mkdir "$at/calls"
step "system calls" build/mounted_test calls "$at/calls" 3
if [ -n "$everyone" ]; then mkdir "$at/others" && step "other users" build/mounted_test others "$at/others"; else echo "left out: other users"; fi
mkdir "$at/posix" && step "cases of POSIX" build/posix_test "$at/posix" mount
make_sample || fail "no sample"
step "cp -a, cp -p" copies_attributes
step "tar -p, there and back" archives_attributes
if [ -x "$(command -v rsync)" ]; then step "rsync -a, twice" mirrors; else echo "left out: rsync"; fi
step "programs and scripts" runs_programs
step "ln -s" links_by_symbols
if [ -x "$(command -v python3)" ]; then step "python3 -m venv" makes_an_environment; else echo "left out: python3"; fi
list "$at" > "$own/list"
find "$at" -printf '%i %n %b %P\n' | sort > "$own/inodes"
unmounts
mounts san-bpfs_fuse cached
step "mounted again, with the same modes, owners and times" diff "$own/list" <(list "$at")
step "the same inode numbers and blocks" diff "$own/inodes" <(find "$at" -printf '%i %n %b %P\n' | sort)
rm -rf "${at:?}"/*
step "cp -r, diff -r" copies
step "ls -i, df -i" has_inodes
step "mv" moves
step "dd, truncate" pieces
step "the directory of the mount" keeps_its_directory
step "rm of an open file" removes_open_files
step "rm -r of a folder with an open file" removes_a_folder
step "tar" archives
mkdir "$at/appended" "$at/opened"
step "two processes append by two names" build/mounted_test appends "$at/appended" 1000
echo old > "$at/.fuse_hidden0000000200000001"
step "20,000 times open of a file that is replaced" build/mounted_test opens "$at/opened" 20000
step "20 times 10,000 pseudo-random calls, as in a normal folder" is_like_a_folder
if [ -x "$(command -v git)" ]; then step "git" commits; else echo "left out: git"; fi
if [ -x "$(command -v fio)" ]; then step "fio" writes_at_random; else echo "left out: fio"; fi
if [ -x "$(command -v sqlite3)" ]; then
    for journal in $modes off memory; do step "sqlite3, journal $journal" database $journal; done
else
    echo "left out: sqlite3"
fi
sync "$at/moved/README.md" # so that the first mount writes nothing meanwhile
step "a second mount is refused" refuses 7 'in use by another process' "$image" quiet
unmounts
mounts san-bpfs_fuse quiet
step "mounted again" diff -r "$own/tree" "$at/moved"
step "a name that an old libfuse left" keeps_old_names
step "mounted again, as the normal folder" diff -r --no-dereference "$own/fsx" "$at/fsx"
exec 3< "$at/bytes"
rm "$at/bytes"
sync "$at/moved/README.md"
kills_it
exec 3<&-
step "read-only with a journal" refuses 7 'the journal is not empty' "$image" ro
mv "$image-redo" "$own/journal"
step "a journal that is missing" refuses 7 'its journal, IMAGE-redo, is missing or damaged' "$image" format=64
head -c 3000000 /dev/zero > "$image-redo"
step "a journal that is no journal" refuses 7 'its journal, IMAGE-redo, is missing or damaged' "$image" quiet
mv "$own/journal" "$image-redo"
mounts san-bpfs_fuse cached
step "files that were open at a kill are deleted" counts_files
echo last > "$at/last"
kill -TERM $daemon
wait $daemon || fail "bpfs_fuse ended with $? at a SIGTERM"
check
mounts san-bpfs_fuse cached
step "a SIGTERM unmounts" grep -q last "$at/last"
echo bytes > "$at/bytes"
mkdir "$at/posix-ro" && build/posix_test "$at/posix-ro" prepare || fail "no files for a read-only mount"
unmounts
sum=$(cksum < "$image")
mounts san-bpfs_fuse ro
step "a read-only mount" reads_only
step "cases of POSIX on a read-only mount" build/posix_test "$at/posix-ro" read-only
unmounts
[ "$(cksum < "$image")" = "$sum" ] || fail "a read-only mount changed the image"
rm -f "$image" "$image-redo"

mounts bpfs_fuse quiet,format=16384
step "300,000 times statx" looks_often
step "100,000 lookups that are forgotten" forgets_files
cat "$logs/output"
step "carried under load" is_carried_under_load
step "carried when idle" is_carried_when_idle
step "a kill leaves what was synced" keeps_what_was_synced
step "fsync, fdatasync, O_SYNC, O_DSYNC and sync of a folder" carries_at_each
step "the journal is applied, and emptied" applies_the_journal
unmounts
rm -f "$image" "$image-redo"

mounts san-bpfs_fuse cached,format=4096
mkdir "$at/removed"
step "1,000 open files are removed from a full volume" build/mounted_test removes "$at/removed" 1000
rm -rf "${at:?}"/*
mkdir "$at/fsx" "$own/blocks"
step "pseudo-random calls" build/fsx_test "$at/fsx" "$own/blocks" 99 20000
find "$at" -printf '%i %b %P\n' | sort > "$own/inodes"
unmounts
mounts san-bpfs_fuse cached
step "the same blocks after all of them" diff "$own/inodes" <(find "$at" -printf '%i %b %P\n' | sort)
unmounts
rm -f "$image" "$image-redo"

image=$disk/image
mounts bpfs_fuse quiet,format=16384
step "3,000 files and one fsync" syncs_many
cat "$disk/times"
unmounts

if mount -t tmpfs -o size=12m none "$work/small" 2> /dev/null; then
    step "cases of POSIX on tmpfs" build/posix_test "$work/small"
    image=$work/small/image
    mounts san-bpfs_fuse quiet,format=1024
    step "a full folder" fills_the_folder
    unmounts
    umount "$work/small"
else
    echo "left out: a full folder (no tmpfs can be mounted)"
fi

# The second magic number of version 3 (docs/format.md): words 6 and 7 have what words 2 and 3 have under the first one.
image=$work/image
mounts san-bpfs_fuse cached,format=1024
echo text > "$at/file"
chmod 600 "$at/file"
unmounts
dd if="$image" of="$image" bs=8 skip=2 seek=6 count=2 conv=notrunc 2> "$logs/messages"
printf B | dd of="$image" bs=1 seek=7 conv=notrunc 2> "$logs/messages"
check
mounts san-bpfs_fuse cached
step "an image with the second magic number" keeps_in_version_3
unmounts
rm -f "$image" "$image-redo"

mounts san-bpfs_fuse "format=1024,follower=echo \$\$ > '$work/pid'; exec '$here/build/san-follower' '$work/followed' 1024 2> '$work/follower'"
step "a follower that is gone" loses_the_follower
unmounts 1
rm -f "$image" "$image-redo" "$work/followed"*

mounts bpfs_fuse quiet,format=16384
mkdir "$load_at"
unmounts
for _ in $(seq "$kills"); do kill_while_replaced; done
echo "an open file that is replaced: killed $kills times, its name has the old bytes or the new ones"
passed=$((passed + 1))
rm -f "$image" "$image-redo"

if [ -n "$everyone" ]; then
    step "the same, killed at each system call" "$here/build/killed_test" "$here/build/bpfs_fuse" "$image" "$at" 1
    cat "$logs/output"
    rm -f "$image" "$image-redo"
else
    echo "left out: kills at each system call (they need root)"
fi

if [ -x "$(command -v sqlite3)" ]; then
    mounts bpfs_fuse quiet,format=16384
    make_bases
    unmounts
    for journal in $modes; do kill_in_mode $journal; done
    lead_and_lose
fi
[ -n "$checker" ] || echo "left out: bpfs check of each image (the program is not built)"
echo "$passed passed, 0 failed"
