#!/bin/bash
# Runs ordinary programs on a mounted volume, and each one beside it in a normal folder (tmpfs).
#
#     programs.sh BPFS_FUSE [FOLDER [CHECKER]]
#
# Images and mounts are in FOLDER (/dev/shm). A program is ok if its output, its status and the files that it leaves are
# the same on both sides. CHECKER is the program bpfs; it checks the image after the unmount. The outcome: PROGRAMS.md.
set -u
unset MAKEFLAGS MFLAGS MAKELEVEL # of a make that calls this: they change what the programs print
program=$(realpath "${1:?usage: programs.sh BPFS_FUSE [FOLDER [CHECKER]]}") checker=${3:-}
work=$(mktemp -d "${2:-/dev/shm}/bpfs-programs-XXXXXX")
image=$work/image at=$work/mount own=$work/own daemon=
export sample=$work/sample LC_ALL=C.UTF-8 TZ=UTC GIT_CONFIG_GLOBAL=$work/gitconfig GIT_CONFIG_NOSYSTEM=1
mkdir "$at" "$own" "$sample" "$work/logs"
everyone=$([ "$(id -u)" != 0 ] || echo ,allow_other,suid)
tried=0 failed=0 absent=0
umask 022

cleanup() {
    cd /
    umount "$at" 2> /dev/null || umount -l "$at" 2> /dev/null
    [ -n "$daemon" ] && kill "$daemon" 2> /dev/null
    wait
    umount "$own" 2> /dev/null
    rm -rf "$work"
}
trap cleanup EXIT

mounts() {
    "$program" "$image" "$at" -f -o "$1$everyone" 2> "$work/logs/messages" &
    daemon=$!
    for _ in $(seq 200); do
        mountpoint -q "$at" && return
        kill -0 $daemon 2> /dev/null || break
        sleep 0.05
    done
    cat "$work/logs/messages"
    echo "no mount"
    exit 1
}

unmounts() {
    umount "$at" && wait $daemon
    status=$?
    daemon=
    return $status
}

# names FOLDER..: type, mode, owner, links, size, target and bytes of all files below (sizes and links: not of folders)
names() {
    find "$@" \( -type d -printf '%p %y %m %U %G\n' -o -printf '%p %y %m %U %G %n %s %l\n' \) | sort
    find "$@" -type f -exec cksum {} + | sort
}

# list FOLDER..: the same with the times of the last change
list() {
    names "$@"
    find "$@" -printf '%p %T@\n' | sort
}
export -f names list

# runs FOLDER COMMAND: runs it in the folder; the output ends with the status
runs() {
    mkdir -p "$1"
    (cd "$1" && timeout 300 bash -c "$2" < "$work/empty" 2>&1
    echo "status $?")
}

# present PROGRAM..: all are installed; if not, the program is left out
present() {
    for needed in "$@"; do
        command -v "$needed" > "$work/logs/found" || { echo "$name: left out ($needed is not installed)"; return 1; }
    done
}

# result: a line for the program NAME, which is ok if both logs are the same
result() {
    tried=$((tried + 1))
    if cmp -s "$work/logs/own" "$work/logs/mount"; then
        echo "$name: ok"
    else
        failed=$((failed + 1))
        echo "$name: FAIL (<: normal folder, >: mount)"
        diff "$work/logs/own" "$work/logs/mount" | head -20
    fi
}

# both NAME PROGRAMS COMMAND: the command has the same output in both folders, and succeeds
both() {
    name=$1
    present $2 || { absent=$((absent + 1)); return; }
    folder=p$((tried + 1))
    runs "$own/$folder" "$3" > "$work/logs/own"
    runs "$at/$folder" "$3" > "$work/logs/mount"
    tail -n 1 "$work/logs/own" | grep -qx 'status 0' || echo 'the normal folder: a failure' >> "$work/logs/own"
    result
    rm -rf "${own:?}/$folder"
    # The mount keeps the folder for the comparison after the next mount, unless it is large
    [ "$(du -sm "$at/$folder" | cut -f 1)" -le 4 ] || rm -rf "${at:?}/$folder"
}

# lacks NAME PROGRAMS COMMAND TEXT: the command fails on the mount, and prints the text of the documented error
lacks() {
    name="$1 ($4)"
    present $2 || { absent=$((absent + 1)); return; }
    echo "$4" > "$work/logs/own"
    runs "$at/p$((tried + 1))" "$3" > "$work/logs/output"
    if grep -q "$4" "$work/logs/output" && ! grep -qx 'status 0' "$work/logs/output"; then
        echo "$4" > "$work/logs/mount"
    else
        cp "$work/logs/output" "$work/logs/mount"
    fi
    result
}

makes_sample() {
    cd "$sample" || exit 1
    mkdir -p docs/a/b src 'with space' empty private
    for i in $(seq 40); do seq "$i" "$((i * 100))" > "docs/a/text$i"; done
    printf '#!/bin/sh\necho "run by $0: $*"\n' > src/script && chmod 755 src/script
    printf '#include "sum.h"\nint sum(int a, int b) { return a + b; }\n' > src/sum.c
    printf 'int sum(int a, int b);\n' > src/sum.h
    printf '#include <stdio.h>\n#include "sum.h"\n' > src/main.c
    printf 'int main(void) { printf("%%d\\n", sum(40, 2)); return 0; }\n' >> src/main.c
    seq 400000 > docs/numbers
    seq 20000 | awk '{ print ($1 * 7919) % 20011, "line", $1 }' > docs/mixed
    : > empty/nothing
    echo 'größe' > 'with space/ünïcode 文件'
    echo secret > private/key && chmod 600 private/key && chmod 700 private
    ln -s ../docs/numbers docs/link && ln -s nowhere docs/dangling && ln docs/a/text1 docs/hard
    truncate -s 1M docs/sparse && echo end >> docs/sparse
    find . -exec touch -h -d '2020-02-02 02:02:02.123456789' {} +
    cd / || exit 1
}

[ "$(id -u)" = 0 ] && mount -t tmpfs tmpfs "$own"
: > "$work/empty"
git config --global user.name Tester && git config --global user.email tester@example.org
git config --global init.defaultBranch main && git config --global gc.auto 0
git config --global advice.detachedHead false
# Commits have the same names on both sides
export GIT_AUTHOR_DATE='2024-01-01T00:00:00Z' GIT_COMMITTER_DATE='2024-01-01T00:00:00Z'
makes_sample
mounts format=65536

# ---- files and folders
both 'cp -a' cp 'cp -a "$sample" t; list t'
both 'cp -p' cp 'cp -p "$sample"/src/* .; list .| grep -v "^\. "'
both 'cp -r' cp 'cp -r "$sample" t; names t'
both 'cp -a of extended attributes' 'cp python3' 'd=$(mktemp -d); echo 1 > $d/a
    python3 -c "import os, sys; os.setxattr(sys.argv[1], \"user.x\", b\"1\")" $d/a; cp -a $d/a b; rm -r $d; names .'
both 'cp -l' cp 'cp -a "$sample" t; cp -al t u; list t u'
both 'cp -u' cp 'cp -a "$sample" t; cp -auv "$sample/." t; echo new > t/docs/hard
    cp -av --backup=numbered t/docs/hard t/docs/mixed; names t'
both 'cp --sparse' cp 'cp --sparse=always "$sample/docs/sparse" a; cp --reflink=auto a b; cp --sparse=never a c
    names .'
both 'mv in the volume' mv 'cp -a "$sample" t; mv t u; mv u/docs/a u/src; mv u/src/sum.* u; list u/*/*; names u'
both 'mv into and out of the volume' mv 'd=$(mktemp -d); cp -a "$sample" $d/s; mv $d/s t; list t; cp -a t u
    mv u $d; list t; (cd $d; list u); rm -r $d'
both 'mv -n, mv -b, mv -T' mv 'echo 1 > a; echo 2 > b; mv -n a b; mv -b b a; mkdir c d; mv -T c d; touch d/e; mkdir f
    mv -T f d; names .'
both 'ln' ln 'echo 1 > a; ln a b; ln a b; echo 2 >> b; ln -f a c; mkdir d; ln d e; rm a; names .'
both 'ln -s' ln 'ln -s a b; echo 1 > a; cat b; ln -s /none c; cat c; ln -sfn . b; ls b; readlink -f c
    [ b/a -ef a ] && echo same; names .'
both 'rm -r' rm 'cp -a "$sample" t; rm -r t/docs; rm t; rm -rf t; ls -A'
both 'rm -r of a folder with an open file' rm 'cp -a "$sample" t; exec 3< t/docs/numbers; rm -r t; ls -A
    tail -c 20 <&3; cksum <&3'
both 'mkdir -p, rmdir -p' mkdir 'mkdir -p a/b/c/d; mkdir -m 2750 e; mkdir a; touch a/b/x; rmdir -p a/b/c/d; names .'
both 'install -m' install 'install -d -m 750 d; install -m 640 "$sample/src/sum.c" d
    install -p -m 755 "$sample/src/script" d/s; names d; stat -c %Y d/s'
both 'chmod' chmod 'cp -a "$sample" t; chmod -R go-rwx,u+s t; list t; chmod 1777 t; chmod 000 t/src
    chmod 0 t/docs/mixed; chmod =r t/docs/a/*; list t'
[ "$(id -u)" != 0 ] || both 'chown, chgrp' chown 'cp -a "$sample" t; chown -R 1234:4321 t; chgrp 99 t/src
    chown -h 7 t/docs/link; chmod 4755 t/src/script; chown 8 t/src/script; list t'
[ "$(id -u)" != 0 ] || both 'another user (setpriv)' setpriv 'chmod 755 .; cp -a "$sample" t; mkdir -m 1777 s
    echo > s/root
    setpriv --reuid 65534 --regid 65534 --clear-groups sh -c "
    cat t/private/key; echo > t/new; rm s/root; echo mine > s/mine; rm -r t/src
    cat t/docs/hard" 2>&1 | sort; names .'
both 'umask' bash 'for m in 000 022 027 077; do (umask $m; echo > f$m; mkdir d$m); done; names .'
both 'touch -d' touch 'touch -d "1999-12-31 23:59:59.987654321" a; touch -r a b; touch -h -d @5 c; ln -s a l
    touch -h -d @7 l; mkdir d; touch -d @1 d; list [a-z]'
both 'stat' stat 'cp -a "$sample" t; ln -s x l; stat -c "%n %F %a %u %g %s %Y" t/docs/[b-z]* t/src/* l
    stat -c "%n %F %a %Y" t/docs t; stat -c "%h" t/docs/hard'
both 'du --apparent-size' du 'cp -a "$sample" t; find t -type f -exec du -bl {} + | sort
    du -b t/docs/hard t/docs/a/text1'
both 'df' df 'df --output=avail . | tail -1 | awk "{ print (\$1 > 100000) }"; df -P . | wc -l'
both 'df -i' df 'df --output=iavail . | tail -1 | awk "{ print (\$1 > 10000) }"'
both 'ls -i' ls 'cp -a "$sample" t; ls -iR t | awk "\$1 ~ /^[0-9]+\$/ { print \$1 }" | sort | uniq -d | wc -l
    [ t/docs/hard -ef t/docs/a/text1 ] && echo same'
both 'ls -lR, ls -t' ls 'cp -a "$sample" t
    ls -lARt --time-style=full-iso t | grep -v "^total" | sed "s/^\(d[^ ]*\) *[0-9]* \([^ ]* [^ ]*\) *[0-9]*/\1 \2/"'
both 'find -newer' find 'cp -a "$sample" t; touch -d @2000000000 m n; touch -d @2000000001 t/docs/mixed
    find . -newer m | sort'
both 'find -perm, -size, -links, -delete' find 'cp -a "$sample" t; find t -perm -100 -type f
    find t -size +1000k | sort; find t -links +1 -type f | sort; find t -empty | sort; find t -name "text*" -delete
    names t'
both 'xargs -P' xargs 'seq 200 | xargs -P 8 -I{} sh -c "echo {} > f{}"; names . | cksum; ls | xargs -P 8 -n 5 rm; ls -A'
both 'mktemp' mktemp 'f=$(mktemp ./XXXXXX); d=$(mktemp -d ./XXXXXX); stat -c "%a %F" $f $d; rm $f; rmdir $d'
both 'truncate' truncate 'cp "$sample/docs/numbers" a; truncate -s 1000 a; truncate -s +5000 a; truncate -s 3M b
    truncate -s %4096 a; names .'
both 'split, cat' split 'split -b 100k "$sample/docs/numbers" x; cat x* | cmp - "$sample/docs/numbers"
    split -n l/7 "$sample/docs/mixed" y; names .'
both 'dd conv=fsync' dd 'dd if="$sample/docs/numbers" of=a bs=7777 conv=fsync status=none
    dd if=a of=b bs=512 oflag=sync count=200 status=none; cmp a "$sample/docs/numbers"; names .'
both 'dd conv=notrunc seek=' dd 'cp "$sample/docs/numbers" a
    echo patch | dd of=a bs=1 seek=4095 conv=notrunc,fdatasync status=none; dd if=a of=c bs=64k seek=100 status=none
    names .'
both 'dd oflag=direct' dd 'dd if="$sample/docs/numbers" of=a bs=4096 count=100 oflag=direct status=none
    dd if=a iflag=direct bs=4096 status=none | cksum; names .'
both 'sync, sync -f, shred -u' shred 'cp "$sample/docs/mixed" a; sync a .; sync -f a; shred -u a; ls -A'
both 'sparse files' cp 'dd if="$sample/docs/hard" of=a bs=1 seek=50000000 status=none; stat -c %s a; cksum a; cp a b
    cmp a b; truncate -s 10 b; names b'
both 'a file over 4 GiB' dd 'dd if="$sample/docs/hard" of=a bs=1M seek=5000 status=none; stat -c %s a; tail -c 100 a
    head -c 10 a | xxd; truncate -s 6G a; stat -c %s a; dd if=a bs=1M skip=4999 count=2 status=none | cksum'
both 'names of 240 bytes' touch 'n=$(printf "%0239d" 0); echo 1 > ${n}1; mv ${n}1 ${n}2; ln ${n}2 ${n}3
    ln -s ${n}2 ${n}4; mkdir ${n}5; cp ${n}4 ${n}5; cat $n*/$n*; names .'
both 'names with spaces, newlines, UTF-8' touch 'for n in " a " "b
c" "文件 ö" "-x" "*" "\\" "$(printf "\\001\\377")"; do echo "$n" > "./$n"; done; names . ; rm -- *; ls -A'
both '5,000 files in a folder' ls 'for i in $(seq 5000); do : > file$i; done; ls | wc -l; ls | cksum; rm file*7
    ls | cksum; rm -f *; ls -A'
both 'a folder of 100 levels' mkdir 'p=.; for i in $(seq 100); do p=$p/level$i; done; mkdir -p $p; echo deep > $p/f
    cat $p/f; find . | wc -l; mv level1 up; find up -type f; rm -r up; ls -A'
both 'a loop of symbolic links (ELOOP)' cat 'ln -s a b; ln -s b a; cat a; cd a; ln -s self/x self; stat -L self
    find -L . 2>&1 | sort; echo > b; ls | sort'
both 'concurrent appends' bash 'for p in 1 2 3 4; do (for i in $(seq 500); do echo "$p $i" >> log; done) & done; wait
    sort log | cksum; wc -l < log'
both 'appends by two names' bash 'echo > a; ln a b; for n in a b; do (for i in $(seq 500); do echo "$n $i" >> $n
    done) & done; wait; sort a | cksum; cmp a b'
both 'open, delete, write' bash 'exec 3<> a; rm a; seq 5000 >&3; ls -A; cksum < /proc/self/fd/3
    stat -Lc %h /proc/self/fd/3'
both 'rename over an open file' bash 'echo old > a; exec 3<> a; echo new > b; mv b a; cat <&3; cat a; echo more >&3
    cat a; rm a; ls -A'
both 'renames like logrotate' mv 'exec 3>> log; for i in 1 2 3 4; do echo $i >&3; [ -e log.1 ] && mv log.1 log.2
    mv log log.1; exec 3>> log; gzip -nc log.1 > log.1.gz; done; names .'
both 'noclobber, tee -a, tail -f' tail 'set -C; echo 1 > a; echo 2 > a; seq 3 | tee -a a b; (sleep 0.3; echo x >> a
    sleep 0.3; echo y >> a) & timeout 1.5 tail -f a; names .'
both 'flock' flock 'echo 0 > n
    for p in 1 2 3 4; do (for i in $(seq 25); do flock lock sh -c "echo \$((\$(cat n) + 1)) > n"; done) & done
    wait; cat n; (flock 9; flock -n lock echo no; echo $?) 9> lock'
both 'scripts and programs executed' gcc 'cp -a "$sample/src" s; s/script 1 2; cp s/script t; chmod 644 t; ./t
    gcc -o m s/main.c s/sum.c; ./m; cp m n; ./n; echo > m; rm n'
both 'sha256sum -c' sha256sum 'cp -a "$sample" t; find t -type f -exec sha256sum {} + > sums
    sha256sum -c sums | sort | uniq -c; echo >> t/docs/hard; sha256sum -c --quiet sums | sort'

# ---- archives
both 'tar -c, tar -xp' tar 'tar -C "$sample" -cf a.tar --sort=name .; mkdir t; tar -C t -xpf a.tar; list t
    tar -df a.tar -C t; cksum a.tar'
both 'tar -c of the volume' tar 'cp -a "$sample" t; tar --sort=name -cf a.tar t; cksum a.tar
    tar --sort=name -czf a.tgz t; tar -tvzf a.tgz; tar --delete -f a.tar t/docs; tar -rf a.tar t/docs/hard
    tar -tf a.tar'
both 'tar --listed-incremental' tar 'cp -a "$sample" t; tar --sort=name -cf a.tar -g s t
    tar --sort=name -cvf b.tar -g s t | grep -v /$; echo x > t/src/new; tar --sort=name -cvf c.tar -g s t | grep -v /$'
both 'zip, unzip' 'zip unzip' 'cp -a "$sample" t; zip -qry a.zip t; mkdir u; unzip -qd u a.zip; names u
    zip -qd a.zip "t/docs/*"; unzip -tq a.zip; unzip -l a.zip | wc -l'
both 'gzip, gunzip' gzip 'cp -a "$sample/docs" d; gzip -r d 2>&1 | sort; list d/a/* d/numbers*; gunzip -r d 2>&1 | sort
    list d/a/*; names d'
both 'xz' xz 'cp -p "$sample/docs/mixed" a; xz -0 a; list a*; xz -t a.xz; xz -d a.xz; list a'
both 'bzip2' bzip2 'cp -p "$sample/docs/mixed" a; bzip2 a; list a*; bzip2 -t a.bz2; bunzip2 a.bz2; list a'
both 'zstd' zstd 'cp -p "$sample/docs/mixed" a; zstd -q --rm a; list a*; zstd -q -t a.zst; zstd -q -d --rm a.zst
    list a'
both 'lz4' lz4 'cp -p "$sample/docs/mixed" a; lz4 -q a a.lz4; lz4 -q -t a.lz4; lz4 -q -d a.lz4 b; names .'
both 'cpio' cpio 'cd "$sample"; find . | sort | cpio -o -H newc > "$OLDPWD/a"; cd "$OLDPWD"; mkdir t; cd t
    cpio -idm < ../a; names .'
both '7z' 7z 'cp -a "$sample" t; 7z a a.7z t | grep -c Everything; 7z x -ou a.7z | grep -c Everything; names u'
both 'dpkg-deb' dpkg-deb 'mkdir -p t/DEBIAN t/usr/share; cp -a "$sample/docs" t/usr/share
    printf "Package: x\nVersion: 1\nArchitecture: all\nMaintainer: x <x@x>\nDescription: x\n" > t/DEBIAN/control
    dpkg-deb -b t x.deb; dpkg-deb -x x.deb u; list u/usr/share/docs; dpkg-deb -I x.deb | grep Package'
both 'rsync -a, twice' rsync 'rsync -aH "$sample/" t; list t; rsync -aHi "$sample/" t; echo second'
both 'rsync --delete, --inplace, -c' rsync 'rsync -aH "$sample/" t; rm -r t/docs/a; echo x > t/extra
    echo y >> t/docs/numbers; rsync -aHi --delete --inplace --no-whole-file "$sample/" t; rsync -aHc -i t/ u | wc -l
    list t'
both 'rsync --link-dest' rsync 'rsync -a "$sample/" t; rsync -a --link-dest="$PWD/t" "$sample/" u; list t u
    [ t/docs/numbers -ef u/docs/numbers ] && echo linked'

# ---- text
both 'sort with temporary files' sort 'sort -n -S 64k -T . "$sample/docs/mixed" -o a; sort -R "$sample/docs/mixed" > b
    sort -n -o b b; cmp a b; names .'
both 'sed -i' sed 'cp -a "$sample/docs" d; sed -i "s/9/nine/g" d/a/* d/mixed; sed -i.old 1d d/hard
    sed -i --follow-symlinks 2d d/link; names d'
both 'perl -i' perl 'cp -a "$sample/docs" d; perl -pi -e "s/1/one/" d/a/*; perl -pi.bak -e "\$_ = uc" d/mixed; names d'
both 'awk to many files' awk 'awk "{ print > (\"f\" \$1 % 50) }" "$sample/docs/mixed"; names .'
both 'grep -r' grep 'cp -a "$sample" t; grep -rc 99 t | sort; grep -rl größe t | sort; grep -r secret t'
both 'diff -r' diff 'cp -a "$sample" t; cp -a t u; diff -r --no-dereference t u; echo x >> u/docs/hard; rm u/src/sum.h
    ! diff -r --no-dereference t u'
both 'patch' 'patch diff' 'cp -a "$sample" t; cp -a t u; sed -i 10,20d u/docs/mixed; echo new > u/src/new
    rm u/src/sum.h; diff -ruN t/src u/src > p1; diff -u t/docs/mixed u/docs/mixed | sed "1,2s/\t.*//" > p2
    cd t; patch -p1 < ../p1; patch -bp1 < ../p2; names .; patch -Rp1 < ../p1; names .'
both 'm4' m4 'echo "define(x, 5)x" > a; m4 a > b; names .'
both 'jq' jq 'seq 1000 | jq -s "{a: .}" > a; jq .a[500] a; names .'
both 'vim' vim 'cp -p "$sample/docs/mixed" a; ln a b
    vim -u NONE -es -c "%s/line/row/" -c "set backup backupdir=. patchmode=" -c wq a
    vim -u NONE -es -c "set undofile undodir=." -c "normal dd" -c wq a; ls -A; names a b'
both 'ed -s' ed 'cp "$sample/docs/hard" a; printf "1d\n\$a\nend\n.\nw\nq\n" | ed -s a; names .'
both 'inotifywait' inotifywait '(sleep 1; echo > a; mv a b; rm b) & timeout 3 inotifywait -m -q . | grep -v CLOSE'

# ---- git
both 'git init, add, commit' git 'cp -a "$sample" t; cd t; git init -q; git add .; git commit -qm one
    git status --short; git rev-parse HEAD; echo x >> docs/mixed; git mv src s; git commit -qam two; git rev-parse HEAD
    git status; git ls-files -s'
both 'git gc, fsck' git 'cp -a "$sample" t; cd t; git init -q; for i in 1 2 3 4 5; do echo $i >> docs/mixed; git add .
    git commit -qm $i; done; git gc -q --prune=now; git fsck --full; git count-objects -v | grep -v size
    git log --oneline; git repack -adfq; git fsck'
both 'git clone with hard links' git 'cp -a "$sample" t; git -C t init -q; git -C t add .; git -C t commit -qm one
    git clone -q t u; names u/docs; find u/.git/objects -type f -links 2 | wc -l; find t/.git/objects -type f | wc -l
    git -C u fsck'
both 'git clone --no-hardlinks, file://, push' git 'cp -a "$sample" t; git -C t init -q; git -C t add .
    git -C t commit -qm one; git clone -q --bare --no-hardlinks t b; git clone -q "file://$PWD/b" u; cd u; echo x > new
    git add new
    git commit -qm two; git push -q; git -C ../b log --oneline; git -C ../b fsck; cd ../t; git pull -q ../b; git status'
both 'git worktree' git 'cp -a "$sample" t; cd t; git init -q; git add .; git commit -qm one
    git worktree add -q ../w -b side; cd ../w; echo x > new; git add new; git commit -qm two; git log --oneline --all
    cd ../t; git worktree remove ../w; ls ..'
both 'git checkout, merge, rebase, stash' git 'cp -a "$sample" t; cd t; git init -q; git add .; git commit -qm one
    git checkout -qb side; git rm -qr docs/a; echo x > src/new; git add .; git commit -qm two; git checkout -q main
    ls docs/a | wc -l
    echo y > other; git add other; git commit -qm three; git merge -q --no-edit side; git log --oneline
    git checkout -qb more HEAD~1; echo z > z; git add z; git commit -qm four; git rebase -q main; echo d >> src/sum.c
    git stash -q; git stash pop -q; git status --short; git fsck'

# ---- compilers
both 'configure, make, make test, make install' 'make gcc' 'cp -a "$sample/src" s; cd s; cat > configure <<"E"
#!/bin/sh
echo "int main(void) { return 0; }" > conftest.c
${CC-gcc} -o conftest conftest.c && ./conftest && echo works
rm -f conftest*
sed "s|@prefix@|${1#--prefix=}|" Makefile.in > Makefile
E
    printf "all: main\nmain: main.o sum.o\n\tgcc -o \$@ \$^\n%%.o: %%.c sum.h\n\tgcc -c \$<\n" > Makefile.in
    printf "test: main\n\t[ \`./main\` = 42 ]\ninstall: main\n" >> Makefile.in
    printf "\tinstall -D main \$(DESTDIR)@prefix@/bin/main\nclean:\n\trm -f *.o main\n" >> Makefile.in
    chmod +x configure; ./configure --prefix=/usr; make -j4 --no-print-directory; make test; make DESTDIR=../d install
    sleep 0.05; make; touch sum.h; make; ../d/usr/bin/main; make clean; names . | grep -v cksum'
both 'gcc, ar, ranlib, ld, strip' 'gcc ar ranlib ld strip' 'cp "$sample"/src/* .; gcc -g -c main.c sum.c
    ar rcs libs.a sum.o; ranlib libs.a; gcc -o m main.o -L. -ls; ./m; ld -r -o r.o main.o sum.o; gcc -o n r.o; ./n
    strip n; ./n; gcc -shared -fPIC -o libt.so sum.c; gcc -o o main.c -L. -lt -Wl,-rpath,"$PWD"; ./o; ls'
both 'cmake' cmake 'mkdir p; cd p; cp "$sample"/src/*.[ch] .
    printf "cmake_minimum_required(VERSION 3.5)\nproject(x C)\nadd_executable(m main.c sum.c)\n" > CMakeLists.txt
    cmake -S . -B b > log 2>&1; cmake --build b 2>&1 | grep -c Built; b/m; cmake --build b 2>&1 | grep -c Building
    rm -r ../p'
both 'cargo build, test' cargo 'cargo new -q --vcs none x; cd x; cargo build -q --offline; target/debug/x
    cargo test --offline 2>&1 | grep -c "test result: ok"; cargo build --offline 2>&1 | grep -c Compiling; rm -r ../x'
both 'javac, jar, java' 'javac jar java' 'echo "public class A { public static void main(String[] a) {
    System.out.println(new java.io.File(\".\").list().length); } }" > A.java
    javac A.java; java -Xshare:off -cp . A; jar cf a.jar A.class; java -cp a.jar A; rm *'
both 'node' node 'cat > a.js <<"E"
const fs = require("fs")
fs.mkdirSync("d/e", { recursive: true })
for (let i = 0; i < 100; i++) fs.writeFileSync("d/f" + i, "x".repeat(i))
fs.renameSync("d/f1", "d/e/g")
fs.copyFileSync("d/f2", "h")
fs.symlinkSync("h", "l")
fs.appendFileSync("l", "more")
console.log(fs.readdirSync("d").length, fs.readFileSync("h", "utf8"))
fs.cpSync("d", "c", { recursive: true })
fs.rmSync("d", { recursive: true })
console.log(fs.readdirSync("."))
E
    node a.js; names .'

# ---- python
both 'python3 -m venv' python3 'python3 -m venv --without-pip v
    v/bin/python -c "import sys; print(sys.prefix != sys.base_prefix)"; find v | wc -l; rm -r v'
both 'python3 -m compileall' python3 'mkdir m; for i in 1 2 3; do echo "x = $i" > m/a$i.py; done
    touch m/__init__.py; python3 -m compileall -q m; python3 -c "import m.a2; print(m.a2.x)"
    echo "x = 55" > m/a2.py; python3 -c "import m.a2; print(m.a2.x)"; find . | sort'
both 'python3: sqlite3' python3 'python3 -c "
import sqlite3
c = sqlite3.connect(\"d\"); c.execute(\"create table t(a, b)\")
c.executemany(\"insert into t values(?, ?)\", [(i, str(i)) for i in range(5000)]); c.commit()
c.execute(\"delete from t where a % 3 = 0\"); c.rollback()
print(c.execute(\"select count(*), sum(a) from t\").fetchall()); d = sqlite3.connect(\"e\"); c.backup(d)
print(d.execute(\"pragma integrity_check\").fetchall())
try: d.execute(\"begin exclusive\"); sqlite3.connect(\"e\", timeout=0.1).execute(\"insert into t values(1, 2)\")
except sqlite3.OperationalError as e: print(e)
"; names .'
both 'python3: shutil, os.walk, glob' python3 'python3 -c "
import shutil, os, glob
s = os.environ[\"sample\"]; shutil.copytree(s, \"t\", symlinks=True); shutil.copy2(s + \"/docs/mixed\", \"m\")
shutil.move(\"t/docs\", \"d\"); shutil.copyfile(\"m\", \"n\"); shutil.make_archive(\"a\", \"gztar\", \"t\")
shutil.unpack_archive(\"a.tar.gz\", \"u\")
shutil.rmtree(\"t\")
print(sorted(os.listdir()), len(glob.glob(\"**/text*\", recursive=True)), sorted(len(f) for _, _, f in os.walk(\"d\")),
    os.path.samefile(\"d\", \"./d\"))
"; rm a.tar.gz; list d; names u m n'
both 'python3: tempfile, os.replace, O_TMPFILE' python3 'python3 -c "
import tempfile, os
with tempfile.TemporaryFile(dir=\".\") as f: f.write(b\"x\" * 100000); f.seek(5); print(len(f.read()), os.listdir())
with tempfile.NamedTemporaryFile(dir=\".\", delete=False) as f: f.write(b\"new\"); f.flush(); os.fsync(f.fileno())
open(\"a\", \"w\").write(\"old\"); os.replace(f.name, \"a\"); print(open(\"a\").read())
with tempfile.TemporaryDirectory(dir=\".\") as d: open(d + \"/x\", \"w\"); os.mkdir(d + \"/y\")
print(os.listdir())"'
both 'python3: mmap' python3 'python3 -c "
import mmap, os
f = open(\"a\", \"w+b\"); f.truncate(1000000); m = mmap.mmap(f.fileno(), 0); m[500000:500005] = b\"hello\"; m.flush()
print(open(\"a\", \"rb\").read().find(b\"hello\")); os.pwrite(f.fileno(), b\"J\", 500000); print(m[500000:500005])
n = mmap.mmap(f.fileno(), 0)
n[0:2] = b\"ab\"; print(m[0:2]); os.link(\"a\", \"b\"); p = mmap.mmap(os.open(\"b\", os.O_RDWR), 0); p[7] = 65
print(m[7]); os.unlink(\"a\"); m[9] = 66; m.close(); n.close(); p.close()
"; names .'
both 'python3: multiprocessing and fcntl locks' python3 'cat > a.py <<"E"
import fcntl, multiprocessing, os
def add(n):
    for _ in range(100):
        with open("n", "r+") as f:
            fcntl.lockf(f, fcntl.LOCK_EX)
            v = int(f.read())
            f.seek(0)
            f.write(str(v + 1))
            f.flush()
            os.fsync(f.fileno())
if __name__ == "__main__":
    open("n", "w").write("0")
    p = [multiprocessing.Process(target=add, args=(i,)) for i in range(4)]
    [x.start() for x in p]
    [x.join() for x in p]
    print(open("n").read())
E
    python3 a.py'
both 'python3: dbm.dumb, shelve, zipfile, tarfile' python3 'python3 -c "
import dbm.dumb, shelve, zipfile, tarfile, os
with dbm.dumb.open(\"d\", \"c\") as d:
    for i in range(200): d[str(i)] = str(i * i)
with shelve.Shelf(dbm.dumb.open(\"s\", \"c\")) as s: s[\"x\"] = {1: [2]}
print(len(dbm.dumb.open(\"d\")), shelve.Shelf(dbm.dumb.open(\"s\"))[\"x\"])
z = zipfile.ZipFile(\"z\", \"w\"); z.write(\"d.dat\"); z.writestr(\"t\", \"x\" * 1000); z.close()
z = zipfile.ZipFile(\"z\", \"a\"); z.writestr(\"u\", \"y\"); z.close()
print(zipfile.ZipFile(\"z\").testzip(), zipfile.ZipFile(\"z\").namelist())
t = tarfile.open(\"t\", \"w:gz\"); t.add(os.environ[\"sample\"], \"s\"); t.close()
tarfile.open(\"t\").extractall(\"u\")"; names u/s'
both 'python3 -m unittest' python3 'cat > test_a.py <<"E"
import unittest, os
class T(unittest.TestCase):
    def test(self):
        open("x", "w").close()
        self.assertTrue(os.path.exists("x"))
E
    python3 -m unittest 2>&1 | grep -v Ran; ls'

both 'python3: inotify' python3 'cat > a.py <<"E"
import ctypes, os, struct
c = ctypes.CDLL(None)
f = c.inotify_init()
c.inotify_add_watch(f, b".", 0x3C2)  # modify, moved from, moved to, create, delete
open("a", "w").write("x")
os.rename("a", "b")
os.mkdir("d")
os.unlink("b")
b = os.read(f, 4096)
while b:
    _, mask, _, n = struct.unpack("iIII", b[:16])
    print(hex(mask), b[16:16 + n].rstrip(b"\0"))
    b = b[16 + n:]
E
    python3 a.py'

# ---- data bases and load
for mode in delete truncate persist memory off wal; do
    both "sqlite3 with journal_mode=$mode" sqlite3 '
    sqlite3 d "pragma journal_mode='$mode'; create table t(a integer primary key, b);
        with recursive c(x) as (select 1 union all select x + 1 from c where x < 3000)
        insert into t select x, hex(x) from c;"
    for i in 1 2 3 4; do (for j in $(seq 20); do sqlite3 -cmd ".timeout 60000" d "insert into t(b) values($i)"
    done) & done; wait
    sqlite3 d "delete from t where a % 2 = 0; vacuum; create index i on t(b); pragma integrity_check;
        select count(*), sum(a) from t;
        pragma journal_mode"; sqlite3 d ".backup e"; sqlite3 e .dump | cut -d, -f 1 | cksum; ls'
done
both 'mkfs.ext4, debugfs, e2fsck in a file' 'mkfs.ext4 debugfs e2fsck' 'truncate -s 16M a
    mkfs.ext4 -qF -U 12345678-1234-1234-1234-123456789012 a
    debugfs -w -R "write $sample/docs/numbers n" a 2>&1 | grep -v debugfs
    e2fsck -fn a > log 2>&1; echo $?; debugfs -R "cat n" a 2>&1 | grep -v debugfs | cksum'
both 'openssl' openssl 'openssl genrsa -out k 2048; openssl rsa -in k -pubout -out p
    openssl enc -aes-256-cbc -pbkdf2 -pass pass:x -in "$sample/docs/mixed" -out a
    openssl enc -d -aes-256-cbc -pbkdf2 -pass pass:x -in a | cmp - "$sample/docs/mixed"; stat -c "%a %n" k p'
both 'perl: File::Copy, File::Find, SDBM_File' perl 'perl -MFile::Copy=move,copy -MFile::Find -MFcntl -MSDBM_File -e "
copy(\"\$ENV{sample}/docs/mixed\", q(a)); move(q(a), q(b)); mkdir q(d); move(q(b), q(d/c));
tie(%h, q(SDBM_File), q(s), O_RDWR | O_CREAT, 0666); \$h{\$_} = \$_ * 2 for 1 .. 1000; untie %h;
tie(%h, q(SDBM_File), q(s), O_RDONLY, 0666); print scalar(keys %h), \$h{500}, qq(\\n);
    find(sub { print -s if -f }, q(.))" | sort; names .'
both 'redis-server, killed' 'redis-server redis-cli' 'start() {
    redis-server --port 0 --unixsocket "$SOCKET" --dir . --appendonly yes --appendfsync always --save "" \
        --daemonize no > log 2>&1 & pid=$!
    for i in $(seq 100); do [ "$(redis-cli -s "$SOCKET" ping 2>&1)" = PONG ] && break; sleep 0.1; done; }
    SOCKET=$(mktemp -u); start; for i in $(seq 200); do echo "set k$i $i"
    done | redis-cli -s "$SOCKET" | sort | uniq -c; redis-cli -s "$SOCKET" bgrewriteaof > log2; sleep 1
    redis-cli -s "$SOCKET" set last 1; kill -9 $pid; wait $pid 2> log2
    start; redis-cli -s "$SOCKET" dbsize; redis-cli -s "$SOCKET" get k150; redis-cli -s "$SOCKET" save; kill $pid
    wait $pid; ls appendonlydir | wc -l; redis-check-rdb dump.rdb | grep -c "RDB looks OK"'
both 'fio with verify' fio 'for engine in psync libaio mmap; do
    fio --name=v --ioengine=$engine --rw=randwrite --bsrange=4k-64k --size=8m --numjobs=2 --verify=crc32c \
        --do_verify=1 --fsync=32 --group_reporting --output=out
    echo "$engine: status $?"; grep -o "err= *[0-9]*" out; done; rm v.*'

# ---- what a volume does not have
lacks 'mkfifo' mkfifo 'mkfifo p' 'Operation not permitted'
lacks 'mknod' mknod 'mknod c c 1 3' 'Operation not permitted'
lacks 'a Unix socket' python3 'python3 -c "
import socket; socket.socket(socket.AF_UNIX).bind(\"s\")"' 'Operation not permitted'
lacks 'extended attributes' python3 'python3 -c "
import os; open(\"a\", \"w\"); os.setxattr(\"a\", \"user.x\", b\"1\")"' 'Operation not supported'
lacks 'setfacl' setfacl 'touch a; setfacl -m u:1:r a' 'Operation not supported'
lacks 'fallocate' fallocate 'fallocate -l 100000 a' 'Operation not supported'
lacks 'fallocate -p' fallocate 'seq 5000 > a; fallocate -p -o 4096 -l 4096 a' 'keep size mode is unsupported'
both 'du, cp and tar -S of a file with holes' 'du tar' 'truncate -s 50M a; echo x | dd of=a bs=1 seek=20M conv=notrunc 2> out
    du -k a; cp a b; du -k b; cmp a b; tar -Scf c.tar a; stat -c %s c.tar; mkdir d; tar -C d -xSf c.tar; du -k d/a; cmp a d/a; rm a b d/a'
both 'posix_fallocate' fallocate 'fallocate -x -l 100000 a; stat -c %s a; cksum a'
lacks 'chattr' chattr 'touch a; chattr +i a' 'Operation not supported'
lacks 'renameat2 with RENAME_EXCHANGE' python3 'touch a b; python3 -c "
import ctypes, os
c = ctypes.CDLL(None, use_errno=True); r = c.renameat2(-100, b\"a\", -100, b\"b\", 2)
print(os.strerror(ctypes.get_errno())); exit(-r)"' 'Invalid argument'
lacks 'a name of 241 bytes' touch 'touch $(printf "%0241d" 1)' 'File name too long'
lacks 'a full volume' head 'head -c 400M /dev/zero > a; status=$?; rm a; exit $status' 'No space left'
lacks 'a path of more than 4,096 bytes' mkdir 'n=$(printf "%0200d" 1); for i in $(seq 25); do mkdir $n || exit 1
    cd -P $n 2>&1; done' 'File name too long'

# ---- all files that the programs left, after the next mount
names "$at" > "$work/logs/own" 2>&1
find "$at" -mindepth 1 -printf '%p %T@ %i\n' | sort >> "$work/logs/own"
unmounts || { echo "bpfs_fuse ended with $status"; failed=$((failed + 1)); }
if [ -n "$checker" ]; then
    name='bpfs check'
    "$checker" check "$image" > "$work/logs/check" 2>&1 || { cat "$work/logs/check"; failed=$((failed + 1)); }
    echo "$name: $(tail -1 "$work/logs/check")"
fi
mounts quiet
names "$at" > "$work/logs/mount" 2>&1
find "$at" -mindepth 1 -printf '%p %T@ %i\n' | sort >> "$work/logs/mount"
name='all files after the next mount'
result
unmounts || failed=$((failed + 1))

echo "$tried programs, $failed fail, $absent left out"
[ $failed = 0 ]
