#!/bin/bash
# Mounts by mount(8), by lines of fstab and by ordinary users, after `make install`.
#
#     mount_test.sh FOLDER       needs root; images and mounts are in FOLDER
#
# All of it is in a mount namespace of its own, where the installed helpers are /sbin, and
# /etc/fstab and /dev/fuse are other files. So nothing of the machine changes.
set -u
[ "${2:-}" = private ] || exec unshare -m --propagation private bash "$0" "$1" private
here=$(cd "$(dirname "$0")" && pwd)
work=$(mktemp -d "$1/bpfs-mount-XXXXXX") device=$(mktemp -d "$here/build/dev-XXXXXX")
image=$work/image at=$work/mount home=$work/home logs=$work/logs
user='setpriv --reuid=65534 --regid=65534 --clear-groups'
passed=0
chmod 755 "$work"
mkdir "$at" "$home" "$home/mount" "$logs" "$work/root's"

cleanup() {
    umount -l "$at" "$home/mount" "$work/small" 2> /dev/null
    umount -l /etc/fstab /etc/fuse.conf /dev/fuse /sbin 2> /dev/null
    rm -rf "$work" "$device"
}
trap cleanup EXIT

fail() {
    echo "mount_test.sh: FAILED: $*"
    exit 1
}

# succeeds COMMAND..
succeeds() {
    "$@" > "$logs/output" 2>&1 || { cat "$logs/output"; fail "$*"; }
    passed=$((passed + 1))
}

# refused PATTERN COMMAND..: it fails with such a message, and nothing is mounted
refused() {
    pattern=$1
    shift
    "$@" > "$logs/output" 2>&1 && fail "$* succeeds"
    grep -q -- "$pattern" "$logs/output" || { cat "$logs/output"; fail "$*: no message with: $pattern"; }
    ! grep -q " $work/.* fuse.bpfs " /proc/mounts || fail "$*: it is mounted"
    passed=$((passed + 1))
}

# is_mounted IMAGE MOUNTPOINT WITH WITHOUT: so it is in /proc/mounts, with one option, and without the other
is_mounted() {
    shown=$(grep -F " $2 fuse.bpfs " /proc/mounts)
    case $shown in "$1 $2 fuse.bpfs "*) ;; *) fail "/proc/mounts has: $shown" ;; esac
    case " $shown" in *[\ ,]"$3"[\ ,]*) ;; *) fail "no option $3: $shown" ;; esac
    case " $shown" in *[\ ,]"$4"[\ ,]*) fail "option $4: $shown" ;; esac
    passed=$((passed + 1))
}

# is_complete IMAGE: soon it needs no journal, so it may be copied
is_complete() {
    flock -s -w 10 "$1" true && [ ! -s "$1-redo" ] || fail "$1 needs its journal after umount"
    passed=$((passed + 1))
}

# ---- what is installed

installs() {
    make="make -s -C $here ${LIBRARY:+LIBRARY=$LIBRARY}"
    $make install DESTDIR="$work/packed" PREFIX=/usr && [ -x "$work/packed/usr/bin/bpfs_fuse" ] || return 1
    grep -q ':-/usr/bin/bpfs_fuse}' "$work/packed/sbin/mount.fuse.bpfs" || return 1
    $make uninstall DESTDIR="$work/packed" PREFIX=/usr && [ -z "$(find "$work/packed" ! -type d)" ] || return 1
    $make install PREFIX="$work/prefix" SBIN="$work/sbin"
}

has_page() {
    [ -z "$(command -v man)" ] || man -l "$work/prefix/share/man/man8/bpfs_fuse.8" | grep -q 'mount.bpfs'
}

# Mounts of others would last as long as this namespace.
findmnt -n -r -o TARGET -t fuse.bpfs | while read -r other; do umount -l "$other"; done
mknod "$device/fuse" c 10 229 && chmod 666 "$device/fuse" || fail "no /dev/fuse"
: > "$work/fstab"
: > "$work/fuse.conf"
succeeds installs
succeeds has_page
mount --bind "$work/sbin" /sbin && mount --bind "$work/fstab" /etc/fstab || fail "no bind mounts"
mount --bind "$device/fuse" /dev/fuse && mount --bind "$work/fuse.conf" /etc/fuse.conf || fail "no bind mounts"

# ---- root

succeeds "$work/prefix/bin/bpfs_fuse" "$image" "$at" -o format=1024
is_mounted "$image" "$at" rw ro
echo text > "$at/file"
succeeds umount "$at"
is_complete "$image"
for type in fuse.bpfs bpfs; do
    succeeds mount -t $type "$image" "$at"
    is_mounted "$image" "$at" default_permissions allow_other
    succeeds grep -q text "$at/file"
    succeeds umount "$at"
done
cd "$work" || fail "no folder"
succeeds mount -t bpfs -o ro image mount # paths from here
is_mounted "$image" "$at" ro rw
cp image copy && mv copy 'we, ird \ name'
succeeds umount "$at"
succeeds mount -t bpfs "$work/we, ird \\ name" "$at"
succeeds test "$(findmnt -n -o SOURCE "$at")" = "$work/we, ird \\ name"
succeeds umount "$at"

# umount returns before the image is complete, and the next mount waits for that.
for _ in $(seq 20); do
    mount -t bpfs "$image" "$at" && echo more >> "$at/file" && umount "$at" || fail "mount, umount"
done
is_complete "$image"

cat > /etc/fstab << END
$image $at fuse.bpfs defaults,nofail,allow_other,x-any=1 0 0
END
succeeds mount "$at"
is_mounted "$image" "$at" allow_other ro
succeeds umount "$at"
succeeds mount -a
is_mounted "$image" "$at" rw ro
succeeds mount -a # again: nothing to do
succeeds umount "$image"
succeeds mount -f -t bpfs "$image" "$at"
refused 'no such image' mount -t bpfs "$work/none" "$at"
refused 'unknown option' mount -t bpfs -o unknown "$image" "$at"
head -c 65536 /dev/urandom > "$work/bytes"
refused 'not an image' mount -t bpfs "$work/bytes" "$at"
succeeds mount "$at"
mount -o remount,ro "$at" 2> "$logs/output" && fail "remount succeeds"
grep -q "can't be changed" "$logs/output" || { cat "$logs/output"; fail remount; }
is_mounted "$image" "$at" rw ro
succeeds umount "$at"
: > /etc/fstab

# ---- other users

chown 65534:65534 "$home" "$home/mount"
mine=$home/image at_home=$home/mount
succeeds $user "$work/prefix/bin/bpfs_fuse" "$mine" "$at_home" -o format=1024
is_mounted "$mine" "$at_home" user_id=65534 allow_other
succeeds $user sh -c "echo text > '$at_home/file' && grep -q text '$at_home/file'"
$user fusermount3 -u "$at_home" || fail "fusermount3 -u"
succeeds flock -s -w 10 "$mine" true
succeeds $user /sbin/mount.bpfs "$mine" "$at_home"
succeeds $user grep -q text "$at_home/file"
succeeds $user umount "$at_home"
is_complete "$mine"
refused 'user has no write access to mountpoint' $user "$work/prefix/bin/bpfs_fuse" "$mine" "$work/root's"
refused 'user_allow_other' $user "$work/prefix/bin/bpfs_fuse" "$mine" "$at_home" -o allow_other
refused 'unknown option' $user "$work/prefix/bin/bpfs_fuse" "$mine" "$at_home" -o unknown
refused 'Permission denied' $user "$work/prefix/bin/bpfs_fuse" "$image" "$at_home"
succeeds $user "$work/prefix/bin/bpfs_fuse" "$image" "$at_home" -o ro
is_mounted "$image" "$at_home" ro rw
succeeds $user umount "$at_home"
succeeds $user mount -t bpfs "$mine" "$at_home"
is_mounted "$mine" "$at_home" user_id=65534 allow_other
succeeds $user umount "$at_home"
echo user_allow_other > /etc/fuse.conf
succeeds $user "$work/prefix/bin/bpfs_fuse" "$mine" "$at_home" -o allow_other
is_mounted "$mine" "$at_home" allow_other ro
succeeds $user umount "$at_home"
: > /etc/fuse.conf

# The option `user` of fstab: any user may mount, as far as the files allow
echo "$mine $at_home bpfs noauto,user 0 0" > /etc/fstab
succeeds $user mount "$at_home"
is_mounted "$mine" "$at_home" noexec allow_other
setpriv --reuid=2 --regid=2 --clear-groups umount "$at_home" 2> "$logs/output" && fail "another user unmounts"
succeeds $user umount "$at_home"
is_complete "$mine"
succeeds $user mount "$at_home"
succeeds umount "$at_home" # by root
refused 'Permission denied' setpriv --reuid=2 --regid=2 --clear-groups mount "$at_home"
: > /etc/fstab

# ---- mounts that fail late leave nothing

files() {
    (cd "$work" && ls -l --time-style=full-iso | grep ^-; find . -maxdepth 1 -type f -exec cksum {} +)
}

# leaves_nothing PATTERN IMAGE MOUNTPOINT OPTIONS
leaves_nothing() {
    before=$(files)
    refused "$1" "$work/prefix/bin/bpfs_fuse" "$2" "$3" -o "$4"
    [ "$(files)" = "$before" ] || { diff <(echo "$before") <(files); fail "a failed mount changes files"; }
}

rm -f "$image-redo" # so that it would be seen
for cached in rw cached; do
    leaves_nothing 'bad mount point' "$image" "$work/nowhere" $cached
    leaves_nothing 'unknown option' "$image" "$at" unknown,$cached
    leaves_nothing 'bad mount point' "$work/new" "$work/nowhere" format=64,$cached
    leaves_nothing 'unknown option' "$work/new" "$at" format=64,unknown,$cached
    leaves_nothing 'follower has not taken' "$image" "$at" "follower=false,$cached"
    leaves_nothing 'follower has not taken' "$work/new" "$at" "format=64,follower=false,$cached"
done

# The disk of IMAGE is full, so the journal can't be made. (With free blocks: see fills_the_folder of test.sh.)
mkdir "$work/small" && mount -t tmpfs -o size=400k tmpfs "$work/small" || fail "no tmpfs"
head -c 262144 "$image" > "$work/small/image" # to take room
"$work/prefix/bin/bpfs_fuse" "$work/small/new" "$at" -o format=16 > "$logs/output" 2>&1 && fail "mounted on a full disk"
[ "$(ls "$work/small")" = image ] || { ls -l "$work/small"; fail "a failed mount on a full disk leaves files"; }
grep -q 'No space left' "$logs/output" || { cat "$logs/output"; fail "no message of a full disk"; }
passed=$((passed + 1))

umount -l /dev/fuse
chmod 600 "$device/fuse"
: > "$work/no-device"
mount --bind "$work/no-device" /dev/fuse || fail "no bind mount"
leaves_nothing 'fuse' "$image" "$at" rw
leaves_nothing 'fuse' "$work/new" "$at" format=64
echo "$passed results of mount, umount, bpfs_fuse and their messages"
