#define _GNU_SOURCE
#include "files.h"
#include "blocks.h"
#include "calls.h"
#include "hidden.h"
#include "times.h"
#include <fcntl.h>
#include <stdio.h>

/* An empty file takes 64 bytes for its inode and 256 for its name (docs/format.md). */
enum { FILES_PER_BLOCK = 4096 / (64 + 256) };
enum { BLOCK = 4096, SECTORS = BLOCK / 512 /* the unit of st_blocks */, MOST_COPIED = 16 << 20 };

static bpfs_lack lack;
static uint64_t file_count; /* without what is hidden */
static size_t exposed;      /* open files without a hidden link: each of them may need one */

/* ---- looking */

/* The path of a name in a directory. No program gets the directory of the mount. */
static int path_in(const node *dir, const char *text, path *into) {
    if (dir->is_deleted) return -ENOENT;
    return hidden_is(dir, text) ? -EPERM : nodes_path_in(dir, text, into);
}

/* Enters the file that is at a path by its number. */
static int enter(const path *at, node *dir, const char *text, node **found) {
    uint32_t number;
    int code = error_of(bpfs_inode(&volume.fs, P(*at), &number));
    if (code) return code;
    *found = nodes_get(number, dir, text);
    return *found ? 0 : -ENOMEM;
}

int files_lookup(node *dir, const char *text, node **found) {
    path at;
    if (hidden_is(dir, text)) return -ENOENT;
    int code = path_in(dir, text, &at);
    return code ? code : enter(&at, dir, text, found);
}

/* Whether a directory is at a path, or a file, with its number of links; and its mode and owner.
 * bpfs_stat would count the names of a directory. */
static int look_at(const path *at, bool *is_dir, uint32_t *links, attributes *it) {
    int code = LOOK(bpfs_links(&volume.fs, P(*at), links));
    *is_dir = code == -EISDIR;
    return code && !*is_dir ? code : attributes_get(at, *is_dir, it);
}

static void stat_deleted_directory(const node *it, struct stat *st) {
    *st = (struct stat){
        .st_ino = it->number, .st_mode = it->mode, .st_uid = it->owner, .st_gid = it->group};
    st->st_blksize = 4096;
    st->st_atim = st->st_mtim = st->st_ctim = times_now();
}

/* ---- blocks */

/* How many blocks of a file have a byte of a part of it, which begins at the start of a block. An
 * index of blocks counts as none. */
static uint64_t blocks_in(const node *it, uint64_t first, uint64_t end) {
    content tree;
    return blocks_of(it->number, &tree) ? 0 : blocks_count(&tree, first, end);
}

static uint64_t blocks_of_file(node *it) {
    if (!it->has_blocks) it->blocks = blocks_in(it, 0, UINT64_MAX);
    it->has_blocks = true;
    return it->blocks;
}

off_t files_seek(const node *it, off_t offset, bool to_hole) {
    content tree;
    if (offset < 0 || it->is_deleted) return -ENXIO;
    int code = blocks_of(it->number, &tree);
    if (code) return code;
    off_t found = blocks_seek(&tree, (uint64_t)offset, to_hole);
    if (!it->maps || (uint64_t)offset >= tree.size) return found;
    return to_hole ? (off_t)tree.size : offset;
}

/* ---- attributes */

int files_stat(node *it, struct stat *st) {
    bpfs_found found = {0};
    attributes set;
    uint32_t links;
    bool is_dir;
    path at;
    if (it->is_deleted && it->mode) return stat_deleted_directory(it, st), 0;
    int code = nodes_path(it, &at);
    if (!code) code = look_at(&at, &is_dir, &links, &set);
    if (!code && !is_dir) code = LOOK(bpfs_stat(&volume.fs, P(at), &found));
    if (code) return code;
    memset(st, 0, sizeof *st);
    st->st_ino = it->number;
    st->st_mode = set.mode, st->st_uid = set.owner, st->st_gid = set.group;
    st->st_nlink = is_dir ? 2 : links - it->is_hidden;
    st->st_size = (off_t)found.size;
    st->st_blksize = 4096;
    st->st_blocks = is_dir ? 0 : (blkcnt_t)blocks_of_file(it) * SECTORS;
    st->st_atim = st->st_mtim = st->st_ctim = times_of(it);
    return 0;
}

int files_entry(const node *dir, const char *text, bool is_dir, struct stat *st) {
    uint32_t number;
    attributes it;
    path at;
    int code = path_in(dir, text, &at);
    if (!code) code = error_of(bpfs_inode(&volume.fs, P(at), &number));
    if (!code) code = attributes_get(&at, is_dir, &it);
    if (code) return code;
    st->st_ino = number, st->st_mode = it.mode;
    return 0;
}

/* The format has no limit of the number of files, but space. So the number of free inodes is how
 * many empty files would fit. */
int files_space(struct statvfs *st) {
    bpfs_blocks blocks;
    int code = error_of(bpfs_space(&volume.fs, &blocks));
    if (code) return code;
    memset(st, 0, sizeof *st);
    st->f_bsize = st->f_frsize = 4096;
    st->f_blocks = blocks.free + blocks.live;
    st->f_bfree = st->f_bavail = blocks.free;
    st->f_ffree = st->f_favail = (fsfilcnt_t)blocks.free * FILES_PER_BLOCK;
    st->f_files = st->f_ffree + file_count;
    st->f_namemax = BPFS_MAX_NAME;
    return 0;
}

int files_read(const node *it, char *into, size_t size, off_t offset) {
    size_t count = 0;
    path at;
    int code = nodes_path(it, &at);
    if (!code)
        code = LOOK(bpfs_read(&volume.fs, P(at), (uint64_t)offset, (uint8_t *)into, size, &count));
    return code ? code : (int)count;
}

/* A symbolic link is a file with its target. */
int files_readlink(const node *it, char *into, size_t size) {
    int count = files_read(it, into, size - 1, 0);
    if (count < 0) return count;
    into[count] = 0;
    return 0;
}

/* ---- new names */

static void unmake(const path *at, mode_t mode) {
    if (S_ISDIR(mode)) (void)CHANGE(bpfs_rmdir(&volume.fs, P(*at), &lack));
    else (void)CHANGE(bpfs_unlink(&volume.fs, P(*at), &lack));
}

/* The end of an operation that made a file: its node. */
static int finish_making(const path *at, node *dir, const char *text, mode_t mode, node **made) {
    int code = enter(at, dir, text, made);
    if (code) return unmake(at, mode), code;
    file_count++;
    times_touch(*made);
    times_touch(dir);
    return 0;
}

int files_make(node *dir, const char *text, attributes wanted, node **made) {
    path at;
    int code = path_in(dir, text, &at);
    if (!code) code = attributes_inherit(dir, &wanted);
    if (code) return code;
    if (S_ISDIR(wanted.mode)) code = CHANGE(bpfs_mkdir(&volume.fs, P(at), &lack));
    else code = CHANGE(bpfs_create(&volume.fs, P(at), &lack));
    if (code) return code;
    if (volume.keeps) code = attributes_set(&at, &wanted);
    if (code) return unmake(&at, wanted.mode), code;
    return finish_making(&at, dir, text, wanted.mode, made);
}

/* It is hidden until it is whole. */
int files_symlink(const char *target, node *dir, const char *text, attributes wanted, node **made) {
    path at, hidden;
    if (!volume.keeps) return -EPERM;
    int code = path_in(dir, text, &at);
    if (!code) code = LOOK(bpfs_stat(&volume.fs, P(at), NULL));
    if (code != -ENOENT) return code ? code : -EEXIST;
    code = attributes_inherit(dir, &wanted);
    if (!code) code = hidden_create(&hidden);
    if (code) return code;
    code = CHANGE(
        bpfs_write(&volume.fs, P(hidden), 0, (const uint8_t *)target, strlen(target), &lack));
    if (!code) code = attributes_set(&hidden, &wanted);
    if (!code) code = CHANGE(bpfs_rename(&volume.fs, P(hidden), P(at), &lack));
    if (code) return unmake(&hidden, wanted.mode), code;
    return finish_making(&at, dir, text, wanted.mode, made);
}

int files_link(node *it, node *dir, const char *text) {
    path from, to;
    int code = nodes_path(it, &from);
    if (!code) code = path_in(dir, text, &to);
    if (code) return code;
    struct name *added = nodes_new_name(dir, text);
    if (!added) return -ENOMEM;
    code = CHANGE(bpfs_link(&volume.fs, P(from), P(to), &lack));
    if (code) return nodes_free_name(added), code;
    nodes_add_name(it, added);
    it->lookups++;
    times_touch(dir);
    return 0;
}

/* ---- names that go */

/* A name that an operation removes, and what becomes of the file or directory. */
typedef struct loss {
    node *dir;
    const char *text;
    bool is_replaced; /* by another file, in the same call */
    node *it; /* NULL: nobody knows the file. It has one lookup more while the loss goes on */
    bool is_last;     /* programs can't find the file afterwards */
    bool is_deleted;  /* the file has no link afterwards, not even a hidden one */
    bool was_added;   /* a hidden link keeps the file */
    attributes of_dir;
} loss;

/* Whether the file needs a hidden link: it is open, or about to be. A program that looked up a name
 * just before the file was replaced opens the old file. With an error here, the name would seem to
 * be gone. */
static bool needs_link(const loss *going, const node *it, bool is_dir) {
    bool has_other = nodes_has_other_name(it, going->dir, going->text);
    if (is_dir || has_other) return false;
    return it->opens || (going->is_replaced && it->lookups && hidden_reserve(exposed + 1));
}

/* Before the operation. */
static int prepare(loss *going, const path *at) {
    uint32_t number, links = 1; /* of a directory */
    int code = error_of(bpfs_inode(&volume.fs, P(*at), &number));
    if (!code) code = LOOK(bpfs_links(&volume.fs, P(*at), &links));
    bool is_dir = code == -EISDIR;
    if (is_dir) code = attributes_get(at, true, &going->of_dir);
    if (code) return code;
    node *it = nodes_find(number);
    going->is_deleted = links == 1;
    going->is_last = links == (it && it->is_hidden ? 2 : 1);
    if (!it) return 0;
    if (needs_link(going, it, is_dir)) {
        code = hidden_add(it, at);
        if (code && it->opens) return code;
        going->was_added = !code;
        if (it->opens && !code) exposed--;
    }
    if (going->was_added) going->is_deleted = false;
    going->it = it;
    it->lookups++;
    if (!going->is_deleted && !nodes_has_other_name(it, going->dir, going->text))
        times_store_of(it);
    return 0;
}

/* After an operation that succeeded. */
static void finish(const loss *going) {
    node *it = going->it;
    file_count -= going->is_last;
    if (!it) return;
    if (going->is_deleted) {
        it->mode = going->of_dir.mode, it->owner = going->of_dir.owner,
        it->group = going->of_dir.group;
        times_forget(it);
        nodes_delete(it);
    } else {
        nodes_remove_name(it, going->dir, going->text);
    }
    nodes_forget(it, 1);
}

/* Removes the hidden link. If that fails, the next mount does it. */
static void unhide(node *it) {
    loss going = {.dir = hidden_directory(), .text = hidden_name(it)};
    path at;
    if (nodes_path_in(going.dir, going.text, &at) || prepare(&going, &at)) return;
    if (CHANGE(bpfs_unlink(&volume.fs, P(at), &lack))) {
        nodes_forget(it, 1);
        return;
    }
    it->is_hidden = going.is_last = false; /* programs could not find it before */
    hidden_removed();
    if (it->opens) exposed++; /* it has another name */
    finish(&going);
}

/* After an operation that failed. */
static void undo(const loss *going) {
    if (!going->it) return;
    if (going->was_added) unhide(going->it);
    nodes_forget(going->it, 1);
}

/* The end of an operation that removes a name. */
static int end(int code, const loss *going) {
    if (code) return undo(going), code;
    finish(going);
    times_touch(going->dir);
    return 0;
}

int files_unlink(node *dir, const char *text) {
    loss going = {.dir = dir, .text = text};
    path at;
    int code = path_in(dir, text, &at);
    if (!code) code = prepare(&going, &at);
    if (!code) code = CHANGE(bpfs_unlink(&volume.fs, P(at), &lack));
    return end(code, &going);
}

int files_rmdir(node *dir, const char *text) {
    loss going = {.dir = dir, .text = text};
    path at;
    int code = path_in(dir, text, &at);
    if (!code) code = prepare(&going, &at);
    if (!code) code = CHANGE(bpfs_rmdir(&volume.fs, P(at), &lack));
    return end(code, &going);
}

/* Gets the inode of what a rename moves, and that of what it replaces, or 0. */
static int find_both(const path *from, const path *to, uint32_t *moved, uint32_t *replaced) {
    *replaced = 0;
    int code = error_of(bpfs_inode(&volume.fs, P(*from), moved));
    if (code) return code;
    code = error_of(bpfs_inode(&volume.fs, P(*to), replaced));
    return code == -ENOENT ? 0 : code;
}

int files_rename(node *from_dir, const char *from, node *to_dir, const char *to, unsigned flags) {
    path old, new;
    uint32_t number, replaced;
    if (flags & ~(unsigned)RENAME_NOREPLACE) return -EINVAL;
    int code = path_in(from_dir, from, &old);
    if (!code) code = path_in(to_dir, to, &new);
    if (!code) code = find_both(&old, &new, &number, &replaced);
    if (code) return code;
    if (replaced && flags) return -EEXIST;
    if (replaced == number) return 0; /* two links to one file: both remain */
    loss going = {.dir = to_dir, .text = to, .is_replaced = true};
    struct name *added = NULL;
    node *moved = nodes_find(number);
    if (moved) added = nodes_new_name(to_dir, to);
    if (moved && !added) return -ENOMEM;
    if (replaced) code = prepare(&going, &new);
    if (!code) code = CHANGE(bpfs_rename(&volume.fs, P(old), P(new), &lack));
    code = end(code, &going);
    if (code) return nodes_free_name(added), code;
    if (moved) {
        nodes_remove_name(moved, from_dir, from);
        nodes_add_name(moved, added);
    }
    times_touch(from_dir);
    return 0;
}

/* ---- contents and attributes */

int files_open(node *it, bool maps) {
    if (!it->names) return -ESTALE;
    bool is_first = !it->opens++;
    it->maps += maps;
    if (is_first && !it->is_hidden) exposed++;
    if (volume.carrier_count) hidden_reserve(exposed);
    return 0;
}

void files_close(node *it, bool maps) {
    it->opens--;
    it->maps -= maps;
    if (!it->opens && !it->is_hidden) exposed--;
    nodes_drop(it);
}

void files_forget(node *it, uint64_t lookups) {
    if (it->is_hidden && it->lookups == lookups) unhide(it);
    nodes_forget(it, lookups);
}

/* A write makes blocks of its own bytes only, so the others are not counted again. */
int files_write(node *it, const char *bytes, size_t size, off_t offset) {
    path at;
    int code = nodes_path(it, &at);
    if (code) return code;
    size_t done = 0;
    uint64_t first = (uint64_t)offset / BLOCK * BLOCK, end = (uint64_t)offset + size;
    uint64_t before = it->has_blocks ? blocks_in(it, first, end) : 0;
    for (size_t n; done < size && !code; done += code ? 0 : n) {
        n = size - done < volume.max_write ? size - done : volume.max_write;
        const uint8_t *from = (const uint8_t *)bytes + done;
        code = CHANGE(bpfs_write(&volume.fs, P(at), (uint64_t)offset + done, from, n, &lack));
    }
    if (it->has_blocks) it->blocks += blocks_in(it, first, end) - before;
    if (code && !done) return code;
    times_touch(it);
    return (int)done;
}

int files_copy(const node *from, off_t offset, node *to, off_t to_offset, size_t size) {
    static char bytes[BPFS_MAX_WRITE_2];
    size_t most = size < MOST_COPIED ? size : MOST_COPIED, done = 0;
    int count = 1;
    while (done < most && count > 0) {
        size_t part = most - done < sizeof bytes ? most - done : sizeof bytes;
        count = files_read(from, bytes, part, offset + (off_t)done);
        if (count > 0) count = files_write(to, bytes, (size_t)count, to_offset + (off_t)done);
        if (count > 0) done += (size_t)count;
    }
    return done ? (int)done : count;
}

int files_truncate(node *it, off_t size) {
    path at;
    int code = nodes_path(it, &at);
    if (!code) code = CHANGE(bpfs_truncate(&volume.fs, P(at), (uint64_t)size, &lack));
    it->has_blocks = false;
    if (!code) times_touch(it);
    return code;
}

int files_set_attributes(const node *it, mode_t mode, uid_t owner, gid_t group) {
    attributes wanted;
    uint32_t links;
    bool is_dir;
    path at;
    int code = nodes_path(it, &at);
    if (!code) code = look_at(&at, &is_dir, &links, &wanted);
    if (code) return code;
    if (mode != (mode_t)-1) wanted.mode = (wanted.mode & S_IFMT) | (mode & 07777);
    if (owner != (uid_t)-1) wanted.owner = owner;
    if (group != (gid_t)-1) wanted.group = group;
    return attributes_set(&at, &wanted);
}

/* ---- the beginning and the end of a mount */

void files_begin(void) {
    bpfs_sums sums = {0};
    exposed = 0;
    bpfs_totals(&volume.fs, &sums);
    file_count = sums.files + sums.dirs - (hidden_directory() != NULL);
}
