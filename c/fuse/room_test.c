/* room_test.c - each operation of a mount, with each number of events in the log that leaves room
 * for few calls.
 *
 * An operation may make several calls of the library, and each of them needs room in the log. So
 * each operation is tried with the log as full as it may be for 0 to 8 more calls, and has to
 * succeed: on a volume of version 2 of the format, and on one of version 3.
 */
#define _GNU_SOURCE
#include "hidden.h"
#include "listing.h"
#include "test_volume.h"
#include "times.h"
#include <errno.h>
#include <fcntl.h>
#include <stdio.h>
#include <string.h>

enum { BLOCKS = 2048, CALLS = 8, LENGTH = 3000, PIECE = 1000 };

static const attributes of_file = {S_IFREG | 0644, 0, 0}, of_directory = {S_IFDIR | 0755, 0, 0};
static const attributes of_link = {S_IFLNK | 0777, 0, 0};

static char bytes[LENGTH];

/* Leaves room for `calls` calls that add one event each, as a refused call does. */
static void fill_log(size_t calls) {
    must(volume_carry() == 0 && bpfs_event_count(&volume.fs) == 0, "not carried");
    while (bpfs_event_count(&volume.fs) + calls < BPFS_LOG_ROOM + 1)
        must(bpfs_rmdir(&volume.fs, (const uint8_t *)"/", 1, NULL) == BPFS_IS_ROOT,
             "the root is not refused");
}

/* ---- operations: each is prepared, tried, and undone */

static node *root, *file, *open_file;
static struct stat st;
static struct statvfs stvfs;

static int make(const char *name, attributes it) {
    node *made;
    int code = S_ISLNK(it.mode) ? files_symlink("target", root, name, it, &made)
                                : files_make(root, name, it, &made);
    if (!code) nodes_forget(made, 1);
    return code;
}

static int stat_at(const char *name) {
    node *it;
    int code = files_lookup(root, name, &it);
    if (code) return code;
    code = files_stat(it, &st);
    nodes_forget(it, 1);
    return code;
}

static int list_root(void) {
    listing names = {0};
    bool is_dir;
    path at;
    int code = nodes_path(root, &at);
    if (!code) code = listing_take(&names, &at);
    for (size_t i = 0; i < names.count && !code; i++) {
        const char *name = listing_name(&names, i, &is_dir);
        code = hidden_is(root, name) ? 0 : files_entry(root, name, is_dir, &st);
    }
    listing_clear(&names);
    return code;
}

static int readlink_at(const char *name) {
    node *it;
    int code = files_lookup(root, name, &it);
    if (code) return code;
    code = files_readlink(it, bytes, LENGTH);
    nodes_forget(it, 1);
    return code;
}

static int stat_file(void) { return stat_at("file"); }
static int stat_root(void) { return files_stat(root, &st); }
static int stat_link(void) { return stat_at("link"); }
static int read_file(void) { return files_read(file, bytes, LENGTH, 0) < 0 ? -EIO : 0; }
static int space(void) { return files_space(&stvfs); }
static int mkdir_new(void) { return make("new", of_directory); }
static int rmdir_new(void) { return files_rmdir(root, "new"); }
static int create_new(void) { return make("new", of_file); }
static int unlink_new(void) { return files_unlink(root, "new"); }
static int rename_file(void) { return files_rename(root, "file", root, "new", 0); }
static int rename_noreplace(void) {
    return files_rename(root, "file", root, "new", RENAME_NOREPLACE);
}
static int rename_back(void) { return files_rename(root, "new", root, "file", 0); }
static int rename_exists(void) {
    return files_rename(root, "file", root, "dir", RENAME_NOREPLACE) == -EEXIST ? 0 : -EIO;
}
static int truncate_file(void) { return files_truncate(file, 77); }
static int write_file(void) { return files_write(file, bytes, LENGTH, 0) == LENGTH ? 0 : -EIO; }
static int carry(void) { return volume_carry() ? -EIO : 0; }
static int write_and_carry(void) { return write_file() ? -EIO : carry(); }
static int chmod_file(void) { return files_set_attributes(file, 0644, (uid_t)-1, (gid_t)-1); }
static int chown_file(void) {
    return files_set_attributes(file, (mode_t)-1, volume.owner, volume.group);
}
static int set_time(void) { return times_set(file, (struct timespec){1, 1}); }
static int readlink_link(void) { return readlink_at("link"); }
static int symlink_new(void) { return make("new", of_link); }

static int link_new(void) {
    int code = files_link(file, root, "new");
    if (!code) nodes_forget(file, 1);
    return code;
}

/* A file with the name "new" that is open */
static int create_open(void) {
    int code = files_make(root, "new", of_file, &open_file);
    return code ? code : files_open(open_file, false);
}

static int unlink_open(void) {
    int code = create_open();
    return code ? code : unlink_new();
}

static uint64_t count_files(void) {
    bpfs_sums sums = {0};
    must(bpfs_totals(&volume.fs, &sums) == BPFS_OK, "no totals");
    return sums.files;
}

static int close_it(void) {
    uint64_t count = count_files();
    files_close(open_file, false);
    files_forget(open_file, 1);
    return count_files() == count - 1 ? 0 : -EIO;
}

static int replace_open(void) { return files_rename(root, "file", root, "new", 0); }

static int undo_replace(void) {
    int code = close_it();
    return code ? code : rename_back();
}

static const struct trial {
    const char *name;
    int (*prepare)(void), (*it)(void), (*undo)(void);
} trials[] = {
    {"lookup and stat of a file", NULL, stat_file, NULL},
    {"stat of a directory", NULL, stat_root, NULL},
    {"a directory and its entries", NULL, list_root, NULL},
    {"read", NULL, read_file, NULL},
    {"statfs", NULL, space, NULL},
    {"mkdir", NULL, mkdir_new, rmdir_new},
    {"rmdir", mkdir_new, rmdir_new, NULL},
    {"create", NULL, create_new, unlink_new},
    {"unlink", create_new, unlink_new, NULL},
    {"unlink of an open file", create_open, unlink_new, close_it},
    {"close of an unlinked file", unlink_open, close_it, NULL},
    {"rename", NULL, rename_file, rename_back},
    {"rename over an open file", create_open, replace_open, undo_replace},
    {"rename, RENAME_NOREPLACE", NULL, rename_noreplace, rename_back},
    {"rename, RENAME_NOREPLACE, of an existing name", NULL, rename_exists, NULL},
    {"link", NULL, link_new, unlink_new},
    {"truncate", NULL, truncate_file, NULL},
    {"write in three pieces", NULL, write_file, NULL},
    {"fsync", NULL, carry, NULL},
    {"write, fsync", NULL, write_and_carry, NULL},
    {"chmod", NULL, chmod_file, NULL},
    {"chown", NULL, chown_file, NULL},
    {"utimens", NULL, set_time, NULL},
    /* From version 3 on */
    {"stat of a symbolic link", NULL, stat_link, NULL},
    {"readlink", NULL, readlink_link, NULL},
    {"symlink", NULL, symlink_new, unlink_new},
};

enum { TRIALS = sizeof trials / sizeof *trials, BEFORE_VERSION_3 = TRIALS - 3 };

/* Whether an operation succeeds with room for this many calls. */
static bool works(const struct trial *trial, size_t calls) {
    must(!trial->prepare || trial->prepare() == 0, "not prepared");
    fill_log(calls);
    int code = trial->it();
    if (code)
        fprintf(stderr, "%s with room for %zu calls: %s\n", trial->name, calls, strerror(-code));
    must(code || !trial->undo || trial->undo() == 0, "not undone");
    return code == 0;
}

static size_t try_all(uint32_t version) {
    size_t wrong = 0, count = version < 3 ? BEFORE_VERSION_3 : TRIALS;
    test_format(BLOCKS, version);
    volume.max_write = PIECE;
    test_mount();
    root = nodes_root();
    must(make("dir", of_directory) == 0 && files_make(root, "file", of_file, &file) == 0,
         "no files");
    must(version < 3 || make("link", of_link) == 0, "no symbolic link");
    for (size_t i = 0; i < count; i++)
        for (size_t calls = 0; calls <= CALLS; calls++) wrong += !works(&trials[i], calls);
    must(volume_carry() == 0 && !times_wait(), "times are left");
    test_lose();
    if (wrong) fprintf(stderr, "%zu operations failed\n", wrong);
    else
        printf("%zu operations of version %u with room for 0 to %d calls in the log: ok\n", count,
               version, CALLS);
    return wrong;
}

int main(void) {
    return try_all(2) + try_all(3) != 0;
}
