/* replace_test.c - the name of an open file after a power failure while the file is replaced or
 * deleted.
 *
 * Both operations make several calls of the library. Each prefix of their stores is mounted, as it
 * would be after a power failure: the name has the old bytes or the new ones (after a deletion: it
 * has the old ones, or it is gone), and nothing else is left. It is done for files in one directory
 * and in two, and for a file that has another name.
 */
#define _GNU_SOURCE
#include "test_volume.h"
#include <stdio.h>
#include <string.h>

enum { BLOCKS = 64 };

static const char old[] = "the old bytes, of more than one word", new[] = "the new bytes";

typedef struct trial {
    const char *name, *from, *to; /* from NULL: `to` is deleted */
    bool has_other;               /* the old file has another name */
} trial;

static const trial trials[] = {
    {"a rename over an open file", "new", "current", false},
    {"a rename over an open file, from another directory", "dir/new", "current", false},
    {"a rename over an open file, to another directory", "new", "dir/current", false},
    {"a rename over an open file with another name", "new", "current", true},
    {"a deletion of an open file", NULL, "current", false},
    {"a deletion of an open file in a directory", NULL, "dir/current", false},
};

/* Makes the files, with the old one open. Its other name is not known: it is from before the
 * mount. */
static void prepare(const trial *it) {
    const char *name;
    node *dir;
    test_format(BLOCKS, 3);
    test_mount();
    must(files_make(nodes_root(), "dir", (attributes){S_IFDIR | 0755, 0, 0}, &dir) == 0,
         "no directory");
    node *file = test_make(it->to, old);
    must(!it->has_other || files_link(file, nodes_root(), "other") == 0, "no link");
    if (it->from) test_make(it->from, new);
    must(volume_carry() == 0, "not carried");
    test_lose();
    test_mount();
    must(!it->from || test_find(it->from), "no new file");
    dir = test_parent(it->to, &name);
    must(files_lookup(dir, name, &file) == 0 && files_open(file, false) == 0, "not open");
}

static int act(const trial *it) {
    const char *from, *to;
    node *to_dir = test_parent(it->to, &to);
    if (!it->from) return files_unlink(to_dir, to);
    node *from_dir = test_parent(it->from, &from);
    return files_rename(from_dir, from, to_dir, to, 0);
}

static size_t count_files(void) {
    bpfs_sums sums = {0};
    must(bpfs_totals(&volume.fs, &sums) == BPFS_OK, "no totals");
    return sums.files;
}

/* Acts, with only so many stores that become durable. Returns whether all of them did. */
static bool cut_after(const trial *it, size_t count, bool *was_done) {
    prepare(it);
    test_stores = count;
    must(act(it) == 0 && volume_carry() == 0, it->name);
    bool all = test_stores > 0;
    test_lose();
    test_mount();
    *was_done = !test_has(it->to, old);
    bool is_new = it->from ? test_has(it->to, new) : !test_find(it->to);
    must(!*was_done || is_new, "the name has neither the old nor the new bytes");
    must(!it->from || *was_done || test_has(it->from, new), "the new file is lost");
    must(!it->has_other || test_has("other", old), "the other name is lost");
    must(count_files() == (size_t)(!*was_done + (it->from != NULL) + (*was_done && it->has_other)),
         "a file is left or lost");
    test_lose();
    return all;
}

/* What the program with the open file sees, and the other names. */
static void keeps_the_file(const trial *it) {
    char bytes[64];
    const char *name;
    struct stat st;
    prepare(it);
    node *dir = test_parent(it->to, &name), *file;
    must(files_lookup(dir, name, &file) == 0 && act(it) == 0, it->name);
    must(files_read(file, bytes, sizeof bytes, 0) == sizeof old - 1 &&
             memcmp(bytes, old, sizeof old - 1) == 0,
         "not kept");
    must(files_stat(file, &st) == 0 && st.st_nlink == it->has_other, "a wrong number of links");
    must(files_write(file, "x", 1, 1000) == 1 && volume_carry() == 0, "not written");
    files_close(file, false);
    files_forget(file, file->lookups);
    must(count_files() == (size_t)((it->from != NULL) + it->has_other), "the file is left");
    test_lose();
}

static size_t cut_everywhere(const trial *it) {
    size_t count = 0, done = 0;
    for (bool all = false, was_done; !all; count++, done += was_done)
        all = cut_after(it, count, &was_done);
    must(done > 0 && done < count, "no cut before the operation, or none after it");
    keeps_the_file(it);
    printf("%s, cut after 0 to %zu stores: as before or as after it\n", it->name, count - 1);
    return count;
}

int main(void) {
    size_t count = 0;
    for (size_t i = 0; i < sizeof trials / sizeof *trials; i++) count += cut_everywhere(&trials[i]);
    must(count >= 100, "fewer than 100 cuts");
    return 0;
}
