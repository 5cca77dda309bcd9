/* symlink_test.c - a symbolic link after a power failure while it is made.
 *
 * The operation makes several calls of the library. Each prefix of their stores is mounted, as it
 * would be after a power failure: the whole link is there, or nothing, and then it can be made.
 */
#define _GNU_SOURCE
#include "test_volume.h"
#include <stdio.h>
#include <string.h>

enum { BLOCKS = 64 };

static const char target[] = "../a target of more than one word";
static const attributes of_directory = {S_IFDIR | 0755, 0, 0}, of_link = {S_IFLNK | 0777, 0, 0};

static int make_link(void) {
    const char *name;
    node *dir = test_parent("dir/link", &name), *it;
    return files_symlink(target, dir, name, of_link, &it);
}

static bool is_whole(void) {
    struct stat st;
    char bytes[64];
    node *it = test_find("dir/link");
    return it && files_stat(it, &st) == 0 && st.st_mode == (S_IFLNK | 0777) &&
           files_readlink(it, bytes, sizeof bytes) == 0 && strcmp(bytes, target) == 0;
}

static uint64_t count_files(void) {
    bpfs_sums sums = {0};
    must(bpfs_totals(&volume.fs, &sums) == BPFS_OK, "no totals");
    return sums.files;
}

/* Makes the link, of whose stores only so many become durable. Returns whether all of them did. */
static bool cut_after(size_t count, bool *was_whole) {
    node *dir;
    test_format(BLOCKS, 3);
    test_mount();
    must(files_make(nodes_root(), "dir", of_directory, &dir) == 0 && volume_carry() == 0,
         "no directory");
    test_stores = count;
    must(make_link() == 0 && volume_carry() == 0, "no symbolic link");
    bool all = test_stores > 0;
    test_lose();
    test_mount();
    *was_whole = is_whole();
    must(count_files() == *was_whole, "half a symbolic link is there");
    must(*was_whole || make_link() == 0, "no symbolic link after the power failure");
    must(is_whole() && count_files() == 1 && volume_carry() == 0,
         "no whole symbolic link after the power failure");
    test_lose();
    return all;
}

int main(void) {
    size_t count = 0, whole = 0;
    for (bool all = false, was_whole; !all; count++, whole += was_whole)
        all = cut_after(count, &was_whole);
    must(whole > 0 && whole < count, "no cut before the link, or none after it");
    printf("a symbolic link, cut after 0 to %zu stores: whole or not there\n", count - 1);
    return 0;
}
