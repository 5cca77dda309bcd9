/* restart_test.c - kills processes and fails power while they use a carrier, over a simulated
 * medium (checker.h).
 *
 *     restart_test file|redo|pmem CUTS SEED
 *
 * The status is 0 if nothing is wrong, 1 if something is, and 2 if the test itself could not go on.
 */
#include "checker.h"
#include <bpfs/file.h>
#include <bpfs/redo.h>
#ifdef HAS_PMEM
#include <bpfs/pmem.h>
#endif
#include <stdio.h>
#include <stdlib.h>
#include <string.h>

static int create_file(void *it, const char *path, uint32_t blocks, uint32_t version) {
    return bpfs_file_create(it, path, blocks, version, BPFS_FILE_WAITS);
}

static int open_file(void *it, const char *path) {
    return bpfs_file_open(it, path, BPFS_FILE_WAITS);
}

static int mount_file(bpfs *fs, void *it, bpfs_fault *fault) {
    return bpfs_file_mount(fs, it, fault);
}

static int close_file(void *it) {
    return bpfs_file_close(it);
}

static int create_redo(void *it, const char *path, uint32_t blocks, uint32_t version) {
    return bpfs_redo_create(it, path, blocks, version, BPFS_FILE_WAITS);
}

static int open_redo(void *it, const char *path) {
    return bpfs_redo_open(it, path, BPFS_FILE_WAITS);
}

static int mount_redo(bpfs *fs, void *it, bpfs_fault *fault) {
    return bpfs_redo_mount(fs, it, fault);
}

static int close_redo(void *it) {
    return bpfs_redo_close(it);
}

#ifdef HAS_PMEM
static int create_pmem(void *it, const char *path, uint32_t blocks, uint32_t version) {
    return bpfs_pmem_create(it, path, blocks, version);
}

static int open_pmem(void *it, const char *path) {
    return bpfs_pmem_open(it, path);
}

static int mount_pmem(bpfs *fs, void *it, bpfs_fault *fault) {
    return bpfs_pmem_mount(fs, it, fault);
}

static int close_pmem(void *it) {
    return bpfs_pmem_close(it);
}
#endif

static const bpfs_tested carriers[] = {
    {"file", sizeof(bpfs_file), create_file, open_file, mount_file, close_file, false},
    {"redo", sizeof(bpfs_redo), create_redo, open_redo, mount_redo, close_redo, true},
#ifdef HAS_PMEM
    {"pmem", sizeof(bpfs_pmem), create_pmem, open_pmem, mount_pmem, close_pmem, false},
#endif
};

int main(int argc, char **argv) {
    bpfs_tested_counts n;
    if (argc != 4) return fprintf(stderr, "usage: restart_test file|redo|pmem CUTS SEED\n"), 2;
    for (size_t i = 0; i < sizeof carriers / sizeof *carriers; i++) {
        if (strcmp(carriers[i].name, argv[1])) continue;
        int code = bpfs_check_carrier(&carriers[i], atol(argv[2]), strtoull(argv[3], NULL, 10), &n);
        if (code) return code;
        printf("%s: %ld images, %ld kills, %ld power failures, %ld failed calls: ", argv[1], n.images, n.kills, n.power_failures, n.failed_calls);
        printf("%ld mounts, %ld calls (%ld lost, none durable), %ld carries\n", n.mounts, n.calls, n.lost_calls, n.carries);
        return 0;
    }
    return fprintf(stderr, "restart_test: %s is no carrier of this build\n", argv[1]), 2;
}
