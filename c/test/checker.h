/* checker.h - runs a carrier to a file or to mapped persistent memory over the simulated medium of
 * medium.h.
 *
 * The carrier creates images of 12 to 120 blocks, mounts them, and carries random calls. Its
 * process is killed, power fails, and calls of the system fail, at any call that the carrier makes;
 * then it opens and mounts again. The checker finds
 *   - an image that does not mount, or that shows the tree after no prefix of the calls;
 *   - calls that are lost although bpfs_carry returned 0, or although an earlier mount has shown
 *     them;
 *   - with is_atomic, a tree after a part of the calls of one carry;
 *   - a name that is lost although create returned 0; an open that makes a file or changes its
 *     size;
 *   - a second open of an image that is open for writing;
 *   - events that are skipped when bpfs_carry_on is followed by bpfs_drain;
 *   - events of another volume that reach the image;
 *   - a mount of an empty file that leaves `fault` unset.
 *
 * Link with model.o, medium.o, the options in medium.wrap, and the carrier. restart_test.c is an
 * example.
 */
#ifndef BPFS_CHECKER_H
#define BPFS_CHECKER_H
#include <bpfs/carry.h>

#ifdef __cplusplus
extern "C" {
#endif

/* A carrier. Its structure begins with a bpfs_carrier; `it` points to one. The functions return as
 * those of file.h. `path` is below /medium/. close has to release all memory, also if nothing works
 * any more, and be harmless after a failed open. */
typedef struct bpfs_tested {
    const char *name;
    size_t size; /* of the structure */
    int (*create)(void *it, const char *path, uint32_t blocks, uint32_t version);
    int (*open)(void *it, const char *path);
    int (*mount)(bpfs *fs, void *it, bpfs_fault *fault);
    int (*close)(void *it);
    bool is_atomic; /* all calls of a carry are one atomic step */
} bpfs_tested;

/* What was done. */
typedef struct bpfs_tested_counts {
    long images, kills, power_failures, failed_calls, mounts, calls, carries, lost_calls;
} bpfs_tested_counts;

/* Ends `cuts` processes (by a kill or a power failure), all of which follow from `seed`. Returns 0
 * if nothing is wrong, and 1 after the first thing that is, which it prints on standard error. 2:
 * the check itself could not go on. */
int bpfs_check_carrier(const bpfs_tested *tested, long cuts, uint64_t seed, bpfs_tested_counts *counts);

#ifdef __cplusplus
}
#endif
#endif
