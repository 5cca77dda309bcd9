/* pmem.h - carries to an image file that is mapped as persistent memory, by libpmem.
 *
 * Trusted: an aligned store of eight bytes reaches the memory whole or not at all, also where two
 * words are moved at once past the caches; what was flushed (pmem_flush) or stored past the caches
 * is durable when pmem_drain returns; and libpmem knows whether a file is persistent memory. A
 * cache may write a line back before it is flushed. That keeps the order: a line gets no word of a
 * later epoch before the drain that ends the earlier one.
 *
 * PMEM_IS_PMEM_FORCE=1 makes libpmem take other files (in /dev/shm) for persistent memory: for
 * tests and measurements only.
 */
#ifndef BPFS_PMEM_H
#define BPFS_PMEM_H
#include "file.h"

#ifdef __cplusplus
extern "C" {
#endif

/* An open mapped image. Look at it, but change nothing. Never copy one that is open. */
typedef struct bpfs_pmem {
    bpfs_carrier carrier;
    bpfs_file file; /* holds the lock */
    uint64_t *words;
    size_t count;
    const uint64_t *line; /* the cache line that is stored to and not flushed yet, or NULL */
    bool owes;            /* something was put since the last drain */
    bool streamed;        /* and a whole line of it past the caches */
} bpfs_pmem;

/* The functions return 0, or -1 with errno. If one that opens fails, the structure is closed.
 * Errors as in file.h, and
 *   ENOTSUP   the file is not on persistent memory
 *   ENOSPC    the file has holes that the file system has no room for */

/* Creates an image as bpfs_file_create does, and maps it. It may also return BPFS_OUT_OF_RANGE or
 * BPFS_NO_MEMORY. */
int bpfs_pmem_create(bpfs_pmem *pmem, const char *path, uint32_t blocks, uint32_t version);

/* Maps an image that exists, in its size, to read and write. What an earlier process may have left
 * in caches is flushed. */
int bpfs_pmem_open(bpfs_pmem *pmem, const char *path);

/* The same to read only: carrying fails with EROFS. The file need not be on persistent memory. */
int bpfs_pmem_open_read(bpfs_pmem *pmem, const char *path);

/* Mounts a copy of the words, and binds the carrier to the volume. Returns as bpfs_file_mount. */
int bpfs_pmem_mount(bpfs *fs, bpfs_pmem *pmem, bpfs_fault *fault);

/* Unmaps, closes and unlocks. It carries nothing. Closing twice is harmless. */
int bpfs_pmem_close(bpfs_pmem *pmem);

#ifdef __cplusplus
}
#endif
#endif
