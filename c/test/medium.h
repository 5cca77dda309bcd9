/* medium.h - a simulated disk and persistent memory, on which a process can be killed and power can
 * fail. For tests.
 *
 * Files below /medium/ are kept in this process. A program that is linked with the options of
 * medium.wrap uses them by the ordinary calls: open, close, pread, pwrite, fsync, fdatasync,
 * ftruncate, posix_fallocate, fstat, stat, flock, mmap, munmap, rename, unlink, and pmem_map_file,
 * pmem_unmap, pmem_flush, pmem_drain and pmem_persist of libpmem. All other files are the system's.
 * There is one folder, /medium.
 *
 * What is written is in a cache at first. What is synced is durable: words of a file by fsync and
 * fdatasync; stores to persistent memory by pmem_flush and then pmem_drain only; names by fsync of
 * the folder. All else may become durable at any time, in any order: a file in sectors of 512
 * bytes, mapped persistent memory in words of eight bytes, the names one by one.
 *
 * At an end that is planned the running call takes part of its effect, and every later one fails
 * with EIO. Close what is open (which releases its memory only), and restart: handles and locks are
 * gone. After a kill the cache is as it was; after a power failure it holds what was durable.
 */
#ifndef BPFS_MEDIUM_H
#define BPFS_MEDIUM_H
#include <stdbool.h>
#include <stdint.h>

#ifdef __cplusplus
extern "C" {
#endif

#define MEDIUM "/medium/"

typedef enum medium_end {
    MEDIUM_KILL,  /* the process ends */
    MEDIUM_POWER, /* power fails: of what was not synced some is durable */
    MEDIUM_LOSES, /* power fails: of what was not synced nothing is durable */
} medium_end;

/* Begins with an empty medium, without a planned end. All that happens follows from the seed. */
void medium_clear(uint64_t seed);

/* Plans an end at the call number `steps` from now, from 1 on. Calls that change or sync something
 * are counted. 0: no end. */
void medium_end_after(uint64_t steps, medium_end how);

/* Ends now. */
void medium_end_now(medium_end how);

/* Plans that the call number `steps` from now fails with EIO or ENOSPC; what a failed sync leaves
 * unsynced is lost in the end. Functions of libpmem do not fail. 0: none. */
void medium_fail_after(uint64_t steps);

bool medium_has_ended(void);

/* Whether a planned failure came since the last restart. */
bool medium_has_failed(void);

/* Goes on after an end, in a new process. */
void medium_restart(void);

/* Makes an empty file that is durable. */
void medium_make(const char *path);

/* The size of a file in bytes, or -1 if there is no such name. */
int64_t medium_size(const char *path);

/* How many fsync, fdatasync and pmem_drain there were since medium_clear. */
uint64_t medium_syncs(void);

#ifdef __cplusplus
}
#endif
#endif
