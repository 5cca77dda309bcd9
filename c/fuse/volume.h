/* volume.h - the mounted volume: its handle, its carriers, and when its log is carried.
 *
 * One thread uses all of this.
 */
#ifndef BPFS_VOLUME_H
#define BPFS_VOLUME_H
#include <bpfs/carry.h>
#include <sys/types.h>
#include <time.h>

enum {
    VOLUME_DELAY = 1000
}; /* milliseconds from the first call that is not carried to the carry */

struct volume {
    bpfs fs;
    bpfs_carrier *carriers[2]; /* none: a read-only mount */
    size_t carrier_count;
    size_t max_write; /* bytes of one bpfs_write */
    uid_t owner;
    gid_t group;
    bool keeps;  /* the version of the format keeps modes, owners, times and symbolic links */
    bool quiet;  /* changes of modes and owners that are not kept succeed, and are forgotten */
    bool failed; /* a carrier failed for good: the volume is only read from now on */
    bool daemon; /* standard error is closed: messages go to the system log */

    /* Kept by the functions below. */
    bool reported;       /* the present failure was reported */
    bool waits;          /* the log has events, and must be carried at `due` */
    struct timespec due;
};

extern struct volume volume;

/* Prints a line on standard error, or writes it to the system log. */
void report(const char *format, ...) __attribute__((format(printf, 1, 2)));

/* Makes room in the log for one call of the library. Call it before each call that may change the
 * tree: room for one call is all that is sure. False if the log could not be carried, or if the
 * volume has failed. */
bool volume_has_room(void);

/* Stores the times that were not stored yet, and carries the log: all calls so far are durable. 0,
 * or -1. */
int volume_carry(void);

/* Notes that a request began at this time. Call it after the request. */
void volume_served(struct timespec began);

/* Carries the log if VOLUME_DELAY has passed since the first event that is not carried. */
void volume_carry_if_due(void);

/* Returns how many milliseconds remain until then; -1: the log is empty. */
int volume_wait(void);

struct timespec volume_now(void);
#endif
