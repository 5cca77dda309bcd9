/* shuffle.h - a carrier around another one that puts the stores of each epoch in any order, as a
 * medium may. For tests.
 *
 * A careless one is wrong on purpose: it ignores barriers, so that stores of several epochs are
 * mixed. A test has to find it.
 */
#ifndef BPFS_SHUFFLE_H
#define BPFS_SHUFFLE_H
#include <bpfs/carry.h>

#ifdef __cplusplus
extern "C" {
#endif

typedef struct bpfs_shuffle {
    bpfs_carrier carrier;
    bpfs_carrier *target;
    bool careless;
    uint64_t state;    /* the orders follow from it */
    uint64_t left;     /* how many stores are still let through */
    void (*end)(void); /* called at the next one; NULL: put returns -1 with EINTR */
    bpfs_event *stores;
    size_t *order;
    size_t count, capacity;
} bpfs_shuffle;

/* A shuffle that lets all stores through. */
void bpfs_shuffle_of(bpfs_shuffle *shuffle, bpfs_carrier *target, bool careless, uint64_t state);
void bpfs_shuffle_close(bpfs_shuffle *shuffle);

#ifdef __cplusplus
}
#endif
#endif
