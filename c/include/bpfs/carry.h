/* carry.h - carries the events of a volume's log to a medium that keeps them.
 *
 * A volume (bpfs.h) does no I/O: each call adds events to a log. An event stores one 64-bit word,
 * is a barrier, or marks the end of a call (CARRYING in bpfs.h). A carrier writes these events to
 * one medium. The loop that reads the log is in carry.c; a carrier is the three functions that the
 * loop calls. To drain the log is to remove its events, once they are durable.
 *
 * file.h, redo.h, pmem.h and stream.h have carriers. To write your own, begin a structure with a
 * bpfs_carrier and keep this contract:
 *
 *  1. Words. After a crash, each word that was put has its old value or a new one, never parts of
 *     both.
 *  2. Order. No word that is put after a barrier becomes durable before every word that was put
 *     before it. Words between two barriers may become durable in any order; two values of one word
 *     only in the order in which they were put.
 *  3. settle returns 0 only if all that was put is durable. Nothing may be assumed of what an
 *     earlier process left unsynced.
 *  4. Failure. A function that fails returns -1 with errno. It may have done a part of its work, if
 *     points 1 and 2 still hold. Then the medium holds an image of a prefix of the calls, also if
 *     only a part of a call's words were put: the library orders its stores so. The loop repeats
 *     the same put, barrier or settle if the caller carries again. If repeating cannot help (a sync
 *     failed), the carrier also sets `error`, and the loop never calls it again.
 *  5. Opening. All that a mount reads is durable before the mount returns, and so is the name of
 *     the medium. A process that was killed leaves words in caches that were never synced: opening
 *     has to sync them.
 *  6. One writer. While a medium is open for writing, no other process can open it.
 *
 * checker.h runs a carrier against this contract on a simulated medium.
 *
 * bpfs_carry and the other functions return 0, or -1 with errno. If one fails, nothing is drained:
 * every carrier keeps its position, and a later call goes on from there. Besides the errors named
 * here they return those of the carrier's functions.
 */
#ifndef BPFS_CARRY_H
#define BPFS_CARRY_H
#include "../bpfs.h"

#ifdef __cplusplus
extern "C" {
#endif

typedef struct bpfs_carrier bpfs_carrier;

struct bpfs_carrier {
    /* Puts `count` values to the words from `word` on. */
    int (*put)(bpfs_carrier *carrier, uint64_t word, const uint64_t *values, size_t count);
    /* Orders: what is put later becomes durable later. Need not wait. */
    int (*barrier)(bpfs_carrier *carrier);
    /* Waits until all that was put is durable. */
    int (*settle)(bpfs_carrier *carrier);
    /* State of the loop, 0 at first. Read it, but do not set it; only `error` is set by the
     * carrier's functions. */
    uint64_t volume; /* tag of the mounted volume that the carrier is bound to; 0: none */
    uint64_t next;   /* number since the mount of the first event that is not carried yet */
    int error;       /* errno of the failure that ended the carrier for good; 0: none */
};

/* Words of the superblock that no image uses (docs/format.md: they are dead). A follower notes at
 * BPFS_NOTE_WORD how far it came (follow.h); redo.c notes at BPFS_REDO_WORD which journal belongs
 * to the image. */
enum { BPFS_REDO_WORD = 510, BPFS_NOTE_WORD = 511 };

/* Whether an image needs its journal: it was carried to by redo.c and not closed cleanly since.
 * `redo_word` is the value of the image's BPFS_REDO_WORD. Only redo.c may read or write such an
 * image: any other carrier to image files has to refuse to open it, as file.c does (EUCLEAN). */
static inline bool bpfs_needs_journal(uint64_t redo_word) {
    return redo_word >> 40 == 0x52444f;
}

/* Binds the carrier to a mounted volume. The caller states that the medium holds the volume's image
 * as of now. From then on the carrier takes events of this volume only, from this event on. An
 * earlier binding of the carrier ends; closing the volume ends it too. The mount functions of
 * file.h, redo.h and pmem.h and bpfs_copy_image bind; call it yourself for a medium that got the
 * image in another way. It uses bpfs_set_tag: a program that carries must not call that.
 *   EBUSY    the log is not empty
 *   EINVAL   no volume is mounted
 *   the carrier's `error`, if it failed for good earlier; so do all functions below */
int bpfs_bind(bpfs *fs, bpfs_carrier *carrier);

/* Carries all events of the log, waits until they are durable, and drains the log. On return 0 all
 * calls so far are durable. This and the next two functions check before they write anything:
 *   EINVAL   the carrier is not bound to this volume, but to another one, to one that was closed
 *            (and perhaps mounted again), or to none
 *   ESTALE   the log was drained of events that the carrier has not carried: its medium has to get
 *            the image again */
int bpfs_carry(bpfs *fs, bpfs_carrier *carrier);

/* Carries to each of `count` carriers in turn, and drains the log when all have everything.
 *   EINVAL   also if `count` is 0 */
int bpfs_carry_all(bpfs *fs, bpfs_carrier *const *carriers, size_t count);

/* Carries to one of several carriers and waits, as bpfs_carry does, but drains nothing: the others
 * may not have the events yet. bpfs_carry_all carries the rest later, and drains. */
int bpfs_carry_on(bpfs *fs, bpfs_carrier *carrier);

/* Makes the medium an empty file system of `blocks` blocks in version 1, 2 or 3 of the format, and
 * waits until it is durable. The medium must have room for the blocks. It needs no binding, and
 * ends the carrier's binding. Returns a BPFS_ number (BPFS_OUT_OF_RANGE, BPFS_NO_MEMORY), or -1
 * with errno. */
int bpfs_format(bpfs_carrier *carrier, uint32_t blocks, uint32_t version);

/* Carries a copy of the whole image, for a medium that holds none or another one, waits until it is
 * durable, and binds the carrier. Word 0 becomes 0, then all other words are put, then word 0:
 * until the end the medium is BPFS_NOT_FORMATTED. BPFS_NOTE_WORD and BPFS_REDO_WORD are not copied.
 * If it fails, begin again with a new copy.
 *   EBUSY    the log is not empty: carry first
 *   EINVAL   no volume is mounted */
int bpfs_copy_image(bpfs *fs, bpfs_carrier *carrier);

#ifdef __cplusplus
}
#endif
#endif
