/* follow.h - applies a stream of epochs (stream.h) to a medium, by its carrier.
 *
 * A follower applies whole frames only, in their order, each as one epoch. So its medium holds, at each moment and
 * after each failure, an image of a prefix of the leader's calls. Between two calls of bpfs_follow it may be mounted, to
 * read, or to take over when the leader is gone for good. Only one program may lead: two make two images.
 *
 * The follower notes how far it came at BPFS_NOTE_WORD of the image. Each epoch notes the number of the one before it,
 * and so the note is never ahead of the words. A follower that goes on from the note applies at most the last epoch a
 * second time, which changes nothing. Frames that it has are passed over.
 *
 * The follower refuses, with EBADMSG, a frame with a wrong checksum, a number that leaves a gap, a word past the image,
 * or a store to one of the two words that a medium keeps for itself (BPFS_NOTE_WORD, BPFS_REDO_WORD). It applies
 * nothing of such a frame and nothing after it.
 *
 * An applied epoch is durable after bpfs_follower_settle. Answer only then: with `number`, when the leader has asked.
 */
#ifndef BPFS_FOLLOW_H
#define BPFS_FOLLOW_H
#include "stream.h"

#ifdef __cplusplus
extern "C" {
#endif

typedef struct bpfs_follower {
    bpfs_carrier *target;
    uint32_t blocks; /* of the image */
    uint64_t number; /* of the last epoch that was applied, or noted */
    bool refused;    /* a frame was refused: no more is applied */
    bool asked;      /* the leader waits for an answer: set it to false when you have answered */
    uint64_t *words; /* a frame that has come in part */
    size_t bytes, capacity;
} bpfs_follower;

/* Begins with a medium whose note is `noted` (0: a new one). The medium must be durable up to the note. */
void bpfs_follower_of(bpfs_follower *follower, bpfs_carrier *target, uint32_t blocks, uint64_t noted);

/* Goes on with the image in the file `fd`, of which `target` is a carrier. Syncs the file first, since a killed process
 * may have left it in the page cache only, then takes the size and the note from it. 0, or -1 with errno. */
int bpfs_follower_resume(bpfs_follower *follower, bpfs_carrier *target, int fd);

/* Takes bytes of the stream, any number, and applies the frames that are whole. 0, or -1 with errno. */
int bpfs_follow(bpfs_follower *follower, const void *bytes, size_t count);

/* Waits for bytes from `fd`, and takes what can be read. Returns how many came, 0 at the end of the stream, or -1 with
 * errno. */
long bpfs_follow_fd(bpfs_follower *follower, int fd);

/* Makes all applied epochs durable. 0, or -1 with errno. */
int bpfs_follower_settle(bpfs_follower *follower);

/* Frees the follower's memory. */
void bpfs_follower_close(bpfs_follower *follower);

#ifdef __cplusplus
}
#endif
#endif
