/* redo.h - carries to an image file through a journal: one wait a carry, and all calls of a carry
 * are one atomic step.
 *
 * settle writes all that was put since the last settle to the journal, with a checksum, and waits
 * once (fdatasync). Then it writes the words to the image, in order, and does not wait for that.
 * After a power failure the image shows the calls up to the end of some carry, at least of the last
 * one that returned 0. A carry waits twice if it is the first one after opening, or if the journal
 * is full and begins again. (What is put without settle beyond 1,000,000 words, as bpfs_copy_image
 * does, goes to the journal in parts, each of which waits.)
 *
 * The journal is the file IMAGE-redo beside IMAGE. The first carry makes it; opening applies what
 * is in it; a clean close empties it: then IMAGE is complete by itself, and may be used in any way.
 * Until then
 *   - keep to this version or a later one: an earlier one, with word numbers of 32 bits, does not
 *     read the journal, while this one also applies journals of earlier ones;
 *   - keep the two files together, and do not remove IMAGE-redo;
 *   - do not change IMAGE otherwise: file.h and pmem.h refuse it (EUCLEAN), but the program bpfs
 *     does not.
 * Meanwhile BPFS_REDO_WORD of the image notes the last entry of the journal that reached it. So a
 * journal is never applied to another image, or to a copy of the image from before the journal
 * began.
 *
 * Trusted: what file.h trusts of fdatasync and of sectors; and a checksum of 64 bits that finds a
 * torn entry of the journal.
 */
#ifndef BPFS_REDO_H
#define BPFS_REDO_H
#include "file.h"

#ifdef __cplusplus
extern "C" {
#endif

/* An open image with its journal. Look at it, but change nothing. Never copy one that is open. */
typedef struct bpfs_redo {
    bpfs_carrier carrier;
    bpfs_file image;
    char *name;                  /* of the journal */
    int fd;                      /* of the journal; -1: there is none yet */
    bool begun;                  /* the image needs its journal */
    uint64_t inode;              /* of the image */
    uint64_t last, number;       /* the note and the number of the journal's last entry */
    uint64_t half, at;           /* where the next entry begins: in which half, and at which byte */
    uint64_t *entry;             /* the next entry so far */
    size_t count, run, capacity; /* its words; where its last run begins; room for words */
    size_t waiting;              /* words that were put and wait for settle */
    bool written;                /* the journal has the entry, but the image may not */
} bpfs_redo;

/* The functions return 0, or -1 with errno. If one that opens fails, the structure is closed.
 * Errors as in file.h, and
 *   ESTALE   open, create: the journal belongs to another image, or to another copy of this one.
 *            Nothing is changed. Put the image back that belongs to it. If the journal is not
 *            wanted, remove it; an image with a note needs its own
 *   ENOENT   open: also if the image needs its journal, and that is missing or empty */

/* Creates an image as bpfs_file_create does. */
int bpfs_redo_create(bpfs_redo *redo, const char *path, uint32_t blocks, uint32_t version, bpfs_file_barrier barrier);

/* Opens an image to read and write, applies its journal, and makes all durable. The image may have
 * been written by another carrier before. Nothing is written if there is nothing to apply. */
int bpfs_redo_open(bpfs_redo *redo, const char *path, bpfs_file_barrier barrier);

/* Settles what was put, mounts a copy of the image's words, and binds the carrier to the volume. Returns
 * as bpfs_file_mount. */
int bpfs_redo_mount(bpfs *fs, bpfs_redo *redo, bpfs_fault *fault);

/* Makes the image complete, empties the journal, closes and unlocks. It carries nothing, and
 * forgets what was put and not settled. If it fails, the structure is closed too, and the journal
 * may not be empty: the next bpfs_redo_open goes on. Closing twice is harmless. */
int bpfs_redo_close(bpfs_redo *redo);

#ifdef __cplusplus
}
#endif
#endif
