/* file.h - carries to an image file by pwrite and fdatasync.
 *
 * A file is opened for one purpose: to create an image, to go on with one, or to read one. An image
 * that exists is never truncated, and a name that does not exist is only made by the create
 * functions.
 *
 * With BPFS_FILE_WAITS every barrier and every settle is an fdatasync. Trusted: fdatasync returns
 * when all earlier writes are on the disk, and the disk writes a sector (512 bytes or more) whole
 * or not at all. If fdatasync fails, it is unknown what the disk has: `carrier.error` becomes EIO,
 * and everything but closing fails from then on. End the process, find out what is wrong with the
 * disk, and mount again.
 *
 * With BPFS_FILE_CACHED nothing waits: the kernel has all that was put, in order. That survives a
 * killed process, but no power failure. Use it for tests, for /dev/shm, and for images that can be
 * made again.
 *
 * Locks: flock, as the program bpfs has it. One process may write; readers may share. Do not use
 * the functions below on one structure from two threads at once.
 *
 * redo.h carries to an image file with fewer waits, and makes all calls of a carry one atomic step.
 */
#ifndef BPFS_FILE_H
#define BPFS_FILE_H
#include "carry.h"

#ifdef __cplusplus
extern "C" {
#endif

typedef enum bpfs_file_barrier { BPFS_FILE_WAITS, BPFS_FILE_CACHED } bpfs_file_barrier;

/* An open image file. Look at it, but change nothing. Never copy one that is open. */
typedef struct bpfs_file {
    bpfs_carrier carrier;
    int fd;
    bpfs_file_barrier barrier;
    uint64_t words; /* of the file when it was opened */
    bool owes;      /* something may have been written since the last fdatasync */
} bpfs_file;

/* The functions return 0, or -1 with errno, if nothing else is said. If one that opens fails, the
 * structure is closed. Errors of open, flock, fstat, pwrite, fsync and close come through; these
 * have one cause:
 *   EWOULDBLOCK   another process (or another bpfs_file of this one) has the image open
 *   EEXIST        create: the name exists
 *   ENOENT        open: the name does not exist
 *   EUCLEAN       open: the image needs its journal. Open and close it by redo.h first
 *   EROFS         carry: the image was opened for reading
 *   EFBIG         put: past the end of the file
 *   EIO           an fdatasync failed, now or earlier */

/* Creates an image of `blocks` blocks in version 1, 2 or 3 of the format, empty, durable with its
 * name. The name must not exist; if creating fails, it is removed again. A power failure meanwhile
 * can leave the name with a file that does not mount. It may also return BPFS_OUT_OF_RANGE or
 * BPFS_NO_MEMORY. */
int bpfs_file_create(bpfs_file *file, const char *path, uint32_t blocks, uint32_t version, bpfs_file_barrier barrier);

/* The same without a format: the file has `blocks` blocks of zeros and is no image until
 * bpfs_format or bpfs_copy_image. */
int bpfs_file_make(bpfs_file *file, const char *path, uint32_t blocks, bpfs_file_barrier barrier);

/* Opens an image to read and write, and syncs what an earlier process may have left unsynced. Only
 * BPFS_REDO_WORD of the contents is looked at. */
int bpfs_file_open(bpfs_file *file, const char *path, bpfs_file_barrier barrier);

/* The same to read only: carrying fails with EROFS. */
int bpfs_file_open_read(bpfs_file *file, const char *path);

/* As bpfs_file_open, but without EUCLEAN: for a carrier that applies the journal itself. */
int bpfs_file_open_any(bpfs_file *file, const char *path, bpfs_file_barrier barrier);

/* Waits until all that any process has written to the file is durable. Returns at once with
 * BPFS_FILE_CACHED. */
int bpfs_file_sync(bpfs_file *file);

/* Syncs the file, mounts a copy of its words, and binds the carrier to the volume. Returns a BPFS_
 * number (those of bpfs_mount), or -1 with errno. A size that is no whole number of words, 0 too,
 * is BPFS_BAD_SIZE with `fault` filled in, if that is not NULL. BPFS_NO_MEMORY may come before the
 * file is read. */
int bpfs_file_mount(bpfs *fs, bpfs_file *file, bpfs_fault *fault);

/* Renames the open file from `from` to `to`, which it replaces, durably: file, then name, then the
 * folder. Both names must be in one folder. */
int bpfs_file_rename(bpfs_file *file, const char *from, const char *to);

/* Closes and unlocks. It carries nothing: events that were not carried are lost with the volume.
 * Closing twice is harmless. */
int bpfs_file_close(bpfs_file *file);

/* Makes the entry `path` in its folder durable: fsync of the folder. */
int bpfs_sync_folder(const char *path);

#ifdef __cplusplus
}
#endif
#endif
