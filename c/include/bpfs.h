/* bpfs.h - a crash-safe file system over 64-bit words, in your own process.
 *
 * WHAT IT IS
 *   A volume holds a copy of an image's words in ordinary memory and serves file calls on it. The
 *   library does no I/O: each call appends its stores to a log. Your program carries the log to
 *   durable storage: persistent memory, a file, another machine. bpfs/carry.h has the loop over the
 *   log; bpfs/file.h, bpfs/redo.h, bpfs/pmem.h and bpfs/stream.h have carriers.
 *
 * A PROGRAM
 *     #include <bpfs/file.h>
 *     #include <stdio.h>
 *     #define PATH(text) (const uint8_t *)(text), sizeof(text) - 1
 *
 *     int main(void) {
 *         bpfs fs = BPFS_CLOSED;
 *         bpfs_file file;
 *         bpfs_fault fault;
 *         bpfs_lack lack;
 *         uint8_t bytes[64];
 *         size_t count;
 *         if (bpfs_file_create(&file, "image", 64, 2, BPFS_FILE_WAITS)) return 1;
 *         if (bpfs_file_mount(&fs, &file, &fault)) return 1;
 *         if (bpfs_create(&fs, PATH("/greeting"), &lack)) return 1;
 *         if (bpfs_write(&fs, PATH("/greeting"), 0, PATH("hello"), &lack)) return 1;
 *         if (bpfs_carry(&fs, &file.carrier)) return 1; // both calls are durable from here on
 *         if (bpfs_read(&fs, PATH("/greeting"), 0, bytes, sizeof bytes, &count)) return 1;
 *         printf("%.*s\n", (int)count, (const char *)bytes);
 *         return bpfs_close(&fs) || bpfs_file_close(&file);
 *     }
 *
 * UNITS
 *   A word is a uint64_t; words are numbered from the start of the image. A block is 512 words,
 *   which are 4,096 bytes. An image has 8 to 67,108,864 blocks (256 GiB). Sizes and offsets of
 *   files are in bytes. Words are native integers here, and little endian in an image file.
 *
 * PATHS AND NAMES
 *   Paths and names are bytes with a length, not C strings. "/" is the root directory, "/a/b" is an
 *   entry of "/a". A path has at most 4,096 bytes. A name has 1 to 240 bytes, contains neither 0
 *   nor '/', and is neither "." nor "..". There is no current directory and there are no open
 *   files.
 *
 * RESULTS
 *   A call that returns a uint32_t returns BPFS_OK or another of the numbers below. If it does not
 *   return BPFS_OK, the tree is unchanged, and so is each result (a count, a size, a name), except:
 *   BPFS_NO_SPACE sets the bpfs_lack, BPFS_DAMAGED and BPFS_BAD_SIZE set fields of the bpfs_fault.
 *   bpfs_strerror has a text for each number.
 *
 * OWNERSHIP
 *   You own the handle: initialize it with BPFS_CLOSED, and never copy one that is open. bpfs_mount
 *   allocates a volume for it, and bpfs_close or bpfs_discard frees that volume. Closing twice is
 *   harmless and returns BPFS_HAS_NONE. You own all other memory. The library uses it only during
 *   the call, except what bpfs_mount_at lends. It may overlap with no other argument of the call.
 *
 * POINTERS
 *   A pointer that comes with a length may be NULL if the length is 0. A pointer to a single result
 *   (a count, a bpfs_lack, a bpfs_fault, a bpfs_found, ...) may be NULL if the result is not
 *   wanted. Every other pointer must point to an aligned object of its type, and an array must have
 *   as many elements as its length says. The library does not check this; it checks all else and
 *   returns a number. (The symbols of the library need pointers that are never NULL: the macros at
 *   the end of this header provide that. A call that avoids the macros, such as (bpfs_read)(...) or
 *   a call through a function pointer, has to provide it itself.)
 *
 * THREADS
 *   Only one thread at a time may use a handle. Different handles are independent. Call nothing
 *   here from a signal handler, and use no handle in both processes after a fork.
 *
 * COST
 *   A volume has its own copy of the words (4 KiB for each block), unless they are lent
 *   (bpfs_mount_at), up to some 276 bytes more for each block, and a log of 524,288 events
 *   (25 MB). The system provides pages of these as they are used. A mount also takes 24 bytes for
 *   each entry of the largest directory, and frees them at its end. bpfs_mount, bpfs_mount_at,
 *   bpfs_format_events, bpfs_list and bpfs_snap_list allocate memory. Other calls may allocate some
 *   to remember where names are; if that fails, they return the same result.
 *
 * CARRYING
 *   The log is a list of events, in order:
 *     BPFS_STORE    sets one word. The word must become durable whole or not at all.
 *     BPFS_BARRIER  ends an epoch. No store after it may become durable before all stores before it
 *                   are. Between two barriers, stores may become durable in any order, except that
 *                   stores to one word keep their order.
 *     BPFS_MARK     is the end-of-call marker. There is nothing to carry.
 *   A call that stores has a barrier between its last store and its marker. So a call is durable
 *   once everything before its marker is. Only calls that may change the tree add events.
 *
 *   If power fails at any point while you carry, the durable words are an image that mounts and
 *   shows the tree after a prefix of the calls. Each call that was durable is in that prefix. You
 *   may carry many calls at once (a group commit): only the order matters.
 *
 *   Carry before bpfs_drain, bpfs_discard and bpfs_close_at, which discard the events; no other
 *   call does. bpfs_close refuses while there are any (BPFS_PENDING). Never change an image in any
 *   way except by the events of one volume: that would damage it. (No image uses the two words of
 *   the superblock that carry.h reserves, such as BPFS_NOTE_WORD.)
 *
 * A FULL LOG
 *   A call that may change the tree returns BPFS_LOG_FULL and does nothing if the log has room for
 *   fewer than BPFS_LOG_ROOM (262,144) events, whatever it would need. Carry, drain, and call
 *   again. To avoid that, carry when bpfs_event_count exceeds BPFS_LOG_ROOM. Reads need no room.
 */
#ifndef BPFS_H
#define BPFS_H

#include <stdbool.h>
#include <stddef.h>
#include <stdint.h>

#if SIZE_MAX < UINT64_MAX
#error "bpfs.h needs a size_t of 64 bits: the library is built for 64-bit systems only"
#endif

#ifdef __cplusplus
extern "C" {
#endif

/* The version of this header. bpfs_version returns that of the library. */
#define BPFS_VERSION_MAJOR 0
#define BPFS_VERSION_MINOR 1
#define BPFS_VERSION_PATCH 0

enum {
    BPFS_OK = 0,
    BPFS_BAD_PATH = 1,       /* the bytes are not a path */
    BPFS_NOT_FOUND = 2,      /* a name of the path does not exist */
    BPFS_NOT_DIR = 3,        /* a file is where a directory is needed */
    BPFS_IS_DIR = 4,         /* a directory is where a file is needed */
    BPFS_EXISTS = 5,         /* the name exists */
    BPFS_NOT_EMPTY = 6,      /* the directory is not empty */
    BPFS_INTO_SELF = 7,      /* a directory would move below itself */
    BPFS_IS_ROOT = 8,        /* the root directory can be neither removed nor moved */
    BPFS_TOO_LONG = 9,       /* too many bytes for one call: BPFS_MAX_WRITE, BPFS_MAX_BATCH */
    BPFS_TOO_BIG = 10,       /* past the maximum file size: 2^39 bytes in version 1, later 2^57 */
    BPFS_NO_SPACE = 11,      /* fewer blocks are free than the call needs: see bpfs_lack */
    BPFS_NO_MEMORY = 12,     /* malloc failed */
    BPFS_NO_SNAP = 13,       /* there is no snapshot */
    BPFS_HAS_SNAP = 14,      /* there is a snapshot */
    BPFS_OLD_VERSION = 15,   /* the version has no snapshot (1), or no attributes (1 and 2) */
    BPFS_PAST_END = 16,      /* a piece of a batch ends past the end of its file */
    BPFS_HAS_NONE = 32,      /* the handle is closed: it has no volume */
    BPFS_HAS_ONE = 33,       /* the handle is open: it has a volume already */
    BPFS_LOG_FULL = 34,      /* carry the events, drain, and call again */
    BPFS_NOT_FORMATTED = 35, /* word 0 is not a magic number of a version */
    BPFS_BAD_SIZE = 36,      /* no image has this size, or this image has another: see bpfs_fault */
    BPFS_DAMAGED = 37,       /* a check of the format fails: see bpfs_fault */
    BPFS_OUT_OF_RANGE = 38,  /* no such word, index, attribute, version or block; short array */
    BPFS_AGAIN = 39,         /* a part of an upgrade is done: carry the events, drain, call again */
    BPFS_PENDING = 40,       /* the log has events: carry them and drain, or call bpfs_discard */
};

enum {
    BPFS_BLOCK_WORDS = 512,
    BPFS_MIN_BLOCKS = 8,
    BPFS_MAX_BLOCKS = 67108864,
    BPFS_MAX_NAME = 240,
    BPFS_MAX_PATH = 4096,
    BPFS_MAX_WRITE = 65536,     /* bytes of one write in version 1 */
    BPFS_MAX_WRITE_2 = 1048576, /* and in version 2 or 3 */
    BPFS_MAX_PIECES = 16,       /* of one batch */
    BPFS_MAX_BATCH = 65536,     /* bytes of all pieces of a batch together */
    BPFS_ATTRIBUTES = 3,        /* of each file and directory, in version 3 */
    BPFS_LOG_ROOM = 262144, /* events for which a call needs room: half of the capacity */
};

/* A handle. Initialize it: `bpfs fs = BPFS_CLOSED;`. Only the field is_open is public. */
typedef struct bpfs {
    void *volume;
    bool is_open;
} bpfs;

#define BPFS_CLOSED {NULL, false}

/* Memory with the words of an image, to lend to the library (bpfs_mount_at). If `is_there` is
 * false, there is none, and the other fields have no meaning. */
typedef struct bpfs_lent {
    uint64_t *words;
    size_t count;
    bool is_there;
} bpfs_lent;

/* Set by BPFS_NO_SPACE: the number of blocks that the call needs, and of free blocks. */
typedef struct bpfs_lack {
    uint32_t need, free;
} bpfs_lack;

/* BPFS_DAMAGED sets `check`, the number of a check that fails (docs/format.md), and `place`, the
 * index of the word at which it fails: words[place] of the words that were passed or lent.
 * BPFS_BAD_SIZE sets `found`, the size in bytes, and `wanted`: the size that the image says that it
 * has or, if no image has the size `found`, that of the next larger image, or of the largest one.
 * The other fields keep their values. */
typedef struct bpfs_fault {
    uint32_t check;
    uint64_t place;
    uint64_t found, wanted;
} bpfs_fault;

enum { BPFS_STORE = 0, BPFS_BARRIER = 1, BPFS_MARK = 2 };

/* An event. `word` and `value` are 0 except for a store. */
typedef struct bpfs_event {
    uint32_t kind;
    uint64_t word, value;
} bpfs_event;

/* Consecutive events that store to consecutive words, of which `word` is the first; or one event
 * that is not a store, with word 0. */
typedef struct bpfs_run {
    uint32_t kind;
    uint64_t word;
} bpfs_run;

/* A file and its size in bytes, or a directory and its number of names. */
typedef struct bpfs_found {
    uint64_t size;
    bool is_dir;
} bpfs_found;

/* Bytes that a batch writes to the file at a path, from `offset` on. The path and the bytes are
 * parts of the text of the batch: each has a position in it (`path_at`, `bytes_at`) and a
 * length. */
typedef struct bpfs_piece {
    uint32_t path_at, path_length;
    uint64_t offset;
    uint32_t bytes_at, bytes_length;
} bpfs_piece;

/* The numbers of free blocks and of blocks in use. The superblock counts as neither. */
typedef struct bpfs_blocks {
    uint32_t free, live;
} bpfs_blocks;

/* Properties of a volume: the version of the format (1 to 3), the number of blocks, how many events
 * the log can hold (`capacity`), for how many it has room now, and whether there is a snapshot. */
typedef struct bpfs_about {
    uint32_t version, blocks;
    size_t capacity, room;
    bool has_snapshot;
} bpfs_about;

/* Totals of a volume: its files, its directories including the root, the bytes of all files
 * (bytes_above * 2^64 + bytes), and the blocks in use except the superblock. */
typedef struct bpfs_sums {
    uint64_t files, dirs, bytes, bytes_above;
    uint32_t live;
} bpfs_sums;

/* ---- opening and closing --------------------------------------------------------------------- */

/* Returns the events that make an empty file system of any words: `blocks` is BPFS_MIN_BLOCKS to
 * BPFS_MAX_BLOCKS, `version` is 1, 2 or 3. There are 11 events in version 1, 13 in version 2 and 18
 * in version 3. Copies at most `capacity` of them, and sets *count to the number copied. Carry them,
 * then mount. A power failure in between leaves the old image, words that are BPFS_NOT_FORMATTED, or
 * the empty tree. BPFS_OUT_OF_RANGE: no such version or number of blocks. BPFS_NO_MEMORY. */
uint32_t bpfs_format_events(uint32_t blocks, uint32_t version, bpfs_event *into, size_t capacity, size_t *count);

/* Copies the words of an image, checks all of it that is in use, and opens the handle. `words` is
 * only read, and may be mapped memory. BPFS_BAD_SIZE, BPFS_NOT_FORMATTED, BPFS_DAMAGED: returned
 * exactly if the words are not an image. BPFS_HAS_ONE. BPFS_NO_MEMORY. */
uint32_t bpfs_mount(bpfs *fs, const uint64_t *words, size_t count, bpfs_fault *fault);

/* Opens the handle as bpfs_mount does, but over the words where they are. It copies none, and reads
 * only blocks that are in use, so a large image in a sparse mapping costs what its files cost. On
 * BPFS_OK, lent->is_there becomes false, and the library has the memory until the handle is closed:
 * do not read, write or free it. On any other result it stays yours, unchanged. Calls change the
 * words at once, before a barrier, so do not lend the medium: lend anonymous memory or a private
 * mapping, and carry the events to the medium. BPFS_OUT_OF_RANGE: lent->is_there is false. Other
 * results are those of bpfs_mount. */
uint32_t bpfs_mount_at(bpfs *fs, bpfs_lent *lent, bpfs_fault *fault);

/* Frees the volume and closes the handle, if the log is empty. Memory that was lent is not freed,
 * and is yours again. BPFS_HAS_NONE. BPFS_PENDING: the log has events; the handle stays open. */
uint32_t bpfs_close(bpfs *fs);

/* Frees the volume and closes the handle. Events that were not carried are lost. Memory that was
 * lent is not freed, and is yours again. BPFS_HAS_NONE. */
uint32_t bpfs_discard(bpfs *fs);

/* Closes the handle as bpfs_discard does, and sets *lent to the memory with the words as they are
 * now, which is yours then. If bpfs_mount allocated it, free lent->words. BPFS_HAS_NONE. */
uint32_t bpfs_close_at(bpfs *fs, bpfs_lent *lent);

/* ---- calls that change the tree -------------------------------------------------------------- */

/* Each call is one atomic step. It adds its events and then one end-of-call marker to the log; a
 * refused call adds the marker alone. Every call may return BPFS_HAS_NONE or BPFS_LOG_FULL; then it
 * adds nothing. Calls with a path may return BPFS_BAD_PATH, BPFS_NOT_FOUND and BPFS_NOT_DIR. Other
 * results are listed with each call. If there is a snapshot, every call with a `lack` may also
 * return BPFS_NO_SPACE. */

/* Create an empty file, or an empty directory. BPFS_EXISTS, BPFS_NO_SPACE. */
uint32_t bpfs_create(bpfs *fs, const uint8_t *path, size_t length, bpfs_lack *lack);
uint32_t bpfs_mkdir(bpfs *fs, const uint8_t *path, size_t length, bpfs_lack *lack);

/* Removes a link of a file, and deletes the file with its last link. BPFS_IS_DIR. */
uint32_t bpfs_unlink(bpfs *fs, const uint8_t *path, size_t length, bpfs_lack *lack);

/* Removes an empty directory. BPFS_IS_ROOT, BPFS_NOT_EMPTY. */
uint32_t bpfs_rmdir(bpfs *fs, const uint8_t *path, size_t length, bpfs_lack *lack);

/* Moves a file or a directory from `from` to `to`, also to another directory. It replaces what is
 * at `to`: a file replaces a file, a directory replaces an empty directory. If both paths find one
 * file or directory, nothing changes. BPFS_IS_ROOT, BPFS_INTO_SELF, BPFS_IS_DIR, BPFS_NOT_EMPTY,
 * BPFS_NO_SPACE. */
uint32_t bpfs_rename(bpfs *fs, const uint8_t *from, size_t from_length, const uint8_t *to, size_t to_length, bpfs_lack *lack);

/* Adds a hard link `to` to the file at `from`. BPFS_IS_DIR, BPFS_EXISTS, BPFS_NO_SPACE. */
uint32_t bpfs_link(bpfs *fs, const uint8_t *from, size_t from_length, const uint8_t *to, size_t to_length, bpfs_lack *lack);

/* Writes bytes from `offset` on, all or none. Bytes between the old end of the file and `offset`
 * become 0. With no bytes nothing changes. BPFS_TOO_LONG, BPFS_IS_DIR, BPFS_TOO_BIG,
 * BPFS_NO_SPACE. */
uint32_t bpfs_write(bpfs *fs, const uint8_t *path, size_t length, uint64_t offset, const uint8_t *bytes, size_t count, bpfs_lack *lack);

/* Writes up to BPFS_MAX_PIECES pieces to one or more files, in their order, all or none. Each file
 * keeps its size. BPFS_OUT_OF_RANGE: too many pieces, or one that is not within the text (it adds
 * nothing). BPFS_TOO_LONG, BPFS_IS_DIR, BPFS_PAST_END, BPFS_NO_SPACE. */
uint32_t bpfs_batch(bpfs *fs, const uint8_t *text, size_t length, const bpfs_piece *pieces, size_t count, bpfs_lack *lack);

/* Sets the size of a file: cuts it, or appends zeros. BPFS_IS_DIR, BPFS_TOO_BIG, BPFS_NO_SPACE. */
uint32_t bpfs_truncate(bpfs *fs, const uint8_t *path, size_t length, uint64_t size, bpfs_lack *lack);

/* Sets attribute number `number` of the file or directory at a path. An attribute is a number of
 * 64 bits that is the caller's own: the file system gives it no meaning. In version 3 each file and
 * directory, also the root, has BPFS_ATTRIBUTES of them, with numbers from 0 on. In a new one they
 * are 0. A file has the same ones at each of its paths. Every other call keeps them, and a snapshot
 * has those of its time. BPFS_OUT_OF_RANGE: no attribute has this number (it adds nothing).
 * BPFS_OLD_VERSION: the version is 1 or 2. */
uint32_t bpfs_set_attribute(bpfs *fs, const uint8_t *path, size_t length, uint64_t number, uint64_t value, bpfs_lack *lack);

/* Changes an image of version 1 to version 2, with the same tree. Does nothing in a later version.
 * This cannot be undone. */
uint32_t bpfs_upgrade(bpfs *fs);

/* Changes an image of version 1 or 2 to version 3, with the same tree. Does nothing in version 3.
 * This cannot be undone. The words that become attributes have to be 0 first. While there are
 * others, the call sets up to 196,608 of them to 0 and returns BPFS_AGAIN; the files are the same
 * then, in the old version. Carry the events, drain, and call again. BPFS_HAS_SNAP: the version is
 * 2, and there is a snapshot. */
uint32_t bpfs_upgrade_to_three(bpfs *fs);

/* Takes a snapshot: keeps the tree as it is now, for the bpfs_snap_ calls to read. There is at most
 * one, and none in version 1. It takes no block. From then on, a call that changes the tree first
 * copies each block of the snapshot to which it would store, and the blocks on the path to it. So
 * any such call may need blocks, also a removal. BPFS_OLD_VERSION, BPFS_HAS_SNAP. */
uint32_t bpfs_snap(bpfs *fs);

/* Deletes the snapshot, and frees the blocks that only it uses. BPFS_NO_SNAP. */
uint32_t bpfs_unsnap(bpfs *fs);

/* ---- calls that change nothing --------------------------------------------------------------- */

/* They add nothing to the log, and need no room there. Each call may return BPFS_HAS_NONE; each
 * with a path may return BPFS_BAD_PATH, BPFS_NOT_FOUND and BPFS_NOT_DIR. */

/* Reads at most `capacity` bytes of a file from `offset` on, and sets *count to the number of bytes
 * that were read. The rest of `into` is unchanged. BPFS_IS_DIR. */
uint32_t bpfs_read(bpfs *fs, const uint8_t *path, size_t length, uint64_t offset, uint8_t *into, size_t capacity, size_t *count);

/* Gets the kind of what is at a path, and its size or number of names. */
uint32_t bpfs_stat(bpfs *fs, const uint8_t *path, size_t length, bpfs_found *found);

/* Gets the number of links of a file. BPFS_IS_DIR. */
uint32_t bpfs_links(bpfs *fs, const uint8_t *path, size_t length, uint32_t *count);

/* Gets the number of the inode of a file or directory, at least 1. All links of a file have the
 * same one, and no two files that exist at one time. A new file may get that of a removed one. */
uint32_t bpfs_inode(bpfs *fs, const uint8_t *path, size_t length, uint32_t *ino);

/* Gets attribute number `number` of the file or directory at a path (bpfs_set_attribute).
 * BPFS_OUT_OF_RANGE: no attribute has this number. BPFS_OLD_VERSION. */
uint32_t bpfs_attribute(bpfs *fs, const uint8_t *path, size_t length, uint64_t number, uint64_t *value);

/* Lists a directory in the byte order of its names, and sets *count to the number of names. The
 * handle keeps the listing, whatever happens to the directory, until the next bpfs_list or
 * bpfs_snap_list that succeeds, or until it is closed. Get the names by bpfs_listed.
 * BPFS_NO_MEMORY. */
uint32_t bpfs_list(bpfs *fs, const uint8_t *path, size_t length, size_t *count);

/* As bpfs_read, bpfs_stat and bpfs_list, for the tree of the snapshot. BPFS_NO_SNAP. */
uint32_t bpfs_snap_read(bpfs *fs, const uint8_t *path, size_t length, uint64_t offset, uint8_t *into, size_t capacity, size_t *count);
uint32_t bpfs_snap_stat(bpfs *fs, const uint8_t *path, size_t length, bpfs_found *found);
uint32_t bpfs_snap_list(bpfs *fs, const uint8_t *path, size_t length, size_t *count);

/* Gets entry number `index` (from 0) of the last listing: its name, the length of that, and whether
 * it is a directory. The name is not NUL-terminated; a buffer of BPFS_MAX_NAME bytes always
 * suffices. BPFS_OUT_OF_RANGE: there is no listing or no such entry, or the buffer is too small. */
uint32_t bpfs_listed(bpfs *fs, size_t index, uint8_t *name, size_t capacity, size_t *length, bool *is_dir);

/* Gets the version and the size of the image, whether there is a snapshot, and how many events the
 * log can hold and still has room for. */
uint32_t bpfs_info(bpfs *fs, bpfs_about *about);

/* Gets the numbers of free blocks and of blocks in use, also by the snapshot. They are exact. */
uint32_t bpfs_space(bpfs *fs, bpfs_blocks *blocks);

/* Scans the image, which takes as long as a mount, and gets its totals: of the current tree, except
 * that the blocks in use include those of the snapshot. */
uint32_t bpfs_totals(bpfs *fs, bpfs_sums *sums);

/* Copies `count` words from `first` on, as they are now, with all events applied.
 * BPFS_OUT_OF_RANGE. */
uint32_t bpfs_words(bpfs *fs, uint64_t first, uint64_t *into, size_t count);

/* ---- the log --------------------------------------------------------------------------------- */

/* Returns the number of events in the log: those since the last drain. 0 for a closed handle. */
size_t bpfs_event_count(bpfs *fs);

/* Copies events from number `first` (from 0) on, at most `capacity`, and returns how many. 0 for a
 * closed handle. */
size_t bpfs_events(bpfs *fs, size_t first, bpfs_event *into, size_t capacity);

/* Gets the run that begins with event number `first`, and returns its number of events; the next
 * run begins that many events later. Copies the values of stores, at most `capacity`: a longer run
 * is returned in parts. Returns 0 if there is no such event, for a closed handle, and for stores if
 * `capacity` is 0 (then `run` has the first word). */
size_t bpfs_run_at(bpfs *fs, size_t first, bpfs_run *run, uint64_t *values, size_t capacity);

/* Removes all events from the log. The caller asserts that they are durable. BPFS_HAS_NONE. */
uint32_t bpfs_drain(bpfs *fs);

/* Returns how many events drains have removed from the log since the mount. An event's number since
 * the mount is this plus its index in the log. 0 for a closed handle. */
uint64_t bpfs_drained(bpfs *fs);

/* Sets a number that the library keeps with the mounted volume, for the caller's own use; it is 0
 * after a mount. carry.c uses it: a program that carries must not set it. BPFS_HAS_NONE. */
uint32_t bpfs_set_tag(bpfs *fs, uint64_t tag);

/* Returns that number; 0 for a closed handle. */
uint64_t bpfs_tag(bpfs *fs);

/* ---- texts ----------------------------------------------------------------------------------- */

/* Returns a text for the result of a call, such as "no such file or directory". It is a constant
 * string, also for a number that is no result. A carrier's -1 has its reason in errno instead. */
const char *bpfs_strerror(uint32_t result);

/* Returns the version of the library as a text: "MAJOR.MINOR.PATCH". */
const char *bpfs_version(void);

/* ---- pointers that are NULL ------------------------------------------------------------------ */

/* Returns the pointer, or if the length is 0 one to an object that is neither read nor written. */
static inline void *bpfs_some(const void *pointer, size_t length) {
    static uint64_t nothing;
    return length ? (void *)(uintptr_t)pointer : (void *)&nothing;
}

#define BPFS_BYTES(pointer, length) ((const uint8_t *)bpfs_some(pointer, length))

static inline uint32_t bpfs_format_events_any(uint32_t blocks, uint32_t version, bpfs_event *into, size_t capacity, size_t *count) {
    size_t unused;
    return bpfs_format_events(blocks, version, (bpfs_event *)bpfs_some(into, capacity), capacity, count ? count : &unused);
}

static inline uint32_t bpfs_mount_any(bpfs *fs, const uint64_t *words, size_t count, bpfs_fault *fault) {
    bpfs_fault unused;
    return bpfs_mount(fs, (const uint64_t *)bpfs_some(words, count), count, fault ? fault : &unused);
}

static inline uint32_t bpfs_mount_at_any(bpfs *fs, bpfs_lent *lent, bpfs_fault *fault) {
    bpfs_fault unused;
    return bpfs_mount_at(fs, lent, fault ? fault : &unused);
}

static inline uint32_t bpfs_create_any(bpfs *fs, const uint8_t *path, size_t length, bpfs_lack *lack) {
    bpfs_lack unused;
    return bpfs_create(fs, BPFS_BYTES(path, length), length, lack ? lack : &unused);
}

static inline uint32_t bpfs_mkdir_any(bpfs *fs, const uint8_t *path, size_t length, bpfs_lack *lack) {
    bpfs_lack unused;
    return bpfs_mkdir(fs, BPFS_BYTES(path, length), length, lack ? lack : &unused);
}

static inline uint32_t bpfs_unlink_any(bpfs *fs, const uint8_t *path, size_t length, bpfs_lack *lack) {
    bpfs_lack unused;
    return bpfs_unlink(fs, BPFS_BYTES(path, length), length, lack ? lack : &unused);
}

static inline uint32_t bpfs_rmdir_any(bpfs *fs, const uint8_t *path, size_t length, bpfs_lack *lack) {
    bpfs_lack unused;
    return bpfs_rmdir(fs, BPFS_BYTES(path, length), length, lack ? lack : &unused);
}

static inline uint32_t bpfs_rename_any(bpfs *fs, const uint8_t *from, size_t from_length, const uint8_t *to, size_t to_length, bpfs_lack *lack) {
    bpfs_lack unused;
    return bpfs_rename(fs, BPFS_BYTES(from, from_length), from_length, BPFS_BYTES(to, to_length), to_length, lack ? lack : &unused);
}

static inline uint32_t bpfs_link_any(bpfs *fs, const uint8_t *from, size_t from_length, const uint8_t *to, size_t to_length, bpfs_lack *lack) {
    bpfs_lack unused;
    return bpfs_link(fs, BPFS_BYTES(from, from_length), from_length, BPFS_BYTES(to, to_length), to_length, lack ? lack : &unused);
}

static inline uint32_t bpfs_write_any(bpfs *fs, const uint8_t *path, size_t length, uint64_t offset, const uint8_t *bytes, size_t count,
                                      bpfs_lack *lack) {
    bpfs_lack unused;
    return bpfs_write(fs, BPFS_BYTES(path, length), length, offset, BPFS_BYTES(bytes, count), count, lack ? lack : &unused);
}

static inline uint32_t bpfs_batch_any(bpfs *fs, const uint8_t *text, size_t length, const bpfs_piece *pieces, size_t count, bpfs_lack *lack) {
    bpfs_lack unused;
    return bpfs_batch(fs, BPFS_BYTES(text, length), length, (const bpfs_piece *)bpfs_some(pieces, count), count, lack ? lack : &unused);
}

static inline uint32_t bpfs_truncate_any(bpfs *fs, const uint8_t *path, size_t length, uint64_t size, bpfs_lack *lack) {
    bpfs_lack unused;
    return bpfs_truncate(fs, BPFS_BYTES(path, length), length, size, lack ? lack : &unused);
}

static inline uint32_t bpfs_set_attribute_any(bpfs *fs, const uint8_t *path, size_t length, uint64_t number, uint64_t value, bpfs_lack *lack) {
    bpfs_lack unused;
    return bpfs_set_attribute(fs, BPFS_BYTES(path, length), length, number, value, lack ? lack : &unused);
}

static inline uint32_t bpfs_read_any(bpfs *fs, const uint8_t *path, size_t length, uint64_t offset, uint8_t *into, size_t capacity, size_t *count) {
    size_t unused;
    return bpfs_read(fs, BPFS_BYTES(path, length), length, offset, (uint8_t *)bpfs_some(into, capacity), capacity, count ? count : &unused);
}

static inline uint32_t bpfs_stat_any(bpfs *fs, const uint8_t *path, size_t length, bpfs_found *found) {
    bpfs_found unused;
    return bpfs_stat(fs, BPFS_BYTES(path, length), length, found ? found : &unused);
}

static inline uint32_t bpfs_links_any(bpfs *fs, const uint8_t *path, size_t length, uint32_t *count) {
    uint32_t unused;
    return bpfs_links(fs, BPFS_BYTES(path, length), length, count ? count : &unused);
}

static inline uint32_t bpfs_inode_any(bpfs *fs, const uint8_t *path, size_t length, uint32_t *ino) {
    uint32_t unused;
    return bpfs_inode(fs, BPFS_BYTES(path, length), length, ino ? ino : &unused);
}

static inline uint32_t bpfs_attribute_any(bpfs *fs, const uint8_t *path, size_t length, uint64_t number, uint64_t *value) {
    uint64_t unused;
    return bpfs_attribute(fs, BPFS_BYTES(path, length), length, number, value ? value : &unused);
}

static inline uint32_t bpfs_list_any(bpfs *fs, const uint8_t *path, size_t length, size_t *count) {
    size_t unused;
    return bpfs_list(fs, BPFS_BYTES(path, length), length, count ? count : &unused);
}

static inline uint32_t bpfs_snap_read_any(bpfs *fs, const uint8_t *path, size_t length, uint64_t offset, uint8_t *into, size_t capacity,
                                          size_t *count) {
    size_t unused;
    return bpfs_snap_read(fs, BPFS_BYTES(path, length), length, offset, (uint8_t *)bpfs_some(into, capacity), capacity, count ? count : &unused);
}

static inline uint32_t bpfs_snap_stat_any(bpfs *fs, const uint8_t *path, size_t length, bpfs_found *found) {
    bpfs_found unused;
    return bpfs_snap_stat(fs, BPFS_BYTES(path, length), length, found ? found : &unused);
}

static inline uint32_t bpfs_snap_list_any(bpfs *fs, const uint8_t *path, size_t length, size_t *count) {
    size_t unused;
    return bpfs_snap_list(fs, BPFS_BYTES(path, length), length, count ? count : &unused);
}

static inline uint32_t bpfs_listed_any(bpfs *fs, size_t index, uint8_t *name, size_t capacity, size_t *length, bool *is_dir) {
    size_t length_unused;
    bool is_dir_unused;
    return bpfs_listed(fs, index, (uint8_t *)bpfs_some(name, capacity), capacity, length ? length : &length_unused,
                       is_dir ? is_dir : &is_dir_unused);
}

static inline uint32_t bpfs_info_any(bpfs *fs, bpfs_about *about) {
    bpfs_about unused;
    return bpfs_info(fs, about ? about : &unused);
}

static inline uint32_t bpfs_space_any(bpfs *fs, bpfs_blocks *blocks) {
    bpfs_blocks unused;
    return bpfs_space(fs, blocks ? blocks : &unused);
}

static inline uint32_t bpfs_totals_any(bpfs *fs, bpfs_sums *sums) {
    bpfs_sums unused;
    return bpfs_totals(fs, sums ? sums : &unused);
}

static inline uint32_t bpfs_words_any(bpfs *fs, uint64_t first, uint64_t *into, size_t count) {
    return bpfs_words(fs, first, (uint64_t *)bpfs_some(into, count), count);
}

static inline size_t bpfs_events_any(bpfs *fs, size_t first, bpfs_event *into, size_t capacity) {
    return bpfs_events(fs, first, (bpfs_event *)bpfs_some(into, capacity), capacity);
}

static inline size_t bpfs_run_at_any(bpfs *fs, size_t first, bpfs_run *run, uint64_t *values, size_t capacity) {
    bpfs_run unused;
    return bpfs_run_at(fs, first, run ? run : &unused, (uint64_t *)bpfs_some(values, capacity), capacity);
}

#undef BPFS_BYTES
#define bpfs_format_events(...) bpfs_format_events_any(__VA_ARGS__)
#define bpfs_mount(...) bpfs_mount_any(__VA_ARGS__)
#define bpfs_mount_at(...) bpfs_mount_at_any(__VA_ARGS__)
#define bpfs_create(...) bpfs_create_any(__VA_ARGS__)
#define bpfs_mkdir(...) bpfs_mkdir_any(__VA_ARGS__)
#define bpfs_unlink(...) bpfs_unlink_any(__VA_ARGS__)
#define bpfs_rmdir(...) bpfs_rmdir_any(__VA_ARGS__)
#define bpfs_rename(...) bpfs_rename_any(__VA_ARGS__)
#define bpfs_link(...) bpfs_link_any(__VA_ARGS__)
#define bpfs_write(...) bpfs_write_any(__VA_ARGS__)
#define bpfs_batch(...) bpfs_batch_any(__VA_ARGS__)
#define bpfs_truncate(...) bpfs_truncate_any(__VA_ARGS__)
#define bpfs_set_attribute(...) bpfs_set_attribute_any(__VA_ARGS__)
#define bpfs_read(...) bpfs_read_any(__VA_ARGS__)
#define bpfs_stat(...) bpfs_stat_any(__VA_ARGS__)
#define bpfs_links(...) bpfs_links_any(__VA_ARGS__)
#define bpfs_inode(...) bpfs_inode_any(__VA_ARGS__)
#define bpfs_attribute(...) bpfs_attribute_any(__VA_ARGS__)
#define bpfs_list(...) bpfs_list_any(__VA_ARGS__)
#define bpfs_snap_read(...) bpfs_snap_read_any(__VA_ARGS__)
#define bpfs_snap_stat(...) bpfs_snap_stat_any(__VA_ARGS__)
#define bpfs_snap_list(...) bpfs_snap_list_any(__VA_ARGS__)
#define bpfs_listed(...) bpfs_listed_any(__VA_ARGS__)
#define bpfs_info(...) bpfs_info_any(__VA_ARGS__)
#define bpfs_space(...) bpfs_space_any(__VA_ARGS__)
#define bpfs_totals(...) bpfs_totals_any(__VA_ARGS__)
#define bpfs_words(...) bpfs_words_any(__VA_ARGS__)
#define bpfs_events(...) bpfs_events_any(__VA_ARGS__)
#define bpfs_run_at(...) bpfs_run_at_any(__VA_ARGS__)

#ifdef __cplusplus
}
#endif
#endif
