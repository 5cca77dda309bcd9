#define _GNU_SOURCE
#include <bpfs/file.h>
#include <errno.h>
#include <fcntl.h>
#include <limits.h>
#include <stdio.h>
#include <string.h>
#include <sys/file.h>
#include <sys/mman.h>
#include <sys/stat.h>
#include <unistd.h>

enum { BLOCK_BYTES = 8 * BPFS_BLOCK_WORDS };

_Static_assert(sizeof(off_t) == 8, "an image may have 256 GiB: offsets in a file need 64 bits");
_Static_assert(__BYTE_ORDER__ == __ORDER_LITTLE_ENDIAN__, "words of an image file are little endian: swap them here");

/* ---- the carrier */

static int put(bpfs_carrier *carrier, uint64_t word, const uint64_t *values, size_t count) {
    bpfs_file *file = (bpfs_file *)carrier;
    const char *from = (const char *)values;
    size_t left = 8 * count;
    off_t to = (off_t)word * 8;
    if (carrier->error) return errno = carrier->error, -1;
    if (word > file->words || count > file->words - word) return errno = EFBIG, -1;
    file->owes = true;
    while (left) {
        ssize_t n = pwrite(file->fd, from, left, to);
        if (n == 0) errno = EIO;
        if (n == 0 || (n < 0 && errno != EINTR)) return -1;
        if (n > 0) from += n, to += n, left -= (size_t)n;
    }
    return 0;
}

/* Orders and waits: a file has nothing that orders alone. */
static int settle(bpfs_carrier *carrier) {
    bpfs_file *file = (bpfs_file *)carrier;
    if (file->barrier == BPFS_FILE_CACHED || !file->owes) return 0;
    return bpfs_file_sync(file);
}

/* After a failure the kernel may have dropped what it could not write: a second fdatasync would
 * return 0. */
int bpfs_file_sync(bpfs_file *file) {
    int error = file->carrier.error;
    if (error && error != EROFS) return errno = error, -1;
    if (file->barrier == BPFS_FILE_CACHED) return 0;
    if (fdatasync(file->fd)) return errno = file->carrier.error = EIO, -1;
    file->owes = false;
    return 0;
}

/* ---- opening */

/* Closes after a failure, whose errno stays. */
static int give_up(bpfs_file *file) {
    int why = errno;
    if (file->fd >= 0) close(file->fd);
    file->fd = -1;
    return errno = why, -1;
}

/* Whether `path` is the name of the open file: while it was waited for, a save may have put another
 * file in its place. */
static bool is_named(const bpfs_file *file, const char *path) {
    struct stat open, named;
    return fstat(file->fd, &open) == 0 && stat(path, &named) == 0 && open.st_dev == named.st_dev && open.st_ino == named.st_ino;
}

static int open_and_lock(bpfs_file *file, const char *path, int flags, bpfs_file_barrier barrier) {
    *file = (bpfs_file){.carrier = {.put = put, .barrier = settle, .settle = settle}, .barrier = barrier, .owes = true};
    struct stat it;
    file->fd = open(path, flags | O_CLOEXEC, 0666);
    if (file->fd < 0) return -1;
    if (flock(file->fd, (flags & O_ACCMODE) == O_RDONLY ? LOCK_SH | LOCK_NB : LOCK_EX | LOCK_NB)) return give_up(file);
    if (!is_named(file, path)) return errno = EWOULDBLOCK, give_up(file);
    if (fstat(file->fd, &it)) return give_up(file);
    file->words = (uint64_t)it.st_size / 8;
    return 0;
}

int bpfs_sync_folder(const char *path) {
    char folder[PATH_MAX];
    const char *slash = strrchr(path, '/');
    size_t length = slash ? (size_t)(slash - path) : 0;
    if (length >= sizeof folder) return errno = ENAMETOOLONG, -1;
    memcpy(folder, path, length);
    strcpy(folder + length, slash == path ? "/" : slash ? "" : ".");
    int fd = open(folder, O_RDONLY | O_DIRECTORY | O_CLOEXEC);
    if (fd < 0) return -1;
    int code = fsync(fd), why = errno;
    close(fd);
    return errno = why, code;
}

/* Makes the file, its size and its name durable. */
static int sync_all(bpfs_file *file, const char *path) {
    if (bpfs_file_sync(file)) return -1;
    return file->barrier == BPFS_FILE_CACHED ? 0 : bpfs_sync_folder(path);
}

/* Opens to write: what a killed process left in the cache becomes durable, and so does the name. */
static int open_existing(bpfs_file *file, const char *path, int flags, bpfs_file_barrier barrier) {
    if (open_and_lock(file, path, flags, barrier)) return -1;
    return sync_all(file, path) ? give_up(file) : 0;
}

static int refuse_journal(bpfs_file *file) {
    uint64_t word = 0;
    if (pread(file->fd, &word, sizeof word, 8 * BPFS_REDO_WORD) < 0) return give_up(file);
    return bpfs_needs_journal(word) ? errno = EUCLEAN, give_up(file) : 0;
}

int bpfs_file_open_any(bpfs_file *file, const char *path, bpfs_file_barrier barrier) {
    return open_existing(file, path, O_RDWR, barrier);
}

int bpfs_file_open(bpfs_file *file, const char *path, bpfs_file_barrier barrier) {
    return bpfs_file_open_any(file, path, barrier) ? -1 : refuse_journal(file);
}

int bpfs_file_open_read(bpfs_file *file, const char *path) {
    if (open_and_lock(file, path, O_RDONLY, BPFS_FILE_WAITS)) return -1;
    file->carrier.error = EROFS;
    return bpfs_file_sync(file) ? give_up(file) : refuse_journal(file);
}

/* ---- creating */

/* Makes the file of zeros, and formats it with a version above 0. A BPFS_ number, or -1. */
static int fill_new(bpfs_file *file, const char *path, uint32_t blocks, uint32_t version) {
    if (ftruncate(file->fd, (off_t)blocks * BLOCK_BYTES)) return -1;
    file->words = (uint64_t)blocks * BPFS_BLOCK_WORDS;
    int code = version ? bpfs_format(&file->carrier, blocks, version) : 0;
    return code ? code : sync_all(file, path);
}

static int make(bpfs_file *file, const char *path, uint32_t blocks, uint32_t version, bpfs_file_barrier barrier) {
    if (open_and_lock(file, path, O_RDWR | O_CREAT | O_EXCL, barrier)) return -1;
    int code = fill_new(file, path, blocks, version);
    if (code == 0) return 0;
    int why = errno;
    unlink(path);
    errno = why;
    return give_up(file), code;
}

int bpfs_file_make(bpfs_file *file, const char *path, uint32_t blocks, bpfs_file_barrier barrier) {
    return make(file, path, blocks, 0, barrier);
}

int bpfs_file_create(bpfs_file *file, const char *path, uint32_t blocks, uint32_t version, bpfs_file_barrier barrier) {
    size_t count;
    uint32_t code = bpfs_format_events(blocks, version, NULL, 0, &count);
    *file = (bpfs_file){.fd = -1};
    return code ? (int)code : make(file, path, blocks, version, barrier);
}

/* ---- mounting, renaming, closing */

/* A size that is no whole number of words: the nearest size of an image, rounded down, is wanted.
 */
static int refuse_size(uint64_t found, bpfs_fault *fault) {
    uint64_t blocks = found / BLOCK_BYTES;
    if (blocks < BPFS_MIN_BLOCKS) blocks = BPFS_MIN_BLOCKS;
    if (blocks > BPFS_MAX_BLOCKS) blocks = BPFS_MAX_BLOCKS;
    if (fault) fault->found = found, fault->wanted = blocks * BLOCK_BYTES;
    return BPFS_BAD_SIZE;
}

/* Reads all of the mapped file. What cannot be read would kill the process later on; here it is an
 * error. */
static int populate(void *words, size_t length) {
#ifdef MADV_POPULATE_READ
    if (madvise(words, length, MADV_POPULATE_READ) && errno != EINVAL) return errno = EIO, -1;
#else
    (void)words, (void)length;
#endif
    return 0;
}

/* Whether the system gives memory for a copy of the words. If not, a large file is not read in vain. */
static bool has_memory(size_t length) {
    void *copy = mmap(NULL, length, PROT_READ | PROT_WRITE, MAP_PRIVATE | MAP_ANONYMOUS, -1, 0);
    return copy != MAP_FAILED && munmap(copy, length) == 0;
}

int bpfs_file_mount(bpfs *fs, bpfs_file *file, bpfs_fault *fault) {
    struct stat it;
    if (bpfs_file_sync(file) || fstat(file->fd, &it)) return -1;
    size_t length = (size_t)it.st_size;
    if (length == 0 || length % 8 || length > (size_t)BPFS_MAX_BLOCKS * BLOCK_BYTES) return refuse_size(length, fault);
    if (!has_memory(length)) return BPFS_NO_MEMORY;
    void *words = mmap(NULL, length, PROT_READ, MAP_SHARED, file->fd, 0);
    if (words == MAP_FAILED) return -1;
    int code = populate(words, length) ? -1 : (int)bpfs_mount(fs, words, length / 8, fault), why = errno;
    munmap(words, length);
    if (code || file->carrier.error) return errno = why, code;
    return bpfs_bind(fs, &file->carrier);
}

int bpfs_file_rename(bpfs_file *file, const char *from, const char *to) {
    if (!is_named(file, from)) return errno = ENOENT, -1;
    if (bpfs_file_sync(file) || rename(from, to)) return -1;
    return file->barrier == BPFS_FILE_CACHED ? 0 : bpfs_sync_folder(to);
}

int bpfs_file_close(bpfs_file *file) {
    int fd = file->fd;
    file->fd = -1;
    return fd < 0 ? 0 : close(fd);
}
